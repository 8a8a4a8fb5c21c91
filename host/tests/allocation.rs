//! Lifting words allocates nothing once the buffers have grown, and taking brackets away allocates a few times a tree.

use sorbrudder::{Lifter, Limit, Reader, Tokens};
use std::alloc::{GlobalAlloc, Layout, System};
use std::cell::Cell;

thread_local! {
    /// How often this thread has allocated.
    static COUNT: Cell<usize> = const { Cell::new(0) };
}

struct Counting;

fn count() {
    // A thread that is ending has no count any more.
    let _ = COUNT.try_with(|count| count.set(count.get() + 1));
}

// SAFETY: every call is the system allocator's.
unsafe impl GlobalAlloc for Counting {
    unsafe fn alloc(&self, layout: Layout) -> *mut u8 {
        count();
        unsafe { System.alloc(layout) }
    }

    unsafe fn dealloc(&self, place: *mut u8, layout: Layout) {
        unsafe { System.dealloc(place, layout) }
    }

    unsafe fn realloc(&self, place: *mut u8, layout: Layout, len: usize) -> *mut u8 {
        count();
        unsafe { System.realloc(place, layout, len) }
    }
}

#[global_allocator]
static COUNTING: Counting = Counting;

fn allocations<T>(run: impl FnOnce() -> T) -> usize {
    let before = COUNT.get();
    drop(run());
    COUNT.get() - before
}

#[test]
fn lifting_words_allocates_nothing() {
    let long = format!("a{}", " && b || c".repeat(200));
    let texts = [
        "a && b || c",
        "a + b",
        "a ? b : c ? d : e",
        "a b",
        "a = b;",
        &long,
    ];
    let lists = texts.map(|text| text.parse::<Tokens>().expect("the notation").words());
    let mut lifter = Lifter::new();
    let lift_all = |lifter: &mut Lifter| {
        let lifted = |list: &Vec<u32>| lifter.lift_words(list).from(5).to(6).is_ok();
        lists.iter().map(lifted).filter(|ok| *ok).count()
    };
    assert_eq!(lift_all(&mut lifter), 5);
    assert_eq!(allocations(|| lift_all(&mut lifter)), 0);
    let settled = |lifter: &mut Lifter| lifter.settle_words(&lists[0], 5).is_ok();
    assert_eq!(allocations(|| settled(&mut lifter)), 0);
    // Under a limit a written list is held to it.
    let two = Limit::new(2).expect("a limit");
    let mut lifter = Lifter::new().with_limit_to(two);
    assert_eq!(lift_all(&mut lifter), 4);
    assert_eq!(allocations(|| lift_all(&mut lifter)), 0);
}

#[test]
fn taking_brackets_away_allocates_a_few_times_a_tree() {
    let text = format!("a{}", " + (b)".repeat(800));
    let list: Tokens = text.parse().expect("the notation");
    let tree = Reader::new().read(&list, 6).expect("a tree");
    let count = allocations(|| tree.without_brackets());
    assert!(count < 40, "{count} allocations for {} nodes", tree.len());
}
