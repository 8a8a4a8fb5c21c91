//! Files of lists: what is written is read, and every cut and every bit that is turned over is found.

use sorbrudder::Tokens;
use sorbrudder::archive::{ArchiveError, Damage, Format, Lists, ListsWriter, MOST_WORDS};

type Kept = Vec<(i16, Vec<u32>)>;

fn sample() -> Kept {
    let texts = [(5, "a && b || c"), (-1, ""), (4, "a : b"), (6, "a +")];
    let words = |text: &str| text.parse::<Tokens>().expect("the notation").words();
    texts
        .iter()
        .map(|(version, text)| (*version, words(text)))
        .collect()
}

fn written(lists: &Kept, format: Format) -> Vec<u8> {
    let mut writer = ListsWriter::new(Vec::new(), format).expect("a list of bytes takes all");
    for (version, words) in lists {
        writer
            .write(*version, words)
            .expect("a list of bytes takes all");
    }
    let (bytes, totals) = writer.finish().expect("a list of bytes takes all");
    assert_eq!(totals.lists, lists.len() as u64);
    bytes
}

fn read(bytes: &[u8]) -> Result<Kept, ArchiveError> {
    let mut lists = Lists::new(bytes)?;
    let mut kept = Vec::new();
    while let Some(list) = lists.next_list()? {
        assert_eq!(list.number, kept.len() as u64);
        kept.push((list.version, list.words.to_vec()));
    }
    assert!(lists.next_list().is_ok_and(|list| list.is_none()));
    Ok(kept)
}

fn damage(bytes: &[u8]) -> Option<Damage> {
    match read(bytes) {
        Err(ArchiveError::Damaged { damage, .. }) => Some(damage),
        Err(why) => panic!("{why}"),
        Ok(_) => None,
    }
}

#[test]
fn what_is_written_is_read() {
    for format in [Format::Words, Format::Container] {
        let lists = sample();
        let bytes = written(&lists, format);
        assert_eq!(read(&bytes).expect("whole"), lists);
        assert_eq!(Lists::new(&bytes[..]).expect("whole").format(), format);
    }
    assert_eq!(
        read(&written(&Vec::new(), Format::Container)).expect("whole"),
        []
    );
}

#[test]
fn every_cut_of_a_container_is_found() {
    let bytes = written(&sample(), Format::Container);
    for len in 0..bytes.len() {
        assert!(
            damage(&bytes[..len]).is_some(),
            "cut at {len} of {}",
            bytes.len()
        );
    }
    let mut longer = bytes;
    longer.push(0);
    assert_eq!(damage(&longer), Some(Damage::After));
}

#[test]
fn every_bit_that_is_turned_over_is_found() {
    let bytes = written(&sample(), Format::Container);
    for bit in 0..8 * bytes.len() {
        let mut turned = bytes.clone();
        turned[bit / 8] ^= 1 << (bit % 8);
        assert!(damage(&turned).is_some(), "bit {bit} of byte {}", bit / 8);
    }
}

#[test]
fn lists_that_are_missing_or_exchanged_are_found() {
    let lists = sample();
    let of = |order: &[usize]| {
        let some: Kept = order.iter().map(|place| lists[*place].clone()).collect();
        written(&some, Format::Container)
    };
    let (whole, exchanged) = (of(&[0, 1, 2, 3]), of(&[1, 0, 2, 3]));
    let tail = whole.len() - 24;
    // The end of one archive after the lists of another.
    let joined = |lists: &[u8]| [&lists[..lists.len() - 24], &whole[tail..]].concat();
    assert_eq!(damage(&joined(&exchanged)), Some(Damage::Count));
    assert_eq!(damage(&joined(&of(&[0, 1, 2]))), Some(Damage::Count));
    assert_eq!(damage(&joined(&of(&[0, 1, 2, 3, 3]))), Some(Damage::Count));
}

#[test]
fn a_file_of_words_shows_the_damage_that_it_can_show() {
    let bytes = written(&sample(), Format::Words);
    let cut = |bytes: &[u8]| damage(bytes);
    assert_eq!(cut(&[]), Some(Damage::Empty));
    assert_eq!(cut(b"abc"), Some(Damage::NoArchive));
    assert_eq!(cut(b"a text of some length"), Some(Damage::NoArchive));
    assert_eq!(cut(&bytes[..bytes.len() - 1]), Some(Damage::CutWord));
    assert_eq!(cut(&bytes[..bytes.len() - 4]), Some(Damage::CutToken));
    // At a token's end it is a shorter list, which is why there is a container.
    assert_eq!(cut(&bytes[..bytes.len() - 20]), None);
    let mut version = bytes.clone();
    let second = 4 + 20 * 5;
    version[second + 2] = 1;
    assert_eq!(cut(&version), Some(Damage::NoVersion));
}

#[test]
fn zeros_are_found_before_they_are_many_lists() {
    let zeros = vec![0; 1 << 20];
    let mut lists = Lists::new(&zeros[..]).expect("a version word");
    let mut count = 0;
    let end = loop {
        match lists.next_list() {
            Ok(Some(_)) => count += 1,
            end => break end.map(|list| list.is_some()),
        }
    };
    assert!(matches!(
        end,
        Err(ArchiveError::Damaged {
            damage: Damage::Zeros,
            ..
        })
    ));
    assert!(count < 16, "{count}");
    let mut behind = written(&sample(), Format::Words);
    behind.extend([0; 4_096]);
    assert_eq!(damage(&behind), Some(Damage::Zeros));
}

#[test]
fn a_list_longer_than_any_is_damage() {
    let word = (1u32 << 29 | 61).to_le_bytes();
    let long = |words: usize| [vec![0; 4], word.repeat(words)].concat();
    assert_eq!(damage(&long(MOST_WORDS - MOST_WORDS % 5)), None);
    assert_eq!(damage(&long(MOST_WORDS + 1)), Some(Damage::TooLong));
    let mut writer = ListsWriter::new(Vec::new(), Format::Container).expect("it takes all");
    assert!(writer.write(0, &vec![1 << 29; MOST_WORDS + 1]).is_err());
    let mut writer = ListsWriter::new(Vec::new(), Format::Words).expect("it takes all");
    assert!(writer.write(0, &[0]).is_err(), "it would be two lists");
}

#[test]
fn what_a_writer_finishes_a_reader_reads() {
    // Lists of few words, of which some are no tokens, some empty, and some of version 0.
    let mut seed = 1u64;
    let mut below = |bound: u64| {
        seed = seed.wrapping_mul(6_364_136_223_846_793_005).wrapping_add(1);
        (seed >> 33) % bound
    };
    let (mut written, mut refused) = (0, 0);
    for _ in 0..2_000 {
        let format = [Format::Words, Format::Container][below(2) as usize];
        let mut writer = ListsWriter::new(Vec::new(), format).expect("bytes");
        let (mut kept, mut wrong) = (Kept::new(), false);
        for _ in 0..below(24) {
            let version = below(4) as i16 / 3;
            let len = [0, 0, 0, 0, 5, 10, 3][below(7) as usize];
            let words: Vec<u32> = (0..len).map(|_| (below(6) as u32 + 1) << 29 | 7).collect();
            wrong |= writer.write(version, &words).is_err();
            kept.push((version, words));
        }
        match writer.finish() {
            Ok((bytes, _)) if !wrong => {
                written += 1;
                assert_eq!(read(&bytes).expect("whole"), kept);
            }
            _ => refused += 1,
        }
    }
    assert!(written > 500 && refused > 100, "{written}, {refused}");
}
