//! README.md's program, word for word; a test compares the two and runs it.

use sorbrudder::{Lifter, Tokens};

fn main() -> Result<(), Box<dyn std::error::Error>> {
    let mut lifter = Lifter::new(); // owns its buffers; keep it for many lists
    let source = "dosed ? hold : under ? open : shut";
    let list: Tokens = source.parse()?;
    let lifted = lifter.lift(&list).from(5).to(4)?;
    println!("{}", lifted.tokens.shown_in(source)); // dosed ? hold : (under ? open : shut)
    println!("{}", lifted.changed); // true: version 4 read another tree
    println!("{}", lifted.tree); // 59(a,60(b,59(c,60(d,e)))), which both read now
    Ok(())
}
