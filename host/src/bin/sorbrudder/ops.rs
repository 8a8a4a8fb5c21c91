//! `sorbrudder ops`: the operators.

use crate::args::Args;
use crate::failure::{Failure, Status};
use crate::json::Object;
use crate::output;
use sorbrudder::Op;

pub fn run(args: &Args) -> Result<Status, Failure> {
    if !args.rest.is_empty() {
        return Err(args.wrong("it takes no list"));
    }
    let is_json = args.has("--json");
    let mut text = String::new();
    for op in Op::all() {
        if is_json {
            let mut object = Object::new();
            object
                .number("op", op.number())
                .text("name", op.name())
                .text("operator", op.text())
                .text("words", op.words());
            text += &(object.done() + "\n");
        } else {
            text += &format!(
                "{:>3}  {:24} {:22} {}\n",
                op.number(),
                op.text(),
                op.name(),
                op.words()
            );
        }
    }
    output::print(&text)
}
