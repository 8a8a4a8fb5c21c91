//! `sorbrudder read`: the tree of one list.

use crate::args::Args;
use crate::bracketed;
use crate::drawing;
use crate::escape;
use crate::explain;
use crate::failure::{Failure, Status};
use crate::json::Object;
use crate::one_list::OneList;
use crate::output;
use sorbrudder::{Node, Reader, Tree};

/// The newest version whose rules are known; what is read at where nothing is said.
pub const NEWEST: i16 = 13;

pub fn run(args: &Args) -> Result<Status, Failure> {
    let one = OneList::of(args)?;
    let version = args.version("--at")?.or(one.version).unwrap_or(NEWEST);
    let mut reader = Reader::new().with_limit(args.limit("--limit")?);
    match reader.read_with_rules(&one.list, version) {
        Ok(tree) if args.has("--json") => output::print(&as_json(&tree, &one, version)),
        Ok(tree) => output::print(&as_text(&tree, &one, version)),
        Err(why) => {
            output::print(&explain::complaint(&one, version, &why, args.has("--json")))?;
            Ok(Status::Found)
        }
    }
}

/// The bracketed line and the drawing.
pub fn as_text(tree: &Tree, one: &OneList, version: i16) -> String {
    let line = bracketed::line(tree.view(), Some(&one.source));
    let mut text = format!("version {version}   {}\n\n", escape::line(&line));
    for row in drawing::rows(tree.view(), &one.source) {
        text += &format!("{}\n", escape::line(&row.line()));
    }
    text
}

fn as_json(tree: &Tree, one: &OneList, version: i16) -> String {
    let node = |node: Node<'_>| {
        let mut object = Object::new();
        object
            .number("op", node.op().number())
            .text("operator", node.op().text())
            .number("children", node.child_count() as u64)
            .number("start", node.span().start())
            .number("end", node.span().end())
            .number("close", node.close());
        if let Some(rule) = node.rule() {
            object.text("rule", rule.name());
        }
        object
    };
    let mut object = Object::new();
    object
        .number("version", version)
        .text("result", "tree")
        .text("source", &one.source)
        .text(
            "bracketed",
            &bracketed::line(tree.view(), Some(&one.source)),
        )
        .text("tree", &tree.to_string())
        .objects("nodes", tree.nodes().map(node));
    object.done() + "\n"
}
