//! `sorbrudder explain`: why a list is no tree, each message under the tokens that it points at.

use crate::args::Args;
use crate::failure::{Failure, Status};
use crate::json::Object;
use crate::one_list::OneList;
use crate::output;
use crate::read::{self, NEWEST};
use sorbrudder::{Message, ReadError, Reader, Span, Token};

pub fn run(args: &Args) -> Result<Status, Failure> {
    let one = OneList::of(args)?;
    let version = args.version("--at")?.or(one.version).unwrap_or(NEWEST);
    let mut reader = Reader::new().with_limit(args.limit("--limit")?);
    match reader.read_with_rules(&one.list, version) {
        Ok(tree) if args.has("--json") => {
            let mut object = Object::new();
            object
                .number("version", version)
                .text("result", "tree")
                .text("tree", &tree.to_string());
            output::print(&(object.done() + "\n"))
        }
        Ok(tree) => output::print(&format!(
            "It is a tree.\n\n{}",
            read::as_text(&tree, &one, version)
        )),
        Err(why) => {
            output::print(&complaint(&one, version, &why, args.has("--json")))?;
            Ok(Status::Found)
        }
    }
}

/// What is said of a list that is no tree.
pub fn complaint(one: &OneList, version: i16, why: &ReadError, is_json: bool) -> String {
    let messages: Vec<Message> = match why {
        ReadError::Messages(messages) => messages.to_vec(),
        _ => Vec::new(),
    };
    if is_json {
        return as_json(one, version, why, &messages);
    }
    let said: Vec<(Span, String)> = match deepest(one, why) {
        Some(token) => vec![(token.span, why.to_string())],
        None => messages
            .iter()
            .map(|message| (message.span(), message.to_string()))
            .collect(),
    };
    let mut text = format!("version {version}   no tree\n\n");
    let excerpt = one.excerpt();
    if one.is_of_file || !excerpt.is_short() {
        text.extend(said.iter().map(|(span, what)| excerpt.of(*span, what)));
    } else {
        text += &format!("{}\n", excerpt.line());
        let under = |(span, what): &(Span, String)| format!("{} {what}\n", excerpt.under(*span));
        text.extend(said.iter().map(under));
    }
    if said.is_empty() {
        text += &format!("{why}\n");
    }
    text
}

/// The token that goes above the limit, where the list is too deep.
fn deepest(one: &OneList, why: &ReadError) -> Option<Token> {
    match why {
        ReadError::TooDeep { token } => one.list.get(*token).copied(),
        _ => None,
    }
}

fn as_json(one: &OneList, version: i16, why: &ReadError, messages: &[Message]) -> String {
    let message = |message: &Message| {
        let mut object = Object::new();
        object
            .number("number", message.number())
            .number("start", message.span().start())
            .number("end", message.span().end());
        if let Some((line, column)) = one.excerpt().place(message.span()) {
            object
                .number("line", line as u64)
                .number("column", column as u64);
        }
        object.text("text", &message.to_string());
        object
    };
    let result = match why {
        ReadError::Messages(_) => "no-tree",
        ReadError::TooDeep { .. } => "too-deep",
        _ => "refused",
    };
    let mut object = Object::new();
    object
        .number("version", version)
        .text("result", result)
        .text("source", &one.source)
        .text("text", &why.to_string());
    if let ReadError::TooDeep { token } = why {
        object.number("token", *token as u64);
    }
    object.objects("messages", messages.iter().map(message));
    object.done() + "\n"
}
