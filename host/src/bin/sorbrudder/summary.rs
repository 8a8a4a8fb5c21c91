//! The record at the end of lines of JSON: what all of them come to.

use crate::failure::Status;
use crate::json::Object;

/// The line. The files are those that were to be read, those of them that failed, and those that were skipped.
pub fn record(
    command: &str,
    to: Option<i16>,
    [files, failed, skipped]: [u64; 3],
    counts: &[(&str, u64)],
    status: Status,
) -> String {
    let mut object = Object::new();
    object.text("result", "summary").text("command", command);
    if let Some(to) = to {
        object.number("to", to);
    }
    object
        .number("files", files)
        .number("failed", failed)
        .number("skipped", skipped);
    for (name, count) in counts {
        object.number(name, *count);
    }
    object.number("status", status as u8);
    object.done() + "\n"
}
