//! Names and sources as they are shown: what could change how a terminal shows the rest is shown as an escape.

use std::borrow::Cow;
use std::os::unix::ffi::OsStrExt as _;
use std::path::Path;

/// Whether a character is no sign of its own: control characters, those that turn the direction of writing, and separators of lines.
pub fn is_hidden(c: char) -> bool {
    c.is_control()
        || matches!(c, '\u{200e}' | '\u{200f}' | '\u{61c}' | '\u{feff}' | '\u{2028}'..='\u{202e}' | '\u{2066}'..='\u{2069}')
}

/// A hidden character's escape: `\n`, `\t`, `\r`, else by its number.
pub fn escaped(c: char) -> String {
    match c {
        '\n' | '\t' | '\r' => c.escape_default().to_string(),
        _ => c.escape_unicode().to_string(),
    }
}

/// A text with its hidden characters escaped, but for those that are kept.
fn but_for<'t>(text: &'t str, kept: &[char]) -> Cow<'t, str> {
    let is_escaped = |c: char| is_hidden(c) && !kept.contains(&c);
    if !text.contains(is_escaped) {
        return Cow::Borrowed(text);
    }
    let mut out = String::with_capacity(text.len() + 8);
    for c in text.chars() {
        match is_escaped(c) {
            true => out.push_str(&escaped(c)),
            false => out.push(c),
        }
    }
    Cow::Owned(out)
}

/// A text that stays on one line.
pub fn line(text: &str) -> Cow<'_, str> {
    but_for(text, &[])
}

/// A text of lines.
pub fn lines(text: &str) -> Cow<'_, str> {
    but_for(text, &['\n', '\t'])
}

/// A file's name on one line; bytes that are no text are escaped too.
pub fn path(path: &Path) -> String {
    let mut out = String::new();
    for chunk in path.as_os_str().as_bytes().utf8_chunks() {
        out.push_str(&line(chunk.valid()));
        let bytes = chunk.invalid().iter().map(|byte| format!("\\x{byte:02x}"));
        out.extend(bytes);
    }
    out
}

#[cfg(test)]
mod tests {
    use super::{line, lines, path};
    use std::ffi::OsStr;
    use std::os::unix::ffi::OsStrExt as _;
    use std::path::Path;

    #[test]
    fn what_a_terminal_would_obey_is_shown() {
        assert_eq!(line("a\x1b[31mb\nc"), r"a\u{1b}[31mb\nc");
        assert_eq!(lines("a\x07\tb\r\n"), "a\\u{7}\tb\\r\n");
        assert_eq!(line("abc\u{202e}"), r"abc\u{202e}");
        assert_eq!(line("日本 ß"), "日本 ß");
        let name = OsStr::from_bytes(b"a\xff\x1bb");
        assert_eq!(path(Path::new(name)), r"a\xff\u{1b}b");
    }
}
