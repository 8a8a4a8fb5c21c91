//! What all pages have in common.

use crate::pages::text::Piece;

/// The colours and type of every page.
const STYLE: &str = include_str!("common.css");

/// A page of this title, style, body and script.
pub fn document(title: &str, style: &str, body: &str, script: &str) -> String {
    let (head, tail) = around(title, style, script);
    head + body + &tail
}

/// What stands before and after the body of such a page. Its policy lets nothing be fetched.
pub fn around(title: &str, style: &str, script: &str) -> (String, String) {
    let title = escaped(title);
    let head = format!(
        "<!DOCTYPE html>\n<html lang=\"en\">\n<head>\n<meta charset=\"utf-8\">\n\
         <meta name=\"viewport\" content=\"width=device-width, initial-scale=1\">\n\
         <meta http-equiv=\"Content-Security-Policy\" \
         content=\"default-src 'none'; style-src 'unsafe-inline'; script-src 'unsafe-inline'\">\n\
         <title>{title}</title>\n<style>\n{STYLE}{style}</style>\n</head>\n<body>\n"
    );
    (
        head,
        format!("<script>\n{script}</script>\n</body>\n</html>\n"),
    )
}

/// The text so that a browser shows it. Signs that would not be seen, or would turn the text round, are shown by their numbers.
pub fn escaped(text: &str) -> String {
    let mut html = String::with_capacity(text.len());
    for c in text.chars() {
        match c {
            '&' => html.push_str("&amp;"),
            '<' => html.push_str("&lt;"),
            '>' => html.push_str("&gt;"),
            '"' => html.push_str("&quot;"),
            '\n' | '\t' => html.push(c),
            c if c.is_control() || is_hidden(c) => html.extend(c.escape_unicode()),
            c => html.push(c),
        }
    }
    html
}

/// Signs without a shape of their own that change how others are shown.
fn is_hidden(c: char) -> bool {
    matches!(c, '\u{200B}'..='\u{200F}' | '\u{202A}'..='\u{202E}' | '\u{2060}'..='\u{2069}' | '\u{FEFF}')
}

/// A sentence with what stands between back quotes as code.
pub fn with_code(text: &str) -> String {
    let parts = text
        .split('`')
        .enumerate()
        .map(|(place, part)| match place % 2 {
            0 => escaped(part),
            _ => format!("<code>{}</code>", escaped(part)),
        });
    parts.collect()
}

/// The colour of a part as a style: the hues lie as far from each other as they can, however many there are.
pub fn hue(part: usize) -> String {
    let hue = (25 + part as u64 * 13_751 / 100) % 360;
    format!("--hue:{hue}")
}

/// The number of a part, in its colour.
pub fn badge(part: usize) -> String {
    format!(
        "<b class=\"badge\" style=\"{}\">{}</b>",
        hue(part),
        part + 1
    )
}

/// A bracket that the author of a list did not write.
pub fn added(bracket: &str, style: &str) -> String {
    let style = if style.is_empty() {
        String::new()
    } else {
        format!(" style=\"{style}\"")
    };
    format!("<b class=\"added\"{style}>{bracket}</b>")
}

/// A written list.
pub fn pieces(pieces: &[Piece]) -> String {
    let piece = |piece: &Piece| {
        let space = if piece.has_space { " " } else { "" };
        match piece.is_added {
            true => format!("{space}{}", added(&piece.text, "")),
            false => format!("{space}{}", escaped(&piece.text)),
        }
    };
    pieces.iter().map(piece).collect()
}

#[cfg(test)]
mod tests {
    use super::{escaped, hue, with_code};

    #[test]
    fn a_text_cannot_leave_its_place() {
        assert_eq!(
            escaped("<b title=\"x\">&"),
            "&lt;b title=&quot;x&quot;&gt;&amp;"
        );
        assert_eq!(
            escaped("a\u{1b}[31m\u{202e}b\n"),
            "a\\u{1b}[31m\\u{202e}b\n"
        );
        assert_eq!(with_code("`a < b` is"), "<code>a &lt; b</code> is");
    }

    #[test]
    fn neighbouring_parts_have_colours_far_apart() {
        let hue = |part| {
            hue(part)["--hue:".len()..]
                .parse::<i32>()
                .expect("a number")
        };
        for part in 0..50 {
            for other in part + 1..part + 5 {
                let apart = (hue(part) - hue(other)).abs();
                assert!(apart.min(360 - apart) > 30, "{part} and {other}");
            }
        }
    }
}
