//! A list by the numbers of its tokens, and the text of each token.

use sorbrudder::{Op, Span, Token, Tokens, Tree, Writer};

/// The list with the number of each token for its span: a node of its tree says which token it stands for, and what it reaches over.
pub fn numbered(list: &[Token]) -> Tokens {
    let numbered = (0u32..).zip(list).map(|(number, token)| Token {
        span: Span::new(number, number + 1).unwrap_or(token.span),
        ..*token
    });
    numbered.collect()
}

/// A text and the places of a list's tokens in it, from left to right.
pub struct Text {
    source: String,
    spans: Vec<Span>,
}

impl Text {
    /// The text of a list. Where its spans do not lie in the source from left to right, as in a list that a program put together, the list
    /// is printed in the notation instead.
    pub fn of(list: &[Token], source: &str) -> Self {
        let given = Self {
            source: source.to_string(),
            spans: list.iter().map(|token| token.span).collect(),
        };
        if given.is_in_order() {
            return given;
        }
        let source = Tokens::from(list).to_string();
        let printed = source.parse::<Tokens>().unwrap_or_default();
        let spans = printed.iter().map(|token| token.span).collect();
        let printed = Self { source, spans };
        match printed.spans.len() == list.len() {
            true => printed,
            false => Self::one_by_one(list),
        }
    }

    /// Each token printed by itself.
    fn one_by_one(list: &[Token]) -> Self {
        let (mut source, mut spans) = (String::new(), Vec::new());
        for token in list {
            let start = source.len() as u32;
            source += &Tokens::from(vec![*token]).to_string();
            spans.extend(Span::new(start, source.len() as u32));
            source.push(' ');
        }
        Self { source, spans }
    }

    fn is_in_order(&self) -> bool {
        let mut at = 0;
        self.spans.iter().all(|span| {
            let is_next = span.start() >= at && span.start() < span.end();
            at = span.end();
            is_next && span.of(&self.source).is_some()
        })
    }

    /// How many tokens there are.
    pub fn len(&self) -> usize {
        self.spans.len()
    }

    /// The text of a token.
    pub fn token(&self, number: usize) -> &str {
        let span = self.spans.get(number);
        span.and_then(|span| span.of(&self.source)).unwrap_or("")
    }

    /// What stands between a token and the next one.
    pub fn gap(&self, number: usize) -> &str {
        let ends = self.spans.get(number).zip(self.spans.get(number + 1));
        let gap = ends.and_then(|(one, next)| Span::new(one.end(), next.start()));
        gap.and_then(|gap| gap.of(&self.source)).unwrap_or("")
    }

    /// The tree of the numbered list as a list with all its brackets, where it can be written.
    pub fn written(&self, tree: &Tree, list: &[Token]) -> Option<Vec<Piece>> {
        let written = Writer::new().write(tree).ok()?;
        Some(self.pieces(&written, list))
    }

    /// The pieces of a list that the writer wrote from the tree of the numbered list.
    pub fn pieces(&self, written: &[Token], list: &[Token]) -> Vec<Piece> {
        // Whether each bracket that is open was added.
        let mut open: Vec<bool> = Vec::new();
        let mut pieces = Vec::with_capacity(written.len());
        let mut before: Option<Token> = None;
        for token in written {
            let is_added = match token.op {
                Op::LEFT_PARENTHESIS => {
                    open.push(!is_own(*token, list));
                    open.last() == Some(&true)
                }
                Op::RIGHT_PARENTHESIS => open.pop() == Some(true),
                _ => false,
            };
            let token = self.placed(*token);
            let shown =
                |tokens: Vec<Token>| Tokens::from(tokens).shown_in(&self.source).to_string();
            let text = shown(vec![token]);
            // The notation says between which tokens a space stands.
            let has_space = before.is_some_and(|before| {
                let apart = shown(vec![before]).len() + text.len();
                shown(vec![before, token]).len() > apart
            });
            pieces.push(Piece {
                text,
                has_space,
                is_added,
            });
            before = Some(token);
        }
        pieces
    }

    /// A token of a written list with its place in the text.
    fn placed(&self, token: Token) -> Token {
        let span = self.spans.get(token.span.start() as usize);
        Token {
            span: span.copied().unwrap_or_default(),
            ..token
        }
    }
}

/// A token of a written list as it is shown.
pub struct Piece {
    pub text: String,
    /// Whether a space stands before it.
    pub has_space: bool,
    /// Whether it is a bracket that the author of the list did not write.
    pub is_added: bool,
}

/// Whether an opening bracket of a written list is one of the list itself. The span of one that was added covers its operand.
fn is_own(bracket: Token, list: &[Token]) -> bool {
    let there = list.get(bracket.span.start() as usize);
    there.is_some_and(|there| there.op == bracket.op)
        && bracket.span.end() == bracket.span.start() + 1
}

#[cfg(test)]
mod tests {
    use super::{Text, numbered};
    use sorbrudder::{Reader, Span, Token, Tokens};

    /// The list as a version reads it with all its brackets, `<` and `>` for those that were added.
    fn written(source: &str, version: i16) -> String {
        let list: Tokens = source.parse().expect("the notation");
        let text = Text::of(&list, source);
        let tree = Reader::new()
            .read(&numbered(&list), version)
            .expect("a tree");
        let pieces = text.written(&tree, &list).expect("it is plain");
        let piece = |piece: super::Piece| {
            let space = if piece.has_space { " " } else { "" };
            match (piece.is_added, piece.text.as_str()) {
                (true, "(") => format!("{space}<"),
                (true, _) => format!("{space}>"),
                (false, text) => format!("{space}{text}"),
            }
        };
        pieces.into_iter().map(piece).collect()
    }

    #[test]
    fn an_added_bracket_is_told_from_the_authors() {
        assert_eq!(written("x && (y||z) || x", 5), "x && <(y || z) || x>");
        assert_eq!(written("x && (y||z) || x", 6), "<x && (y || z)> || x");
        assert_eq!(
            written("math.sin(a - b) * c", 6),
            "<math.sin(a + <- b>)> * c"
        );
    }

    #[test]
    fn a_list_whose_spans_lie_nowhere_is_printed() {
        let list: Tokens = "a && b".parse().expect("the notation");
        let nowhere = list.iter().map(|token| Token {
            span: Span::default(),
            ..*token
        });
        let text = Text::of(&nowhere.collect::<Tokens>(), "something else");
        let tokens: Vec<&str> = (0..text.len()).map(|number| text.token(number)).collect();
        assert_eq!((tokens, text.gap(0)), (vec!["a", "&&", "b"], " "));
        let text = Text::of(&list, "a");
        assert_eq!(
            (text.token(2), text.gap(1)),
            ("b", " "),
            "its text is longer"
        );
    }
}
