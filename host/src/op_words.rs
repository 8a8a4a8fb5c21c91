//! What an operator does, in a word or two that a reader of a drawing understands.

use crate::Op;

/// The words of the operators that are no math function; a math function is named by its own name.
const WORDS: [(Op, &str); 49] = [
    (Op::LEFT_BRACE, "block"),
    (Op::RIGHT_BRACE, "closing brace"),
    (Op::LEFT_BRACKET, "index"),
    (Op::RIGHT_BRACKET, "closing bracket"),
    (Op::LEFT_PARENTHESIS, "brackets"),
    (Op::RIGHT_PARENTHESIS, "closing bracket"),
    (Op::NEGATE, "negative"),
    (Op::LOGICAL_NOT, "not"),
    (Op::ADD, "sum"),
    (Op::DIV, "quotient"),
    (Op::MUL, "product"),
    (Op::QUERY_FUNCTION, "query"),
    (Op::ARRAY_VARIABLE, "array"),
    (Op::CONTEXT_VARIABLE, "context variable"),
    (Op::ENTITY_VARIABLE, "variable"),
    (Op::TEMP_VARIABLE, "temporary variable"),
    (Op::MEMBER_ACCESSOR, "member"),
    (Op::STRING_LITERAL, "text"),
    (Op::GEOMETRY_VARIABLE, "geometry"),
    (Op::MATERIAL_VARIABLE, "material"),
    (Op::TEXTURE_VARIABLE, "texture"),
    (Op::LESS_THAN, "less than"),
    (Op::LESS_EQUAL, "at most"),
    (Op::GREATER_EQUAL, "at least"),
    (Op::GREATER_THAN, "greater than"),
    (Op::LOGICAL_EQUAL, "equal"),
    (Op::LOGICAL_NOT_EQUAL, "not equal"),
    (Op::LOGICAL_OR, "or"),
    (Op::LOGICAL_AND, "and"),
    (Op::NULL_COALESCING, "or if missing"),
    (Op::CONDITIONAL, "if"),
    (Op::CONDITIONAL_ELSE, "then and else"),
    (Op::FLOAT, "value"),
    (Op::PI, "pi"),
    (Op::ARRAY, "array"),
    (Op::GEOMETRY, "geometry"),
    (Op::MATERIAL, "material"),
    (Op::TEXTURE, "texture"),
    (Op::LOOP, "loop"),
    (Op::FOR_EACH, "for each"),
    (Op::BREAK, "break"),
    (Op::CONTINUE, "continue"),
    (Op::ASSIGNMENT, "assignment"),
    (Op::POINTER, "arrow"),
    (Op::SEMICOLON, "statement"),
    (Op::RETURN, "return"),
    (Op::COMMA, "and then"),
    (Op::THIS, "this"),
    (Op::EXPRESSION_ARRAY, "array of expressions"),
];

impl Op {
    /// What the operator does, in plain words: `sum`, `not`, `if`. A math function's words are `math function`, those of a host's own
    /// name `host value`.
    ///
    /// ```
    /// use sorbrudder::Op;
    ///
    /// assert_eq!(Op::ADD.words(), "sum");
    /// assert_eq!(Op::NEGATE.words(), "negative");
    /// assert_eq!(Op::SIN.words(), "math function");
    /// assert_eq!(Op::host(300).unwrap().words(), "host value");
    /// ```
    pub fn words(self) -> &'static str {
        if self.is_host() {
            return "host value";
        }
        let found = WORDS.binary_search_by_key(&self, |(op, _)| *op);
        found.map_or("math function", |place| WORDS[place].1)
    }
}

#[cfg(test)]
mod tests {
    use super::WORDS;
    use crate::Op;

    #[test]
    fn every_operator_has_words_of_its_own_or_is_a_math_function() {
        assert!(WORDS.is_sorted_by_key(|(op, _)| *op));
        for op in Op::all() {
            let named = WORDS.iter().any(|(named, _)| *named == op);
            assert_eq!(named, !op.is_math_call(), "{op:?}");
        }
    }
}
