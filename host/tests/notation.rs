//! The notation prints what it parses: every list comes back from its own text, with its operators and payloads.

mod common;

use common::{Rng, kept_lists};
use sorbrudder::{Op, Payload, Span, Token, Tokens};

fn parsed(text: &str) -> Tokens {
    let list = text.parse();
    list.unwrap_or_else(|why| panic!("{text}: {why}"))
}

/// The list without its spans, which are those of the text.
fn bare(list: &[Token]) -> Vec<(Op, Payload)> {
    list.iter().map(|token| (token.op, token.payload)).collect()
}

fn comes_back(list: &[Token]) {
    let text = Tokens::from(list).to_string();
    let again = parsed(&text);
    assert_eq!(bare(&again), bare(list), "{text}");
    assert_eq!(again.to_string(), text);
    for token in &again {
        assert!(token.span.of(&text).is_some_and(|text| !text.is_empty()));
    }
}

#[test]
fn decimals_names_and_functions_are_notation() {
    let printed = [
        ("1 + 2.5", "1 + 2.5"),
        ("sin(a)+math.pi", "math.sin(a) + pi"),
        ("variable.7 = query.3(a,b);", "variable.7 = query.3(a, b);"),
        (
            "variable.x = query.y(a);",
            "entity_variable = query_function(a);",
        ),
        ("! a||!! b&&!(c)", "!a || !!b && !(c)"),
        ("! = a", "! = a"),
        ("1 . 5", "1 . 5"),
        ("a.b", "a.b"),
        ("a-b", "a - b"),
        ("#61@1:bf800000", "#61@1:bf800000"),
        ("return a;", "return a;"),
        ("'x' == 'y'", "string_literal == string_literal"),
        ("#300+#1023(a)", "#300 + #1023 (a)"),
        ("-#262 . #301@11:7", "- #262 . #301@11:7"),
    ];
    for (text, expected) in printed {
        let list = parsed(text);
        assert_eq!(list.to_string(), expected);
        comes_back(&list);
    }
    let named = "dosed ? hold : under ? open : shut";
    assert_eq!(parsed(named).to_string(), "a ? b : c ? d : e");
    assert_eq!(parsed(named).shown_in(named).to_string(), named);
    assert_eq!(bare(&parsed("sin(a)")), bare(&parsed("Math.Sin(x)")));
    assert_eq!(bare(&parsed("2.5")), [(Op::FLOAT, Payload::Float(2.5))]);
    let query = "query.health > 0 && query.is_baby";
    assert_eq!(parsed(query).shown_in(query).to_string(), query);
    for wrong in [
        "$",
        "#111",
        "#255",
        "#1024",
        "#65797",
        "#61@13:0",
        "#61@1",
        "'a",
        "math.sinus ^",
        "1e999999 \\",
    ] {
        assert!(wrong.parse::<Tokens>().is_err(), "{wrong}");
    }
}

#[test]
fn the_twenty_seventh_operand_has_a_name_too() {
    let token = Token::bare(Op::FLOAT, Span::default());
    for count in [26, 27, 700, 4_096] {
        comes_back(&vec![token; count]);
    }
}

#[test]
fn every_kept_list_of_the_generator_comes_back() {
    let mut count = 0;
    for words in kept_lists() {
        if let Some(list) = Tokens::from_words(&words) {
            comes_back(&list);
            count += 1;
        }
    }
    assert!(count > 5_000, "{count}");
}

#[test]
fn lists_of_any_operators_and_payloads_come_back() {
    let mut rng = Rng(28);
    for _ in 0..100_000 {
        let token = |rng: &mut Rng| {
            let number = match rng.below(4) {
                0 => rng.below(Op::HOSTS.len()) as u16 + Op::HOSTS.start(),
                _ => rng.below(Op::COUNT) as u16,
            };
            let op = Op::new(number).expect("an operator");
            let value = match rng.below(3) {
                0 => rng.below(10) as u32,
                1 => (rng.below(1_000) as f32 / 8.0).to_bits(),
                _ => rng.bits() as u32,
            };
            let payload = match rng.below(3) {
                0 => Payload::from_bits(rng.below(13) as u8, value),
                1 => Payload::from_bits(1, value),
                _ => None,
            };
            Token {
                op: if rng.below(3) == 0 { Op::FLOAT } else { op },
                payload: payload.unwrap_or_default(),
                span: Span::default(),
            }
        };
        let list: Vec<Token> = (0..rng.below(8)).map(|_| token(&mut rng)).collect();
        comes_back(&list);
    }
}
