//! Prints cases with their answers as plain lines of numbers.

use oracle::generate::dress;
use oracle::hosts::has_hosts;
use oracle::lines::{Line, findings, lines};
use oracle::rules::{LAST_RULE, of_tree};
use oracle::vectors::{Stored, stored};
use oracle::words::{Answer, Case, FULL_SET, Token, exact_set};
use std::io::Write;
use std::process::exit;

const HELP: &str = "\
cases [--count N] [--seed S] [--most M] [--stored]

Prints N cases with their answers (default 200), of at most M tokens each (default 12).
The cases are generated from the seed S (default 1) and answered by the Rust; with --stored,
and where the Rust source is not at hand, they are taken from vectors/vectors.bin, S saying
where to begin.

The first cases are there for what they cover and are printed even where N is smaller: every
line of document 01 and every finding that is short enough, at one version; then one for each
of the message numbers 1 to 17, for each of the rules 1 to 20 (card 5), for a tree at each of the
versions -1, 4, 5, 6, 13, 14 and both ends of i16, for used sets that are full, empty, lack an operator of the list or have one more,
for a span that runs backwards, for a value that a reader could spoil, and for hosts' own names
in a tree and in a list with messages. One generated case in five has such names. The command
fails where it does not find one.

A case is these lines, all numbers decimal and separated by one space:

    case PLACE
    version V
    source LENGTH
    used LOW HIGH
    tokens COUNT
    OP VARIANT VALUE START END                 COUNT such lines
    tree COUNT                                 either
    OP VARIANT VALUE START END CHILDREN RULE   COUNT such lines, parent first
    messages COUNT                             or
    NUMBER START END A1 A2 A3 A4 A5            COUNT such lines
    end

PLACE counts from 0. The used set is two 64-bit halves, operator 0 being the lowest bit of LOW.
RULE is as the Rust's passes mark the node, or by the operator where its source is not at hand.
";

struct Options {
    count: usize,
    seed: u64,
    most: usize,
    stored: bool,
}

fn options() -> Options {
    let mut options = Options {
        count: 200,
        seed: 1,
        most: 12,
        stored: !oracle::COMPARED,
    };
    let mut arguments = std::env::args().skip(1);
    while let Some(argument) = arguments.next() {
        let mut number = || -> u64 {
            let given = arguments.next().and_then(|number| number.parse().ok());
            given.unwrap_or_else(|| help(2))
        };
        match argument.as_str() {
            "--count" => options.count = number() as usize,
            "--seed" => options.seed = number(),
            "--most" => options.most = (number() as usize).max(1),
            "--stored" => options.stored = true,
            "--help" | "-h" => help(0),
            _ => help(2),
        }
    }
    options
}

fn help(status: i32) -> ! {
    if status == 0 {
        print!("{HELP}");
    } else {
        eprint!("{HELP}");
    }
    exit(status)
}

/// Cases without end, or the kept ones from some place on, once round.
fn source(options: &Options) -> Box<dyn Iterator<Item = (Case, Answer)>> {
    #[cfg(molangx)]
    if !options.stored {
        let mut mixed = oracle::generate::Mixed::new(options.seed, options.most);
        let mut hosted = oracle::generate::hosts::Hosted::new(options.seed, options.most);
        return Box::new((0usize..).map(move |place| {
            let case = if place % 5 == 4 {
                hosted.next()
            } else {
                mixed.next()
            };
            let case = case.expect("they have no end");
            (case.clone(), oracle::answer_case(&case))
        }));
    }
    let most = options.most;
    let kept: Vec<_> = stored()
        .into_iter()
        .filter_map(|stored| match stored {
            Stored::Answered { case, answer, .. } if case.tokens.len() <= most => {
                Some((case, answer))
            }
            _ => None,
        })
        .collect();
    // A stride that meets every place, so that neighbours come from all parts of the file.
    let stride = (9_973..).find(|stride| gcd(*stride, kept.len()) == 1);
    let stride = stride.expect("some number is prime to the count");
    let first = options.seed as usize % kept.len();
    let places = 0..kept.len();
    Box::new(places.map(move |turn| kept[(first + turn * stride) % kept.len()].clone()))
}

fn gcd(a: usize, b: usize) -> usize {
    if b == 0 { a } else { gcd(b, a % b) }
}

type Shown = Box<dyn Fn(&Case, &Answer) -> bool>;

/// Something that at least one printed case has to show.
struct Wanted {
    what: String,
    shown: Shown,
}

fn wanted() -> Vec<Wanted> {
    let mut wanted = Vec::new();
    let mut want = |what: String, shown: Shown| {
        wanted.push(Wanted { what, shown });
    };
    for number in 1..=17 {
        want(
            format!("message {number}"),
            Box::new(move |_, answer| answer.records().iter().any(|record| record[0] == number)),
        );
    }
    for rule in 1..=LAST_RULE {
        want(
            format!("rule {rule}"),
            Box::new(move |case, answer| rules(case, answer).contains(&rule)),
        );
    }
    for version in [i16::MIN, -1, 4, 5, 6, 13, 14, i16::MAX] {
        want(
            format!("version {version}"),
            Box::new(move |case, answer| {
                case.version == version && answer.records().is_empty() && case.tokens.len() > 2
            }),
        );
    }
    type Set = (&'static str, fn(&Case) -> bool);
    let sets: [Set; 4] = [
        ("a full used set", |case| case.used == FULL_SET),
        ("an empty used set", |case| case.used == (0, 0)),
        ("a used set that lacks an operator", |case| {
            let exact = exact_set(&case.tokens);
            case.used != (0, 0) && (exact.0 & !case.used.0 | exact.1 & !case.used.1) != 0
        }),
        ("a used set with one more operator", |case| {
            let exact = exact_set(&case.tokens);
            let more =
                (case.used.0 & !exact.0).count_ones() + (case.used.1 & !exact.1).count_ones();
            more == 1
        }),
    ];
    for (what, shown) in sets {
        want(
            what.to_string(),
            Box::new(move |case, _| !case.tokens.is_empty() && shown(case)),
        );
    }
    want(
        "a span that runs backwards".to_string(),
        Box::new(|case, _| case.tokens.iter().any(|token| token.start > token.end)),
    );
    want(
        "a value that a reader could spoil".to_string(),
        Box::new(|case, answer| {
            let spoilt = |token: &Token| dress::VALUES[5..].contains(&token.value);
            case.tokens.iter().any(spoilt) && answer.records().is_empty()
        }),
    );
    for (what, is_tree) in [
        ("a tree with a host", true),
        ("messages with a host", false),
    ] {
        want(
            what.to_string(),
            Box::new(move |case, answer| {
                has_hosts(case) && answer.records().is_empty() == is_tree && case.tokens.len() > 2
            }),
        );
    }
    wanted
}

/// The rules of an answer's nodes; none of messages.
fn rules(case: &Case, answer: &Answer) -> Vec<u8> {
    if !answer.records().is_empty() {
        return Vec::new();
    }
    let nodes = answer.nodes().iter();
    let nodes = nodes.map(|node| (&node.token, node.children));
    of_tree(case, nodes).expect("an answer's tree has rules")
}

/// The lines of document 01 and the findings, as the kept answers have them.
fn known(most: usize) -> Vec<(Case, Answer)> {
    let kept = stored();
    let answer = |line: Line| {
        kept.iter().find_map(|stored| match stored {
            Stored::Answered { case, answer, .. } if *case == line.case => {
                Some((case.clone(), answer.clone()))
            }
            _ => None,
        })
    };
    lines()
        .into_iter()
        .chain(findings())
        .filter(|line| line.case.tokens.len() <= most)
        .filter_map(answer)
        .collect()
}

fn print(out: &mut impl Write, place: usize, case: &Case, answer: &Answer) -> std::io::Result<()> {
    writeln!(out, "case {place}")?;
    writeln!(out, "version {}", case.version)?;
    writeln!(out, "source {}", case.source_len)?;
    writeln!(out, "used {} {}", case.used.0, case.used.1)?;
    writeln!(out, "tokens {}", case.tokens.len())?;
    for t in &case.tokens {
        writeln!(
            out,
            "{} {} {} {} {}",
            t.op, t.variant, t.value, t.start, t.end
        )?;
    }
    match answer {
        Answer::Tree(nodes) => {
            writeln!(out, "tree {}", nodes.len())?;
            for (node, rule) in nodes.iter().zip(rules(case, answer)) {
                let t = node.token;
                let (variant, value) = (t.variant, t.value);
                let children = node.children;
                writeln!(
                    out,
                    "{} {variant} {value} {} {} {children} {rule}",
                    t.op, t.start, t.end
                )?;
            }
        }
        Answer::Messages(records) => {
            writeln!(out, "messages {}", records.len())?;
            for record in records {
                writeln!(out, "{}", record.map(|number| number.to_string()).join(" "))?;
            }
        }
    }
    writeln!(out, "end")
}

/// The cases that are printed, or what none of them shows.
fn chosen(options: &Options) -> Result<Vec<(Case, Answer)>, String> {
    let mut chosen = known(options.most);
    let mut missing: Vec<Wanted> = wanted();
    missing.retain(|wanted| {
        !chosen
            .iter()
            .any(|(case, answer)| (wanted.shown)(case, answer))
    });
    let mut rest = Vec::new();
    // Far more than any of the wanted things takes to turn up.
    for (case, answer) in source(options).take(200_000) {
        let enough = chosen.len() + rest.len() >= options.count;
        if enough && missing.is_empty() {
            break;
        }
        let before = missing.len();
        missing.retain(|wanted| !(wanted.shown)(&case, &answer));
        if missing.len() < before {
            chosen.push((case, answer));
        } else if !enough {
            rest.push((case, answer));
        }
    }
    if let Some(Wanted { what, .. }) = missing.first() {
        let (most, count) = (options.most, missing.len());
        return Err(format!(
            "{what} was not found within {most} tokens ({count} missing)"
        ));
    }
    rest.truncate(options.count.saturating_sub(chosen.len()));
    chosen.extend(rest);
    Ok(chosen)
}

fn main() {
    let chosen = chosen(&options()).unwrap_or_else(|why| {
        eprintln!("cases: {why}");
        exit(1)
    });
    let mut out = std::io::BufWriter::new(std::io::stdout().lock());
    for (place, (case, answer)) in chosen.iter().enumerate() {
        if print(&mut out, place, case, answer).is_err() {
            return;
        }
    }
}
