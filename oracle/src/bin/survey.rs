//! Reads generated lists with the Rust and says what was seen over all of them: how many answers
//! of each kind, which messages come together, how large and deep a tree gets, and how many nodes
//! each rule made.

#[cfg(molangx)]
fn main() {
    use oracle::generate::alphabets::ALPHABETS;
    use oracle::generate::{Mixed, dress};
    use oracle::words::Case;

    const HELP: &str = "survey [COUNT] [SEED]\n\n\
        Reads COUNT mixed lists of up to 24 tokens (default 1000000) from SEED (default 1), then\n\
        every list of up to 5 operators over each alphabet at versions 4, 5 and 6.";

    let mut numbers = [1_000_000, 1];
    for (number, argument) in numbers.iter_mut().zip(std::env::args().skip(1)) {
        *number = argument.parse().unwrap_or_else(|_| {
            println!("{HELP}");
            std::process::exit(2)
        });
    }
    let [count, seed] = numbers;

    let mut seen = seen::Seen::default();
    for case in Mixed::new(seed, 24).take(count as usize) {
        seen.read(&case);
    }
    seen.print(&format!("{count} mixed lists of seed {seed}"));

    let mut seen = seen::Seen::default();
    for alphabet in &ALPHABETS {
        for ops in alphabet.every_list(5) {
            let tokens = dress::plain(&ops);
            for version in 4..=6 {
                seen.read(&Case::exact(tokens.clone(), version));
            }
        }
    }
    seen.print("every list of up to 5 operators over each alphabet");
}

#[cfg(molangx)]
mod seen {
    use oracle::rules::{self, LAST_RULE};
    use oracle::words::{Case, RustNode, depth};
    use std::collections::BTreeMap;

    #[derive(Default)]
    pub struct Seen {
        lists: usize,
        trees: usize,
        messages: BTreeMap<Vec<u32>, usize>,
        /// The most nodes for a token, as nodes and tokens.
        nodes: (usize, usize),
        /// The most levels beyond the number of tokens, as levels and tokens.
        levels: (usize, usize),
        /// How many nodes each rule made, and how many of them the table gives another rule.
        rules: [usize; LAST_RULE as usize + 1],
        others: usize,
    }

    impl Seen {
        pub fn read(&mut self, case: &Case) {
            let answer = oracle::answer_case(case);
            let tokens = case.tokens.len();
            self.lists += 1;
            if !answer.records().is_empty() {
                let numbers = answer.records().iter().map(|record| record[0]).collect();
                *self.messages.entry(numbers).or_default() += 1;
                return;
            }
            let nodes = answer.nodes();
            self.trees += 1;
            if self.trees == 1 || nodes.len() * self.nodes.1 > self.nodes.0 * tokens {
                self.nodes = (nodes.len(), tokens);
            }
            let levels = depth(nodes).expect("an answer is one tree");
            if self.trees == 1 || levels + self.levels.1 > self.levels.0 + tokens {
                self.levels = (levels, tokens);
            }
            self.count_rules(case, nodes);
        }

        fn count_rules(&mut self, case: &Case, nodes: &[RustNode]) {
            let rules = rules::marked(case).expect("a tree with its marks");
            assert_eq!(rules.len(), nodes.len(), "{case:?}");
            for (node, rule) in nodes.iter().zip(rules) {
                self.rules[usize::from(rule)] += 1;
                let table = rules::of_node(&node.token, node.children, case.version);
                self.others += usize::from(table != Some(rule));
            }
        }

        pub fn print(&self, what: &str) {
            println!("{what}: {} lists, {} trees", self.lists, self.trees);
            for (numbers, count) in &self.messages {
                println!("  messages {numbers:?}: {count}");
            }
            println!(
                "  most nodes for a token: {} of {}",
                self.nodes.0, self.nodes.1
            );
            println!(
                "  most levels: {} of {} tokens",
                self.levels.0, self.levels.1
            );
            let nodes: usize = self.rules.iter().sum();
            println!(
                "  {nodes} nodes by rule: {:?}, {} of them other than by the table",
                self.rules, self.others
            );
        }
    }
}

#[cfg(not(molangx))]
fn main() {
    eprintln!("survey: the Rust source is not at hand (MOLANGX_SRC), nothing can be read");
    std::process::exit(1);
}
