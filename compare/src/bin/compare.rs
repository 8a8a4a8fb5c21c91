//! The long comparison (`make compare`): reading through the C convention beside the Rust, reading with rules beside the Rust whose
//! passes mark the nodes, texts of the grammar beside the trees that it gives them and lists at its border beside the Rust, writing trees
//! beside the second writer, export and import beside their model and each other, reading and writing, the written lists of these and of
//! the trees lifted further, lists lifted by the library's entry beside a model, reading, writing and reading again with one payload
//! changed, and histories of open lists; and what the programs `everylist` and `liftcount` print, where they are built. The last line is
//! `N lists, 0 differences`; a difference ends the run with a status that is not 0, after the smallest list that shows it.
//!
//!     compare [LISTS] [SEED]

use std::process::ExitCode;

#[cfg(not(library))]
fn main() -> ExitCode {
    eprintln!("compare: the static library is not built; run: make library");
    ExitCode::FAILURE
}

#[cfg(library)]
fn main() -> ExitCode {
    let mut arguments = std::env::args().skip(1);
    let mut number = |usual: u64| match arguments.next() {
        None => Ok(usual),
        Some(word) => word.parse::<u64>(),
    };
    let (Ok(lists), Ok(seed)) = (number(5_000_000), number(1)) else {
        eprintln!("usage: compare [LISTS] [SEED]");
        return ExitCode::FAILURE;
    };
    if !oracle::COMPARED {
        eprintln!("compare: the Rust source is not at hand; name its folder in MOLANGX_SRC");
        return ExitCode::FAILURE;
    }
    match run::all(lists, seed) {
        Ok(compared) => {
            println!("{compared} lists, 0 differences");
            ExitCode::SUCCESS
        }
        Err((compared, difference)) => {
            println!("{difference}");
            println!("{compared} lists, 1 difference");
            ExitCode::FAILURE
        }
    }
}

#[cfg(library)]
mod run {
    use compare::border;
    use compare::calls;
    use compare::comparison::Comparison;
    use compare::everylist::{Asked, list_text};
    use compare::grammar_reading::{OTHERS, Texts, VERSIONS};
    use compare::histories::{self, Histories};
    use compare::lift_archives::Archives;
    use compare::liftcount::{self, Counts};
    use compare::lifting::Lifts as ListLifts;
    use compare::lifting_again::{Library as Lifts, Lifting};
    use compare::matching::Matching;
    use compare::numbers::Numbers;
    use compare::payload_calls::{self, PayloadCall};
    use compare::payload_pairs::{Library, Pairs, Tally};
    use compare::plain_trees;
    use compare::programs::Program;
    use compare::reordering::{Way, reorder};
    use compare::rereading::{Lists, Reread, reread};
    use compare::rule_calls;
    use compare::ruling::Ruling;
    use compare::smallest::smallest_input;
    use compare::stack_model::{Reordered, on_deep_stack};
    use compare::writer_model::Written;
    use oracle::generate::Rng;
    use oracle::refusal::{Call, RuleCall};
    use oracle::words::{Case, tree_words};
    use std::io::{IsTerminal as _, Write as _};
    use std::time::{Duration, Instant};

    /// The progress line: over itself on a terminal, else a line of its own now and then.
    struct Progress {
        part: &'static str,
        done: u64,
        since: Instant,
        told: Instant,
    }

    impl Progress {
        fn new(part: &'static str) -> Self {
            let since = Instant::now();
            Self {
                part,
                done: 0,
                since,
                told: since,
            }
        }

        fn one_more(&mut self) {
            self.done += 1;
            if !self.done.is_multiple_of(1 << 10) {
                return;
            }
            let mut out = std::io::stderr();
            let (wait, end) = if out.is_terminal() {
                (1, '\r')
            } else {
                (10, '\n')
            };
            if self.told.elapsed() < Duration::from_secs(wait) {
                return;
            }
            self.told = Instant::now();
            let seconds = self.since.elapsed().as_secs();
            let _ = write!(
                out,
                "{}: {} lists, {seconds} s ..{end}",
                self.part, self.done
            );
        }

        fn end(self, told: &str) {
            let seconds = self.since.elapsed().as_secs();
            println!("{}: {} lists, {seconds} s ({told})", self.part, self.done);
        }
    }

    /// How many lists were compared; the difference that ended it, where one did.
    pub fn all(lists: u64, seed: u64) -> Result<u64, (u64, String)> {
        let mut done = 0;
        let mut part = |name, calls: &mut dyn Iterator<Item = Call>| {
            let read = reading(name, calls);
            let (Ok(count) | Err((count, _))) = read;
            done += count;
            read.map_err(|(_, difference)| (done, difference))
        };
        let lists = lists as usize;
        let generated = |number, most| calls::generated(seed + number, most);
        let short = &mut generated(0, 24).take(lists);
        part("generated lists of up to 24 tokens", short)?;
        let long = &mut generated(1, 300).take(lists / 100);
        part("generated lists of up to 300 tokens", long)?;
        let longest = &mut generated(2, 4_096).take(lists / 5_000);
        part("generated lists of up to 4,096 tokens", longest)?;
        let hosted = &mut calls::hosted(seed + 3, 24).take(lists / 5);
        part("lists with hosts in any place of up to 24 tokens", hosted)?;
        let hosted = &mut calls::hosted(seed + 4, 300).take(lists / 500);
        part("lists with hosts in any place of up to 300 tokens", hosted)?;
        let hosted = &mut calls::over_hosts(5);
        part(
            "every list of up to 5 over three alphabets with hosts, at 4, 5 and 6",
            hosted,
        )?;
        let brackets = &mut calls::bracketed(seed, 16).take(lists);
        part("lists of brackets of about 16 tokens", brackets)?;
        let brackets = &mut calls::bracketed(seed + 1, 300).take(lists / 100);
        part("lists of brackets of about 300 tokens", brackets)?;
        let eights = &mut calls::over_eights(5);
        part(
            "every list of up to 5 over three alphabets of 8, at 4, 5 and 6",
            eights,
        )?;
        let alphabets = &mut calls::over_alphabets(5);
        part(
            "every list of up to 5 over the generator's alphabets, at 4, 5 and 6",
            alphabets,
        )?;
        part(
            "used sets that are not exact",
            &mut calls::used_sets(seed, 1_500),
        )?;
        let lens = [4_096, 4_095, 1_000, 100, 9];
        let shapes = &mut lens.into_iter().flat_map(calls::shapes);
        part("every shape, at 4, 5 and 6", shapes)?;
        part("every refusal at its limits", &mut calls::limits())?;
        part(
            "every list of up to 6 brackets at limits 1 to 4, and others beside their limits",
            &mut calls::nesting(6),
        )?;
        let ruled = all_ruled(lists, seed);
        let (Ok(count) | Err((count, _))) = ruled;
        done += count;
        ruled.map_err(|(_, difference)| (done, difference))?;
        for part in [
            texts,
            border_lists,
            every_number,
            short_brackets,
            writing,
            reordering,
            expressions,
            scripts,
            short_scripts,
            one_payload,
            one_payload_of_short_lists,
            one_payload_at_every_version,
            one_node,
            chains,
            lifted_lists,
            open_lists,
            every_short_list,
            lift_counts,
        ] {
            let written = part(lists as u64 / 5, seed);
            let (Ok(count) | Err((count, _))) = written;
            done += count;
            written.map_err(|(_, difference)| (done, difference))?;
        }
        Ok(done)
    }

    /// Reads with rules, beside the Rust whose passes mark the nodes.
    fn all_ruled(lists: usize, seed: u64) -> Result<u64, (u64, String)> {
        let lens = [4_096, 4_095, 1_000, 100, 9];
        let generated = |number, most| calls::generated(seed + number, most);
        let ruled = |calls: Box<dyn Iterator<Item = Call>>| rule_calls::with_rules(seed, calls);
        let parts: [(&str, Box<dyn Iterator<Item = Call>>); 9] = [
            (
                "generated lists of up to 24 tokens with rules",
                Box::new(generated(10, 24).take(lists)),
            ),
            (
                "generated lists of up to 300 tokens with rules",
                Box::new(generated(11, 300).take(lists / 100)),
            ),
            (
                "generated lists of up to 4,096 tokens with rules",
                Box::new(generated(12, 4_096).take(lists / 5_000)),
            ),
            (
                "lists with hosts in any place of up to 24 tokens with rules",
                Box::new(calls::hosted(seed + 10, 24).take(lists / 5)),
            ),
            (
                "lists of brackets of about 16 tokens with rules",
                Box::new(calls::bracketed(seed + 10, 16).take(lists / 5)),
            ),
            (
                "every list of up to 5 over three alphabets of 8, at 4, 5 and 6, with rules",
                Box::new(calls::over_eights(5)),
            ),
            (
                "every list of up to 5 over the generator's alphabets, at 4, 5 and 6, with rules",
                Box::new(calls::over_alphabets(5)),
            ),
            (
                "used sets that are not exact, with rules",
                Box::new(calls::used_sets(seed + 10, 1_500)),
            ),
            (
                "every shape, at 4, 5 and 6, with rules",
                Box::new(lens.into_iter().flat_map(calls::shapes)),
            ),
        ];
        let mut done = 0;
        let mut part = |name, calls: &mut dyn Iterator<Item = RuleCall>| {
            let read = ruling(name, calls);
            let (Ok(count) | Err((count, _))) = read;
            done += count;
            read.map_err(|(_, difference)| (done, difference))
        };
        for (name, calls) in parts {
            part(name, &mut ruled(calls))?;
        }
        part(
            "lists that versions read otherwise, at every version, with rules",
            &mut rule_calls::every_version(),
        )?;
        part(
            "every refusal at its limits, each with rule buffers that are too short and long enough",
            &mut rule_calls::limits(4),
        )?;
        Ok(done)
    }

    /// Has texts of docs/GRAMMAR.md's grammar read, `count` at each of 4, 5 and 6 and a tenth as many at others, beside the tree that the
    /// grammar gives.
    fn texts(count: u64, seed: u64) -> Result<u64, (u64, String)> {
        let mut progress = Progress::new("texts of the grammar, at 4, 5 and 6 and around");
        let mut texts = Texts::new(seed);
        let versions = VERSIONS.map(|version| (version, count)).into_iter();
        let versions = versions.chain(OTHERS.map(|version| (version, count / 10)));
        for (version, count) in versions {
            for _ in 0..count {
                let read = texts.one(version);
                read.map_err(|difference| (progress.done, difference))?;
                progress.one_more();
            }
        }
        let done = progress.done;
        progress.end(&format!("{} nodes as the grammar says", texts.nodes));
        Ok(done)
    }

    /// Reads the lists on both sides of the grammar's border, and lists that are one token away from a text.
    fn border_lists(count: u64, seed: u64) -> Result<u64, (u64, String)> {
        let places = "both sides of each place of the grammar's border, at 3 to 7, with each operator in or out";
        let done = reading(places, &mut border::all())?;
        let beside = &mut border::beside_texts(seed).take(count as usize);
        match reading(
            "lists that are one token away from a text of the grammar",
            beside,
        ) {
            Ok(count) => Ok(done + count),
            Err((count, difference)) => Err((done + count, difference)),
        }
    }

    /// Has every operator number with every variant and every other bit of its word judged by all four entries.
    fn every_number(_: u64, _: u64) -> Result<u64, (u64, String)> {
        let mut progress =
            Progress::new("every operator number, variant and bit of a word of kind 1");
        let mut numbers = Numbers::default();
        let ended = numbers.all(|| progress.one_more());
        ended.map_err(|difference| (numbers.words, difference))?;
        progress.end(&format!("{} of them good", numbers.good));
        Ok(numbers.words)
    }

    /// Reads every short list of brackets beside the Rust and beside what is not lost in them.
    fn short_brackets(_: u64, _: u64) -> Result<u64, (u64, String)> {
        let mut progress = Progress::new("every list of up to 7 over the six brackets and a float");
        let mut matching = Matching::default();
        let ended = matching.all(7, || progress.one_more());
        ended.map_err(|difference| (matching.lists, difference))?;
        progress.end(&format!(
            "{} matched, {} of them with a closer met with nothing open; their trees once more with commas between",
            matching.matched, matching.lone
        ));
        Ok(matching.lists)
    }

    /// Lifts `count` lists by the library and by the model, each between every two versions.
    fn lifted_lists(count: u64, seed: u64) -> Result<u64, (u64, String)> {
        let mut progress = Progress::new("lists lifted between every two versions");
        let (mut lifts, mut rng) = (ListLifts::default(), Rng::new(seed ^ 0x11F7));
        let short = calls::generated(seed + 20, 24).take(count as usize);
        let long = calls::generated(seed + 21, 300).take(count as usize / 100);
        let brackets = calls::bracketed(seed + 22, 16).take(count as usize / 10);
        for call in short.chain(long).chain(brackets) {
            let lifted = lifts.list(&call, &mut rng);
            lifted.map_err(|difference| (progress.done, difference))?;
            progress.one_more();
        }
        let done = progress.done;
        let [same, lifted, messages, refused, behind, unwritten] = lifts.tally;
        progress.end(&format!(
            "{same} lifts left the list, {lifted} wrote it, {messages} met messages, {refused} were turned back, \
             {behind} lists were too deep, {unwritten} could not be written"
        ));
        Ok(done)
    }

    /// Writes `count` trees of any spans by the library and by the second writer, most of them plain, and lifts what is written
    /// further.
    fn writing(count: u64, seed: u64) -> Result<u64, (u64, String)> {
        let name = "trees written, and the lists lifted three times more";
        let mut progress = Progress::new(name);
        let mut rng = Rng::new(seed ^ 0x77EE);
        let mut lifting = Lifting::new(seed ^ 0x77EE);
        let (mut tokens, mut refused) = (0, 0);
        while progress.done < count {
            let answer = one_tree(&mut rng, &mut lifting).map_err(|why| (progress.done, why))?;
            match answer {
                Written::Tokens(written) => tokens += written,
                Written::Refused(..) => refused += 1,
            }
            progress.one_more();
        }
        let done = progress.done;
        progress.end(&format!(
            "{tokens} tokens, {refused} trees turned back, {} of the others close anywhere; {}",
            lifting.tally.unsettled,
            deep(&lifting)
        ));
        Ok(done)
    }

    fn one_tree(rng: &mut Rng, lifting: &mut Lifting<Lifts>) -> Result<Written, String> {
        let most = if rng.chance(2) { 300 } else { 24 };
        let size = 1 + rng.below(most);
        let mut nodes = plain_trees::any(rng, size);
        if rng.chance(50) {
            nodes = plain_trees::disturbed(rng, nodes);
        }
        if rng.chance(30) {
            plain_trees::close_anywhere(rng, &mut nodes);
        }
        let words = tree_words(&nodes);
        let room = 5 * rng.below(4 * nodes.len() + 1);
        let room = if rng.chance(5) {
            room
        } else {
            20 * nodes.len()
        };
        lifting.tree(&words, room)
    }

    fn deep(lifting: &Lifting<Lifts>) -> String {
        let times = lifting.tally.too_deep;
        format!("{times} times a written list was turned back under a limit that it is above")
    }

    /// Exports `count` trees of any shape and imports as many, half of them damaged, by the library and by the model.
    fn reordering(count: u64, seed: u64) -> Result<u64, (u64, String)> {
        let mut progress = Progress::new("trees exported, and imported");
        let mut rng = Rng::new(seed ^ 0x57AC);
        let (mut nodes, mut refused) = (0, 0);
        on_deep_stack(|| {
            while progress.done < count {
                for way in Way::BOTH {
                    let answer = one_order(&mut rng, way).map_err(|why| (progress.done, why))?;
                    match answer {
                        Reordered::Nodes(count) => nodes += count,
                        Reordered::Refused(..) => refused += 1,
                    }
                    progress.one_more();
                }
            }
            let done = progress.done;
            progress.end(&format!("{nodes} nodes, {refused} turned back"));
            Ok(done)
        })
    }

    fn one_order(rng: &mut Rng, way: Way) -> Result<Reordered, String> {
        let most = match rng.below(1_000) {
            0 => 12_288,
            1..20 => 300,
            _ => 24,
        };
        let size = 1 + rng.below(most);
        let tree = tree_words(&plain_trees::any_shape(rng, size));
        let mut words = match way {
            Way::Export => tree,
            Way::Import => Way::Export.model(&tree, tree.len()).1,
        };
        if rng.chance(50) {
            words = plain_trees::damaged(rng, words);
        }
        let room = match rng.below(10) {
            0 => rng.below(words.len() + 1),
            1..5 => words.len() + rng.below(9),
            _ => words.len(),
        };
        reorder(rng, way, &words, room)
    }

    fn reading(
        name: &'static str,
        calls: &mut dyn Iterator<Item = Call>,
    ) -> Result<u64, (u64, String)> {
        let mut progress = Progress::new(name);
        let mut comparison = Comparison::default();
        let ended = comparison.all(calls, || progress.one_more());
        let tally = comparison.tally;
        ended.map_err(|difference| (tally.calls, difference))?;
        progress.end(&format!(
            "{} trees, {} with messages, {} turned back",
            tally.trees, tally.messages, tally.refused
        ));
        Ok(tally.calls)
    }

    fn ruling(
        name: &'static str,
        calls: &mut dyn Iterator<Item = RuleCall>,
    ) -> Result<u64, (u64, String)> {
        let mut progress = Progress::new(name);
        let mut ruling = Ruling::default();
        let ended = ruling.all(calls, || progress.one_more());
        let tally = ruling.tally;
        ended.map_err(|difference| (tally.calls, difference))?;
        let nodes: u64 = tally.rules.iter().sum();
        progress.end(&format!(
            "{} trees of {nodes} nodes, {} with messages, {} turned back, {} of them for the rule buffer",
            tally.trees, tally.messages, tally.refused, tally.short
        ));
        Ok(tally.calls)
    }

    fn expressions(count: u64, seed: u64) -> Result<u64, (u64, String)> {
        let name = "expressions read and written, and the lists lifted three times more";
        rereading(name, Lists::new(seed), count, seed)
    }

    fn scripts(count: u64, seed: u64) -> Result<u64, (u64, String)> {
        let name = "scripts read and written, and the lists lifted three times more";
        rereading(name, Lists::scripts(seed), count, seed)
    }

    fn short_scripts(_: u64, seed: u64) -> Result<u64, (u64, String)> {
        let name =
            "every list of up to 7 and a semicolon over three alphabets, at 4, 5 and 6, likewise";
        rereading(name, calls::over_scripts(7), u64::MAX, seed)
    }

    /// Goes on until `count` lists were written and lifted further, or to the end of the lists.
    fn rereading(
        name: &'static str,
        lists: impl Iterator<Item = Case>,
        count: u64,
        seed: u64,
    ) -> Result<u64, (u64, String)> {
        let mut progress = Progress::new(name);
        let mut lifting = Lifting::new(seed);
        let mut refused = 0;
        for case in lists {
            match reread(&mut lifting, &case) {
                Ok(Reread::Again) => progress.one_more(),
                Ok(Reread::Refused) => refused += 1,
                Ok(Reread::Messages) => {}
                Err(difference) => {
                    return Err((progress.done, format!("{difference}\nof {case:?}")));
                }
            }
            if progress.done >= count {
                break;
            }
        }
        let lists = progress.done + refused;
        progress.end(&format!(
            "{refused} more trees are not plain or too long; {}",
            deep(&lifting)
        ));
        Ok(lists)
    }

    fn one_payload(count: u64, seed: u64) -> Result<u64, (u64, String)> {
        let pairs = payload_calls::generated(seed).take(count as usize);
        reaching("lists, each also with one payload changed", pairs)
    }

    fn one_payload_of_short_lists(_: u64, _: u64) -> Result<u64, (u64, String)> {
        let name = "every list of up to 4 over two alphabets, at 4, 5 and 6 under three used sets, with each payload changed";
        reaching(name, payload_calls::every_short_list(4))
    }

    fn one_payload_at_every_version(_: u64, seed: u64) -> Result<u64, (u64, String)> {
        let name = "lists that versions read otherwise, at every version, each also with one payload changed";
        reaching(name, payload_calls::every_version(seed))
    }

    /// Reads each list with and without its other payload.
    fn reaching(
        name: &'static str,
        lists: impl Iterator<Item = PayloadCall>,
    ) -> Result<u64, (u64, String)> {
        let mut progress = Progress::new(name);
        let mut pairs = Pairs::<Library>::default();
        for pair in lists {
            let reached = pairs.list(&pair);
            reached.map_err(|difference| (progress.done, difference))?;
            progress.one_more();
        }
        let done = progress.done;
        progress.end(&reached(&pairs.tally));
        Ok(done)
    }

    fn reached(tally: &Tally) -> String {
        let apart: u64 = tally.messages_apart.iter().sum();
        format!(
            "{} trees differ in one node, {} in none; {apart} messages differ in one argument ({} of 8, {} of 9), {} in none",
            tally.trees_apart,
            tally.trees_equal,
            tally.messages_apart[8],
            tally.messages_apart[9],
            tally.messages_equal
        )
    }

    /// Writes `count` trees with and without another payload in one node.
    fn one_node(count: u64, seed: u64) -> Result<u64, (u64, String)> {
        let mut progress = Progress::new("trees written, each also with one payload changed");
        let mut pairs = Pairs::<Library>::default();
        for pair in payload_calls::trees(seed).take(count as usize) {
            let reached = pairs.tree(&pair);
            reached.map_err(|difference| (progress.done, difference))?;
            progress.one_more();
        }
        let (done, tally) = (progress.done, pairs.tally);
        progress.end(&format!(
            "{} written lists differ in one token, {} in none; turned back alike {} with 13, {} with 14, {} with 15",
            tally.lists_apart,
            tally.lists_equal,
            tally.refused[13],
            tally.refused[14],
            tally.refused[15]
        ));
        Ok(done)
    }

    /// Reads, writes and reads again `count` lists, expressions and scripts, with and without another payload in one token.
    fn chains(count: u64, seed: u64) -> Result<u64, (u64, String)> {
        let name = "lists read, written and read again, each also with one payload changed";
        let mut progress = Progress::new(name);
        let (mut pairs, mut rng) = (Pairs::<Library>::default(), Rng::new(seed ^ 0xC4A1));
        let lists = Lists::new(seed + 20).zip(Lists::scripts(seed + 21));
        for case in lists.flat_map(|(expression, script)| [expression, script]) {
            if progress.done >= count {
                break;
            }
            let Some(pair) = PayloadCall::any(&mut rng, Call::of(&case)) else {
                continue;
            };
            let chain = pairs.chain(&mut rng, &pair);
            if chain.map_err(|difference| (progress.done, difference))? {
                progress.one_more();
            }
        }
        let (done, tally) = (progress.done, pairs.tally);
        progress.end(&format!(
            "{} second trees differ in one node, {} in none; {} first readings: {}",
            tally.again_apart,
            tally.again_equal,
            tally.read_pairs(),
            reached(&tally)
        ));
        Ok(done)
    }

    /// Goes through histories of open lists, a tenth of `count`, beside a list that is edited by hand and what the Rust reads it as.
    fn open_lists(count: u64, seed: u64) -> Result<u64, (u64, String)> {
        let mut progress = Progress::new("histories of open lists");
        let mut histories = Histories::by(histories::Library);
        for number in 0..count / 10 {
            let compared = histories.history((seed << 32) + number);
            compared.map_err(|difference| (progress.done, difference))?;
            progress.one_more();
        }
        let (done, tally) = (progress.done, histories.tally);
        let refused: u64 = tally.refused.iter().sum();
        progress.end(&format!(
            "{} calls: {} trees, {} messages, {} versions adopted, {refused} turned back; {} commits, {} of them answered as asked; {} calls of states that were made up",
            tally.calls, tally.trees, tally.messages, tally.adopted, tally.commits, tally.as_asked, tally.made_up
        ));
        Ok(done)
    }

    /// Has `everylist` print every list of up to 6 over alphabets of 8, beside the Rust's answers.
    fn every_short_list(_: u64, _: u64) -> Result<u64, (u64, String)> {
        let Some(program) = Program::built("everylist", "compared") else {
            return Ok(0);
        };
        let name =
            "every list of up to 6 over six alphabets of 8, at 4, 5 and 6, printed by everylist";
        let mut progress = Progress::new(name);
        let mut bytes = 0;
        for alphabet in calls::EIGHTS.iter().chain(&calls::HOSTS) {
            for version in [4, 5, 6] {
                let asked = Asked::new(version, 6, alphabet.ops);
                let text = program.run(&asked.input());
                let printed = lists_in(&asked, &text, || progress.one_more());
                printed.map_err(|difference| (progress.done, difference))?;
                bytes += text.len();
            }
        }
        let done = progress.done;
        progress.end(&format!("{bytes} bytes"));
        Ok(done)
    }

    /// Takes what is printed of each list off a text, to its end.
    fn lists_in(asked: &Asked, text: &str, mut progress: impl FnMut()) -> Result<(), String> {
        let mut rest = text;
        for list in asked.lists() {
            let wanted = list_text(&list, asked.version);
            let differs = || format!("everylist prints something else for {list:?} of {asked:?}");
            rest = rest.strip_prefix(&wanted).ok_or_else(differs)?;
            progress();
        }
        match rest {
            "" => Ok(()),
            _ => Err(format!("everylist prints more than the lists of {asked:?}")),
        }
    }

    /// Has `liftcount` go through random archives, a tenth of `count`, beside what the Rust reads their lists as.
    fn lift_counts(count: u64, seed: u64) -> Result<u64, (u64, String)> {
        let Some(program) = Program::built("liftcount", "compared") else {
            return Ok(0);
        };
        let mut progress = Progress::new("lists of random archives, counted by liftcount");
        let (mut counts, mut refused, mut bytes) = (Counts::default(), 0, 0);
        for input in Archives::new(seed).take(count as usize / 10) {
            let differs = |input: &[u8]| program.run(input) != liftcount::printed(input);
            if differs(&input) {
                let input = smallest_input(input, differs);
                let (found, wanted) = (program.run(&input), liftcount::printed(&input));
                let difference =
                    format!("liftcount prints {found:?} and not {wanted:?} for {input:02x?}");
                return Err((progress.done, difference));
            }
            bytes += input.len();
            match liftcount::Lists::of(&input).and_then(|lists| lists.verdicts()) {
                Ok(verdicts) => {
                    verdicts.iter().for_each(|_| progress.one_more());
                    counts = counts.plus(&Counts::of(verdicts));
                }
                Err(_) => refused += 1,
            }
        }
        let (done, archives) = (progress.done, count / 10);
        progress.end(&format!(
            "{archives} archives of {bytes} bytes, {refused} turned back; the same tree {}, different trees {}, a message at one version {}, at both {}",
            counts.same, counts.different, counts.one, counts.both
        ));
        Ok(done)
    }
}
