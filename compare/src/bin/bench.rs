//! What reading and writing take beside the Rust (`make bench`). Reading is timed through the C convention, with every
//! check, the emission and the clearing of a work buffer of exactly 64 words per token plus 64, into buffers that are
//! reused; the Rust is timed building its list, grouping it and dropping the tree. Writing is timed beside a plain Rust
//! writer over a tree of `Vec`s that checks nothing, export and import beside a plain Rust function that checks nothing
//! either. Rounds of batches go over all workloads in turn, and the least batch counts. The last line is `least ratio R, mean
//! ratio M, greatest growth G`, of reading. Where `SORBRUDDER_BEFORE` names the folder of another archive when this is built,
//! that library is timed in the same rounds (docs/notes/bench.md). Reading is timed under the greatest nesting limit, and long
//! lists that nest less also under the limit 64, call by call in turn. Call by call in turn reading is also timed with rules and
//! without, and asking an edit of an open list beside reading what it leads to. The programs `everylist`, `liftcount` and
//! `liftlists` are timed where they are built, the latter two beside the Rust's two readings.
//!
//!     bench [ROUNDS]

#[cfg(not(library))]
fn main() -> std::process::ExitCode {
    eprintln!("bench: the static library is not built; run: make library");
    std::process::ExitCode::FAILURE
}

#[cfg(library)]
fn main() {
    let rounds = std::env::args().nth(1).and_then(|word| word.parse().ok());
    timed::all(rounds.unwrap_or(40));
}

#[cfg(library)]
mod timed {
    use compare::ask_times;
    use compare::library::{Given, Library};
    use compare::program_times;
    use compare::reordering::Way;
    use compare::stack_model::Reordered;
    use compare::workloads::{self, SAME_AS_ONE, SCRIPT, Trees, Workload};
    use oracle::nesting::{MOST_NESTING, least_limit};
    use oracle::words::{Case, NODE_WORDS, TOKEN_WORDS, Token, list_words, low, tree_words};
    use sorbrudder_sys::{Answer, Lent, parse_rules};
    use std::hint::black_box;
    use std::time::Instant;

    /// Batches of one side: nanoseconds per token, or per node.
    #[derive(Default)]
    struct Batches(Vec<f64>);

    impl Batches {
        fn least(&self) -> f64 {
            self.0.iter().copied().fold(f64::INFINITY, f64::min)
        }

        /// The batch that one in so many is below.
        fn low(&self, part: usize) -> Option<f64> {
            let mut sorted = self.0.clone();
            sorted.sort_by(f64::total_cmp);
            sorted.get(sorted.len() / part).copied()
        }

        /// By how much the middle batch is above the least.
        fn noise(&self) -> f64 {
            let middle = self.low(2);
            middle.map_or(0.0, |middle| middle / self.least() - 1.0)
        }

        /// Times `repeats` runs of `run` over `tokens` tokens or nodes, after one that brings what they use into the caches again.
        fn add(&mut self, repeats: usize, tokens: usize, mut run: impl FnMut()) {
            run();
            let since = Instant::now();
            for _ in 0..repeats {
                run();
            }
            let nanoseconds = since.elapsed().as_nanos() as f64;
            self.0.push(nanoseconds / (repeats * tokens) as f64);
        }
    }

    /// The library that is timed, and the one before it.
    #[derive(Copy, Clone)]
    enum Side {
        Now,
        Before,
    }

    /// Both sides, each first in every other round.
    fn sides(round: usize) -> [Side; 2] {
        match round % 2 {
            0 => [Side::Now, Side::Before],
            _ => [Side::Before, Side::Now],
        }
    }

    /// The nesting limits that are timed call by call: the greatest, and one that the brackets of a long list are counted for.
    const LIMITS: [u32; 2] = [MOST_NESTING, 64];

    /// A workload with what was measured of it.
    struct Line {
        name: String,
        tokens: usize,
        /// What `tokens` counts.
        unit: &'static str,
        ours: Batches,
        before: Batches,
        rust: Batches,
        /// How much longer single calls under the lower limit take than the ones beside them under the greatest, per token.
        limited: Batches,
        /// How much longer single calls with rules take than the ones beside them without, per node.
        ruled: Batches,
    }

    impl Line {
        fn new(name: &str, tokens: usize) -> Self {
            Self {
                name: name.to_string(),
                tokens,
                unit: "tokens",
                ours: Batches::default(),
                before: Batches::default(),
                rust: Batches::default(),
                limited: Batches::default(),
                ruled: Batches::default(),
            }
        }

        fn of_nodes(name: &str, nodes: usize) -> Self {
            Self {
                unit: "nodes",
                ..Self::new(name, nodes)
            }
        }

        fn side(&mut self, side: Side) -> &mut Batches {
            match side {
                Side::Now => &mut self.ours,
                Side::Before => &mut self.before,
            }
        }

        fn ratio(&self) -> f64 {
            self.rust.least() / self.ours.least()
        }

        /// How many nanoseconds a token takes more under the lower limit, in the middle of the turns.
        fn for_the_limit(&self) -> Option<f64> {
            self.limited.low(2)
        }

        /// How many nanoseconds a node takes more with rules, in the middle of the turns.
        fn for_the_rules(&self) -> Option<f64> {
            self.ruled.low(2)
        }

        /// How many times as long it takes as in the library before.
        fn beside_before(&self) -> f64 {
            self.ours.least() / self.before.least()
        }

        fn print(&self) {
            let (ours, before, rust) = (self.ours.least(), self.before.least(), self.rust.least());
            let (name, tokens, unit) = (&self.name, self.tokens, self.unit);
            print!("{name:28} {tokens:5} {unit}  {ours:6.1} ns");
            if before.is_finite() {
                let times = self.beside_before();
                print!("  before {before:6.1} ns  times {times:4.2}");
            }
            if rust.is_finite() {
                let ratio = self.ratio();
                print!("  Rust {rust:6.1} ns  ratio {ratio:5.2}");
            }
            println!();
        }
    }

    /// About how many tokens a batch goes over.
    const BATCH: usize = 60_000;

    /// Reading: the words of the calls, and buffers that are lent at exactly the lengths that are asked for.
    struct Reading {
        line: Line,
        /// All tokens of the lists together.
        tokens: usize,
        calls: Vec<(Case, Vec<u32>)>,
        libraries: Libraries,
        tree: Vec<u32>,
        messages: Vec<u32>,
        work: Vec<u32>,
        rules: Vec<u8>,
    }

    /// The library that is timed, and the one before it if there is one.
    #[derive(Copy, Clone)]
    struct Libraries {
        now: Library,
        before: Option<Library>,
    }

    impl Libraries {
        fn of(self, side: Side) -> Option<Library> {
            match side {
                Side::Now => Some(self.now),
                Side::Before => self.before,
            }
        }
    }

    impl Reading {
        fn new(libraries: Libraries, workload: Workload) -> Self {
            let name = workload.name;
            let tokens = workload.cases.iter().map(|case| case.tokens.len());
            let (sum, most) = (tokens.clone().sum(), tokens.max().unwrap_or(0));
            let with_words = |case: Case| {
                let words = list_words(&case.tokens);
                (case, words)
            };
            let mut reading = Self {
                line: Line::new(name, most),
                tokens: sum,
                calls: workload.cases.into_iter().map(with_words).collect(),
                libraries,
                tree: vec![0; 3 * NODE_WORDS * most],
                messages: vec![0; 16],
                work: vec![0; 64 * most + 64],
                rules: vec![0; 3 * most],
            };
            for call in 0..reading.calls.len() {
                let case = &reading.calls[call].0;
                assert_ne!(oracle::grouped_if_at_hand(case), Some(false), "{name}");
                for library in [Some(libraries.now), libraries.before]
                    .into_iter()
                    .flatten()
                {
                    let answer = reading.read(library, call, MOST_NESTING);
                    assert!(matches!(answer, Answer::Filled(_)), "{name}: {answer:?}");
                }
            }
            reading
        }

        /// Reads one list into buffers of exactly the lengths that the library asks for.
        fn read(&mut self, library: Library, call: usize, limit: u32) -> Answer {
            let (case, list) = black_box(&self.calls[call]);
            let given = given(case, limit);
            let tokens = case.tokens.len();
            let tree = &mut self.tree[..3 * library.node_words * tokens];
            let work = &mut self.work[..64 * tokens + 64];
            library.parse(list, tree, &mut self.messages, work, given)
        }

        /// Reads the first list with rules, into such buffers.
        fn read_with_rules(&mut self) -> Answer {
            let (case, list) = black_box(&self.calls[0]);
            let tokens = case.tokens.len();
            let lent = Lent {
                list,
                tree: &mut self.tree[..3 * NODE_WORDS * tokens],
                messages: &mut self.messages,
                work: &mut self.work[..64 * tokens + 64],
            };
            let rules = &mut self.rules[..3 * tokens];
            parse_rules(lent, rules, given(case, MOST_NESTING))
        }

        fn round(&mut self, round: usize) {
            let repeats = BATCH.div_ceil(self.tokens);
            for side in sides(round) {
                let Some(library) = self.libraries.of(side) else {
                    continue;
                };
                let mut batches = std::mem::take(self.line.side(side));
                batches.add(repeats, self.tokens, || {
                    for call in 0..self.calls.len() {
                        black_box(self.read(library, call, MOST_NESTING));
                    }
                });
                *self.line.side(side) = batches;
            }
            if oracle::COMPARED {
                self.line.rust.add(repeats.div_ceil(4), self.tokens, || {
                    for (case, _) in black_box(&self.calls) {
                        black_box(oracle::grouped_if_at_hand(case));
                    }
                });
            }
        }

        /// Whether every list is within the lower limit.
        fn is_within(&self) -> bool {
            let mut cases = self.calls.iter().map(|(case, _)| case);
            cases.all(|case| least_limit(&case.tokens) <= LIMITS[1])
        }

        /// Reads the first list under both limits in turn, each first in every other turn.
        fn round_of_limits(&mut self) {
            let tokens = self.calls[0].0.tokens.len();
            for turn in 0..BATCH.div_ceil(tokens) {
                let more = more_in_turn(turn, |which| {
                    self.read(self.libraries.now, 0, LIMITS[which])
                });
                self.line.limited.0.push(more / tokens as f64);
            }
        }

        /// Reads the first list without rules and with them in turn, each first in every other turn.
        fn round_of_rules(&mut self) {
            let Answer::Filled(nodes) = self.read_with_rules() else {
                unreachable!("the reading was a tree");
            };
            let tokens = self.calls[0].0.tokens.len();
            for turn in 0..BATCH.div_ceil(tokens) {
                let more = more_in_turn(turn, |which| match which {
                    0 => self.read(self.libraries.now, 0, MOST_NESTING),
                    _ => self.read_with_rules(),
                });
                self.line.ruled.0.push(more / nodes as f64);
            }
        }
    }

    /// How many nanoseconds call 1 takes more than call 0; which of them is made first changes from turn to turn.
    fn more_in_turn(turn: usize, mut call: impl FnMut(usize) -> Answer) -> f64 {
        let mut took = [0.0; 2];
        for which in [turn % 2, (turn + 1) % 2] {
            let since = Instant::now();
            black_box(call(which));
            took[which] = since.elapsed().as_nanos() as f64;
        }
        took[1] - took[0]
    }

    /// What a case is read with beside its words.
    fn given(case: &Case, limit: u32) -> Given {
        Given {
            source_len: u64::from(case.source_len),
            version: case.version,
            used: case.used,
            limit,
        }
    }

    /// A tree of the plain Rust writer.
    struct Node {
        token: Token,
        /// Where it closes.
        close: u32,
        children: Vec<Node>,
    }

    fn bare(op: u16, start: u32, end: u32) -> Token {
        Token {
            op,
            variant: 0,
            value: 0,
            start,
            end,
        }
    }

    impl Node {
        /// The next tree of words, a node being so many of them.
        fn of<'w>(nodes: &mut impl Iterator<Item = &'w [u32]>) -> Self {
            let node = nodes.next().expect("the tree is whole");
            let token = Token::of_words(&node[..TOKEN_WORDS]).expect("a node has a token");
            let children = (0..low(node[TOKEN_WORDS]))
                .map(|_| Self::of(nodes))
                .collect();
            // Before card 2 a node did not say where it closes.
            let close = node.get(TOKEN_WORDS + 1);
            Self {
                token,
                close: close.map_or(token.end, |close| low(*close)),
                children,
            }
        }

        /// Writes a script, or an expression.
        fn write_tree(&self, list: &mut Vec<u32>) {
            if self.token.op != 73 {
                self.write(list);
                return;
            }
            for statement in &self.children {
                for held in &statement.children {
                    held.write(list);
                    let Token { start, end, .. } = held.token;
                    list.extend(bare(73, start, end).words());
                }
            }
        }

        /// Writes an expression, or what a statement holds; the lowest start and the highest end of its spans.
        fn write(&self, list: &mut Vec<u32>) -> (u32, u32) {
            let own = (self.token.start, self.token.end);
            match &self.children[..] {
                [] => {
                    list.extend(self.token.words());
                    own
                }
                [only] if self.token.op == 4 => {
                    list.extend(self.token.words());
                    let below = only.write(list);
                    list.extend(bare(5, self.close, self.close).words());
                    wider(own, below)
                }
                [only] => {
                    list.extend(self.token.words());
                    wider(own, only.write_operand(list, false))
                }
                [left, right, ..] => {
                    let alone = self.token.op == 75 && left.token.op == 75;
                    let before = left.write_operand(list, alone);
                    list.extend(self.token.words());
                    let alone = self.token.op == 59 && right.token.op == 60;
                    wider(wider(own, before), right.write_operand(list, alone))
                }
            }
        }

        fn write_operand(&self, list: &mut Vec<u32>, alone: bool) -> (u32, u32) {
            if alone || self.children.is_empty() || self.token.op == 4 {
                return self.write(list);
            }
            // The opener is filled in when the operand's extent is known.
            let at = list.len();
            list.extend([0; TOKEN_WORDS]);
            let (start, end) = self.write(list);
            list[at..at + TOKEN_WORDS].copy_from_slice(&bare(4, start, end).words());
            list.extend(bare(5, end, end).words());
            (start, end)
        }
    }

    fn wider(one: (u32, u32), other: (u32, u32)) -> (u32, u32) {
        (one.0.min(other.0), one.1.max(other.1))
    }

    /// A tree's words as one library has them, and the list that it is written into.
    struct Written {
        library: Library,
        tree: Vec<u32>,
        list: Vec<u32>,
    }

    impl Written {
        /// The first list of a workload, read and written, if its tree is plain; the list is as long as what is written.
        fn new(library: Library, reading: &mut Reading) -> Option<Self> {
            let Answer::Filled(nodes) = reading.read(library, 0, MOST_NESTING) else {
                unreachable!("the reading was a tree");
            };
            let tree = reading.tree[..library.node_words * nodes].to_vec();
            let mut list = vec![0; 20_480];
            let Answer::Filled(tokens) = library.write(&tree, &mut list) else {
                return None;
            };
            list.truncate(5 * tokens);
            Some(Self {
                library,
                tree,
                list,
            })
        }

        /// The tree of `Vec`s of the words.
        fn built(&self) -> Node {
            Node::of(&mut black_box(&self.tree).chunks(self.library.node_words))
        }

        fn write(&mut self) -> Answer {
            self.library.write(black_box(&self.tree), &mut self.list)
        }
    }

    /// Writing: what the libraries write, the same tree of `Vec`s, and the Rust's list.
    struct Writing {
        line: Line,
        /// The Rust's time where it has to build its tree from the words and to drop it.
        with_building: Batches,
        now: Written,
        before: Option<Written>,
        root: Node,
        rust_list: Vec<u32>,
    }

    impl Writing {
        fn new(libraries: Libraries, workload: Workload) -> Self {
            let name = workload.name;
            let mut reading = Reading::new(libraries, workload);
            let now = Written::new(libraries.now, &mut reading).expect("a plain tree");
            // Before card 1 no script was plain.
            let before = libraries.before;
            let before = before.and_then(|before| Written::new(before, &mut reading));
            let (root, mut rust_list) = (now.built(), Vec::new());
            root.write_tree(&mut rust_list);
            assert!(rust_list == now.list, "{name}: two lists");
            if let Some(before) = &before {
                // Before cards 2 and 3 brackets had other spans.
                let operators = |list: &[u32]| -> Vec<u32> {
                    list.iter().step_by(TOKEN_WORDS).copied().collect()
                };
                let same = operators(&before.list) == operators(&now.list);
                assert!(same, "{name}: another list before");
            }
            Self {
                line: Line::new(name, now.list.len() / TOKEN_WORDS),
                with_building: Batches::default(),
                root,
                now,
                before,
                rust_list,
            }
        }

        fn round(&mut self, round: usize) {
            let tokens = self.line.tokens;
            let repeats = BATCH.div_ceil(tokens);
            for side in sides(round) {
                let written = match side {
                    Side::Now => Some(&mut self.now),
                    Side::Before => self.before.as_mut(),
                };
                if let Some(written) = written {
                    let batches = self.line.side(side);
                    batches.add(repeats, tokens, || {
                        black_box(written.write());
                    });
                }
            }
            self.line.rust.add(repeats, tokens, || {
                self.rust_list.clear();
                black_box(&self.root).write_tree(&mut self.rust_list);
                black_box(&self.rust_list);
            });
            self.with_building.add(repeats.div_ceil(4), tokens, || {
                self.rust_list.clear();
                self.now.built().write_tree(&mut self.rust_list);
                black_box(&self.rust_list);
            });
        }

        fn print(&self) {
            self.line.print();
            let building = self.with_building.least();
            println!(
                "{:28} with its tree built from the words and dropped, Rust {building:6.1} ns",
                ""
            );
        }
    }

    /// About how many nodes a batch of export or import goes over.
    const NODES: usize = 240_000;

    /// A plain Rust function for both, which checks nothing: export takes the nodes from the first on and fills the output from its
    /// front, import does both from the other end. A node's words go out when those of all its children have.
    fn plain(way: Way, words: &[u32], output: &mut [u32], open: &mut Vec<(usize, u32)>) {
        let (nodes, _) = words.as_chunks::<NODE_WORDS>();
        let (output, _) = output.as_chunks_mut::<NODE_WORDS>();
        let at = |count: usize| match way {
            Way::Export => count,
            Way::Import => nodes.len() - 1 - count,
        };
        let mut out = 0;
        for number in (0..nodes.len()).map(at) {
            open.push((number, low(nodes[number][TOKEN_WORDS])));
            while let Some(&(done, 0)) = open.last() {
                open.pop();
                output[at(out)] = nodes[done];
                out += 1;
                if let Some((_, left)) = open.last_mut() {
                    *left -= 1;
                }
            }
        }
    }

    /// Export or import of trees, into outputs that are as long as what they take.
    struct Reordering {
        line: Line,
        is_random: bool,
        /// All nodes of the trees together.
        nodes: usize,
        way: Way,
        calls: Vec<Vec<u32>>,
        output: Vec<u32>,
        /// The plain function's open nodes.
        open: Vec<(usize, u32)>,
    }

    impl Reordering {
        fn both(trees: &Trees) -> [Self; 2] {
            let words: Vec<Vec<u32>> = trees.trees.iter().map(|tree| tree_words(tree)).collect();
            let export = Self::new(trees, Way::Export, words);
            let stacks = export.calls.iter().map(|words| export.plain_of(words));
            let import = Self::new(trees, Way::Import, stacks.collect());
            [export, import]
        }

        fn new(trees: &Trees, way: Way, calls: Vec<Vec<u32>>) -> Self {
            let name = trees.name;
            let nodes = calls.iter().map(|words| words.len() / NODE_WORDS);
            let (sum, most) = (nodes.clone().sum(), nodes.max().unwrap_or(0));
            let verb = match way {
                Way::Export => "export",
                Way::Import => "import",
            };
            let reordering = Self {
                line: Line::of_nodes(&format!("{verb}, {name}"), most),
                is_random: trees.is_random,
                nodes: sum,
                way,
                calls,
                output: vec![0; NODE_WORDS * most],
                open: Vec::new(),
            };
            for words in &reordering.calls {
                let mut output = vec![0; words.len()];
                let answer = way.library(words, &mut output);
                assert_eq!(answer, Reordered::Nodes(words.len() / NODE_WORDS), "{name}");
                assert!(output == reordering.plain_of(words), "{name}: two orders");
            }
            reordering
        }

        /// The words in the other order, by the plain function.
        fn plain_of(&self, words: &[u32]) -> Vec<u32> {
            let mut output = vec![0; words.len()];
            plain(self.way, words, &mut output, &mut Vec::new());
            output
        }

        fn round(&mut self) {
            let repeats = NODES.div_ceil(self.nodes);
            let (way, output, open) = (self.way, &mut self.output, &mut self.open);
            self.line.ours.add(repeats, self.nodes, || {
                for words in black_box(&self.calls) {
                    black_box(way.library(words, &mut output[..words.len()]));
                }
            });
            self.line.rust.add(repeats, self.nodes, || {
                for words in black_box(&self.calls) {
                    plain(way, words, &mut output[..words.len()], open);
                    black_box(&output);
                }
            });
        }
    }

    const FEW: usize = 512;
    const MANY: usize = 4_096;
    const MOST_NODES: usize = 12_288;

    /// By how much a token takes longer at 4,096 tokens than at 512, or a node at 12,288, a line for each; the greatest.
    fn growth<'l>(
        many: impl Iterator<Item = &'l Line>,
        few: impl Iterator<Item = &'l Line>,
    ) -> f64 {
        let mut greatest: f64 = 0.0;
        for (many, few) in many.zip(few) {
            let (from, to) = (few.ours.least(), many.ours.least());
            let growth = to / from;
            let (name, unit) = (&many.name, many.unit);
            print!(
                "growth of {name:28} {from:6.1} ns at {} {unit}, {to:6.1} ns at {}: {growth:.2}",
                few.tokens, many.tokens
            );
            if few.before.least().is_finite() {
                let times = few.beside_before();
                print!("  times {times:4.2} of before at {} tokens", few.tokens);
            }
            println!();
            greatest = greatest.max(growth);
        }
        greatest
    }

    /// The geometric mean.
    fn mean(ratios: &[f64]) -> f64 {
        let logarithms: f64 = ratios.iter().map(|ratio| ratio.ln()).sum();
        (logarithms / ratios.len() as f64).exp()
    }

    /// The least ratio to the Rust and the mean.
    fn ratios<'l>(lines: impl Iterator<Item = &'l Line>) -> (f64, f64) {
        let ratios: Vec<f64> = lines.map(Line::ratio).collect();
        let least = ratios.iter().copied().fold(f64::INFINITY, f64::min);
        (least, mean(&ratios))
    }

    /// Says by how much the workloads take longer than in the library before.
    fn print_beside<'l>(what: &str, lines: impl Iterator<Item = &'l Line>) {
        let times = lines.map(Line::beside_before);
        // A workload that the library before turned back has no time there.
        let times: Vec<f64> = times.filter(|times| *times > 0.0).collect();
        let greatest = times.iter().copied().fold(0.0, f64::max);
        let (count, mean) = (times.len(), mean(&times));
        println!(
            "{what} beside the library before, {count} workloads: greatest {greatest:.2}, mean {mean:.2}"
        );
    }

    /// All workloads, and the same of few tokens where the growth is measured.
    struct Timed {
        short: Vec<Reading>,
        many: Vec<Reading>,
        few: Vec<Reading>,
        written: Vec<Writing>,
        written_few: Vec<Writing>,
        reordered: Vec<Reordering>,
        reordered_few: Vec<Reordering>,
    }

    impl Timed {
        fn new() -> Self {
            let libraries = Libraries {
                now: Library::now(),
                before: Library::before(),
            };
            let read = |workloads: Vec<Workload>| {
                let read = workloads.into_iter();
                read.map(|workload| Reading::new(libraries, workload))
                    .collect()
            };
            let write = |len| {
                let written = workloads::plain(len).into_iter();
                written
                    .map(|workload| Writing::new(libraries, workload))
                    .collect()
            };
            Self {
                short: read(workloads::short()),
                many: read(workloads::long(MANY)),
                few: read(workloads::long(FEW)),
                written: write(MANY),
                written_few: write(FEW),
                reordered: workloads::trees(MOST_NODES)
                    .iter()
                    .flat_map(Reordering::both)
                    .collect(),
                reordered_few: workloads::trees(FEW)
                    .iter()
                    .flat_map(Reordering::both)
                    .collect(),
            }
        }

        fn round(&mut self, round: usize) {
            let readings = self.short.iter_mut().chain(&mut self.many);
            let readings = readings.chain(&mut self.few);
            readings.for_each(|reading| reading.round(round));
            let limited = self.many.iter_mut().filter(|reading| reading.is_within());
            limited.for_each(Reading::round_of_limits);
            let ruled = self.short.iter_mut().chain(&mut self.many);
            ruled.for_each(Reading::round_of_rules);
            let writings = self.written.iter_mut().chain(&mut self.written_few);
            writings.for_each(|writing| writing.round(round));
            let reordered = self.reordered.iter_mut().chain(&mut self.reordered_few);
            reordered.for_each(Reordering::round);
        }

        fn read(&self) -> impl Iterator<Item = &Line> {
            self.short
                .iter()
                .chain(&self.many)
                .map(|reading| &reading.line)
        }

        fn writings(&self) -> impl Iterator<Item = &Writing> {
            self.written_few.iter().chain(&self.written)
        }

        /// Prints the readings; their greatest growth.
        fn print_reading(&self) -> f64 {
            if !oracle::COMPARED {
                println!("The Rust source is not at hand (MOLANGX_SRC): reading is timed alone.");
            }
            println!("Reading, nanoseconds per token:");
            self.read().for_each(Line::print);
            let few = self.few.iter().map(|reading| &reading.line);
            growth(self.many.iter().map(|reading| &reading.line), few)
        }

        fn print_writing(&self) {
            println!("Writing, nanoseconds per written token:");
            self.writings().for_each(Writing::print);
            let few = self.written_few.iter().map(|writing| &writing.line);
            let grown = growth(self.written.iter().map(|writing| &writing.line), few);
            let (least, mean) = ratios(self.writings().map(|writing| &writing.line));
            println!(
                "writing: least ratio {least:.2}, mean ratio {mean:.2}, greatest growth {grown:.2}"
            );
            self.print_script();
        }

        /// All exports and imports, of few nodes too.
        fn reorderings(&self) -> impl Iterator<Item = &Reordering> {
            self.reordered_few.iter().chain(&self.reordered)
        }

        fn print_stack_order(&self) {
            println!("Export and import, nanoseconds per node:");
            let lines = || self.reorderings().map(|reordering| &reordering.line);
            lines().for_each(Line::print);
            let few = self.reordered_few.iter().map(|few| &few.line);
            let grown = growth(self.reordered.iter().map(|many| &many.line), few);
            let most = |is_random: bool| {
                let some = self.reorderings().filter(|one| one.is_random == is_random);
                some.map(|one| one.line.ours.least()).fold(0.0, f64::max)
            };
            let (shapes, random) = (most(false), most(true));
            let (least, mean) = ratios(lines());
            println!(
                "stack order: at most {shapes:.1} ns a node, {random:.1} ns of random trees, least ratio {least:.2}, mean ratio {mean:.2}, greatest growth {grown:.2}"
            );
        }

        /// Says what a script takes beside the same tokens as one expression.
        fn print_script(&self) {
            let named = |name: &'static str| {
                let lines = self.writings().map(|writing| &writing.line);
                lines.filter(move |line| line.name == name)
            };
            for (script, expression) in named(SCRIPT).zip(named(SAME_AS_ONE)) {
                let times = script.ours.least() / expression.ours.least();
                let tokens = script.tokens;
                println!(
                    "a script of {tokens} tokens beside the same as one expression: {times:.2}"
                );
            }
        }

        /// All lists that are read, of few tokens too.
        fn all_read(&self) -> impl Iterator<Item = &Line> {
            self.read().chain(self.few.iter().map(|few| &few.line))
        }

        /// Says what the count of brackets takes where a limit asks for it.
        fn print_limited(&self) {
            let limit = LIMITS[1];
            let mut greatest = f64::NEG_INFINITY;
            let mut workloads = 0;
            for line in self.many.iter().map(|reading| &reading.line) {
                let Some(more) = line.for_the_limit() else {
                    continue;
                };
                println!(
                    "{:28} {:5} tokens  at limit {limit} {more:5.2} ns more",
                    line.name, line.tokens
                );
                greatest = more.max(greatest);
                workloads += 1;
            }
            println!(
                "reading at limit {limit}, {workloads} workloads: at most {greatest:.2} ns a token more"
            );
        }

        /// Says what the rules take.
        fn print_ruled(&self) {
            let mut greatest = f64::NEG_INFINITY;
            for line in self.read() {
                let Some(more) = line.for_the_rules() else {
                    continue;
                };
                println!(
                    "{:28} {:5} tokens  with rules {more:5.2} ns a node more",
                    line.name, line.tokens
                );
                greatest = more.max(greatest);
            }
            println!("reading with rules: at most {greatest:.2} ns a node more");
        }

        fn print_beside_before(&self) {
            if Library::before().is_some() {
                print_beside("reading", self.all_read());
                print_beside("writing", self.writings().map(|writing| &writing.line));
            }
        }

        fn print_noise(&self) {
            let lines = self
                .read()
                .chain(self.writings().map(|writing| &writing.line))
                .chain(self.reorderings().map(|reordering| &reordering.line));
            let noise = lines.map(|line| line.ours.noise()).fold(0.0, f64::max);
            let percent = 100.0 * noise;
            println!("noise: the middle batch is at most {percent:.0} % above the least");
        }
    }

    pub fn all(rounds: usize) {
        let mut timed = Timed::new();
        for round in 0..rounds {
            timed.round(round);
        }
        let greatest = timed.print_reading();
        timed.print_limited();
        timed.print_ruled();
        timed.print_writing();
        timed.print_stack_order();
        timed.print_noise();
        timed.print_beside_before();
        let runs = rounds.div_ceil(8).max(1);
        ask_times::asking(rounds);
        program_times::everylist(runs);
        program_times::liftcount(runs);
        program_times::liftlists(runs);
        let (least, mean) = ratios(timed.read());
        if oracle::COMPARED {
            println!("least ratio {least:.2}, mean ratio {mean:.2}, greatest growth {greatest:.2}");
        } else {
            println!("greatest growth {greatest:.2}");
        }
    }
}
