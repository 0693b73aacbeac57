//! The public calls beside the plain Rust code: ratios, growth from size to size, and stack.
//!
//! `--smoke` makes one round on small sizes, so that the benchmark cannot rot. Names of calls, if
//! any are given, choose those to measure.
use std::env::args;
use std::hint::black_box;
use std::time::Instant;

use harness::answer::{page_words, preview_on_target, unattended_on_target, OnTarget};
use harness::generate::plants::PLANTS;
use harness::generate::workloads::{
    fours, global_log, members, merge_log, messages, mixed, single_moves, spread, table,
};
use harness::pairs::{
    self, Pair, CHECK_STATE, CHECK_TABLE, LIST_MOVES, MAKE_MOVE, PREVIEW, RUN, RUN_UNATTENDED, SERIALIZE,
};
use harness::plain;
use harness::random::Random;
use harness::stack;
use harness::words::{log_words, Move, State, Table};

/// So many logs are taken in turn: the times of one log again and again do not grow steadily with its moves. For the
/// list and the unattended run so many states.
const TURNS: usize = 16;

/// A state, and the move, log, page or budget that goes with it; none for a check.
type Input = (State, Vec<u32>);

/// Plain Rust's preview on a state's words in place.
const IN_PLACE: OnTarget =
    |table, state, mv, target| preview_on_target(plain::preview_in_place, table, state, mv, target);

/// Plain Rust's unattended run with counts that follow the moves.
const ALONG: OnTarget =
    |table, state, budget, target| unattended_on_target(plain::run_unattended_along, table, state, budget, target);

/// How long to measure.
#[derive(Clone, Copy)]
struct Effort {
    rounds: usize,
    /// Nanoseconds of one round.
    round: u64,
}

/// The best times of one call and of what it is measured beside, in nanoseconds.
#[derive(Clone, Copy)]
struct Times {
    ours: f64,
    rust: f64,
}

impl Times {
    fn ratio(self) -> f64 {
        self.ours / self.rust
    }
}

/// A table and its name.
#[derive(Clone)]
struct Named(&'static str, Table);

struct Bench {
    effort: Effort,
    small: Named,
    middle: Named,
    full: Named,
    entries: &'static [usize],
    moves: &'static [usize],
    /// Entries of the states whose moves are listed.
    listed: &'static [usize],
    /// The time of a copy by its words, each measured once.
    copies: Vec<(usize, f64)>,
    growth: Vec<Growth>,
    /// The ratios of each call.
    ratios: Vec<(&'static str, Vec<f64>)>,
    /// Our times of a preview beside those of other calls, by input.
    beside: Vec<(String, [Times; 2])>,
    /// Our times of an unattended run beside plain Rust whose counts follow the moves, by input.
    along: Vec<(String, Times)>,
    /// The deepest stack of each call.
    stack: Vec<(&'static str, usize)>,
}

fn nanoseconds(repeats: u64, mut call: impl FnMut()) -> f64 {
    let start = Instant::now();
    for _ in 0..repeats {
        call();
    }
    start.elapsed().as_nanos() as f64 / repeats as f64
}

/// The repeats that fill one round, in which each of so many inputs has its turn equally often.
fn repeats(effort: Effort, inputs: usize, mut call: impl FnMut()) -> u64 {
    let inputs = inputs as u64;
    let all = nanoseconds(inputs, &mut call).max(1.0) * inputs as f64;
    (effort.round as f64 / all).clamp(1.0, 1e6) as u64 * inputs
}

/// The best time of one copy of so many words.
fn copy_time(effort: Effort, words: usize) -> f64 {
    let (from, mut target) = (vec![1u32; words], vec![0; words]);
    let mut copy = || black_box(&mut target[..]).copy_from_slice(black_box(&from));
    let repeats = repeats(effort, 1, &mut copy);
    (0..effort.rounds).map(|_| nanoseconds(repeats, &mut copy)).fold(f64::MAX, f64::min)
}

fn note<T: PartialOrd>(list: &mut Vec<(&'static str, T)>, name: &'static str, value: T) {
    match list.iter_mut().find(|(other, _)| *other == name) {
        Some((_, largest)) if value > *largest => *largest = value,
        Some(_) => {}
        None => list.push((name, value)),
    }
}

impl Bench {
    fn new(smoke: bool) -> Bench {
        Bench {
            effort: if smoke { Effort { rounds: 1, round: 0 } } else { Effort { rounds: 15, round: 1_500_000 } },
            small: Named("7 rules", table(7, 24)),
            middle: Named("16 rules", table(16, 128)),
            full: Named("64 rules", table(64, 512)),
            entries: if smoke { &[16, 128] } else { &[16, 128, 1_024] },
            moves: if smoke { &[16] } else { &[16, 128, 512, 1_024] },
            listed: if smoke { &[64, 128] } else { &[512, 1_024] },
            copies: Vec::new(),
            growth: Vec::new(),
            ratios: Vec::new(),
            beside: Vec::new(),
            along: Vec::new(),
            stack: Vec::new(),
        }
    }

    fn copy_time(&mut self, words: usize) -> f64 {
        if let Some((_, time)) = self.copies.iter().find(|(other, _)| *other == words) {
            return *time;
        }
        let time = copy_time(self.effort, words);
        self.copies.push((words, time));
        time
    }

    /// Measures both on the same inputs, which are taken in turn, and prints a row.
    fn row(&mut self, pair: &Pair, what: &str, table: &Table, inputs: &[Input]) -> Times {
        let words = Words::new(table, inputs);
        words.agree(pair, what);
        let times = words.times(self.effort, pair.ours, pair.rust);
        let (state, third) = &words.inputs[0];
        // A table's check has no state.
        let copies = match state.len() {
            2 => "-".into(),
            words => format!("{:.0}", times.ours / self.copy_time(words)),
        };
        println!(
            "| {:<14} | {what:<46} | {:>5.2} | {:>10.3} | {:>10.3} | {copies:>7} |",
            pair.name,
            times.ratio(),
            times.ours / 1e3,
            times.rust / 1e3,
        );
        match self.ratios.iter_mut().find(|(name, _)| *name == pair.name) {
            Some((_, ratios)) => ratios.push(times.ratio()),
            None => self.ratios.push((pair.name, vec![times.ratio()])),
        }
        let mut target = pairs::target();
        let used = stack::used(|| {
            (pair.ours)(&words.table, state, third, &mut target);
        });
        note(&mut self.stack, pair.name, used);
        times
    }
}

/// The words of a table and of inputs under it.
struct Words<'a> {
    table: Vec<u32>,
    inputs: Vec<(Vec<u32>, &'a [u32])>,
}

impl<'a> Words<'a> {
    fn new(table: &Table, inputs: &'a [Input]) -> Words<'a> {
        let inputs = inputs.iter().map(|(state, third)| (state.words(), &third[..])).collect();
        Words { table: table.words(), inputs }
    }

    /// Both accept each input with the same answer and target.
    fn agree(&self, pair: &Pair, what: &str) {
        let (mut ours, mut rust) = (pairs::target(), pairs::target());
        for (state, third) in &self.inputs {
            let answer = (pair.ours)(&self.table, state, third, &mut ours);
            assert_eq!(answer, (pair.rust)(&self.table, state, third, &mut rust), "{} {what}", pair.name);
            assert!(ours == rust && answer.number() == 0, "{} {what}: {answer:?}", pair.name);
        }
    }

    /// The call on one input after the other.
    fn in_turn(&self, call: OnTarget) -> impl FnMut() + use<'_, 'a> {
        let mut turns = self.inputs.iter().cycle();
        let mut target = pairs::target();
        move || {
            let (state, third) = turns.next().unwrap();
            black_box(call(black_box(&self.table), black_box(state), black_box(third), black_box(&mut target)));
        }
    }

    /// The best times of two calls in interleaved rounds.
    fn times(&self, effort: Effort, ours: OnTarget, rust: OnTarget) -> Times {
        let (mut ours, mut rust) = (self.in_turn(ours), self.in_turn(rust));
        let turns = self.inputs.len();
        let (of_ours, of_rust) = (repeats(effort, turns, &mut ours), repeats(effort, turns, &mut rust));
        let mut times = Times { ours: f64::MAX, rust: f64::MAX };
        for _ in 0..effort.rounds {
            times.ours = times.ours.min(nanoseconds(of_ours, &mut ours));
            times.rust = times.rust.min(nanoseconds(of_rust, &mut rust));
        }
        times
    }
}

/// Growth of a call along one line of sizes.
struct Growth {
    what: String,
    sizes: Vec<usize>,
    times: Vec<Times>,
}

impl Growth {
    fn new(what: String) -> Growth {
        Growth { what, sizes: Vec::new(), times: Vec::new() }
    }

    fn push(&mut self, size: usize, times: Times) {
        self.sizes.push(size);
        self.times.push(times);
    }

    fn print(&self) {
        for step in 1..self.sizes.len() {
            let (before, after) = (self.times[step - 1], self.times[step]);
            println!(
                "| {:<35} | {:>5} → {:>5} | {:>5.2} | {:>5.2} | {:>5.2} |",
                self.what,
                self.sizes[step - 1],
                self.sizes[step],
                self.sizes[step] as f64 / self.sizes[step - 1] as f64,
                after.ours / before.ours,
                after.rust / before.rust,
            );
        }
    }
}

/// What is measured of each call.
impl Bench {
    fn check_table(&mut self) {
        let none = [(messages(0), Vec::new())];
        let mut line = Growth::new("check_table".into());
        for Named(name, table) in [self.small.clone(), self.middle.clone(), self.full.clone()] {
            let times = self.row(&CHECK_TABLE, &format!("{name}, {} atoms", table.atoms()), &table, &none);
            line.push(table.atoms(), times);
        }
        self.growth.push(line);
    }

    fn check_state(&mut self) {
        type Make = fn(usize) -> State;
        for Named(name, table) in [self.small.clone(), self.full.clone()] {
            for (kind, state) in [("mixed", (|n| mixed(&[], n)) as Make), ("members", members)] {
                let mut line = Growth::new(format!("check_state, {kind}, {name}"));
                for &n in self.entries {
                    let what = format!("{name}, {n} entries, {kind}");
                    line.push(n, self.row(&CHECK_STATE, &what, &table, &[(state(n), Vec::new())]));
                }
                self.growth.push(line);
            }
        }
    }

    /// A call on a single move of each kind, and our own time beside those of two others on the same inputs.
    fn single(&mut self, pair: &Pair, others: Option<[OnTarget; 2]>) {
        for Named(name, table) in [self.small.clone(), self.full.clone()] {
            for (kind, &(act, ..)) in single_moves(&table, 16).iter().enumerate() {
                let mut line = Growth::new(format!("{}, {act}, {name}", pair.name));
                for &n in self.entries {
                    // A begin adds two entries.
                    let n = n.min(1_022);
                    let (_, state, mv) = single_moves(&table, n).swap_remove(kind);
                    let (what, inputs) = (format!("{name}, {n} entries, {act}"), [(state, mv.words())]);
                    line.push(n, self.row(pair, &what, &table, &inputs));
                    if let Some(others) = others {
                        let words = Words::new(&table, &inputs);
                        self.beside.push((what, others.map(|other| words.times(self.effort, pair.ours, other))));
                    }
                }
                self.growth.push(line);
            }
        }
    }

    fn logs(&mut self, pair: &Pair) {
        type Make = fn(&mut Random, &Table, usize, usize) -> (State, Vec<Move>);
        let mut random = Random::new(801);
        for (kind, make) in [("merges", merge_log as Make), ("all global", global_log)] {
            let mut row = |bench: &mut Bench, Named(name, table): &Named, n: usize, k: usize| {
                let mut input = || {
                    let (start, log) = make(&mut random, table, n, k);
                    (start, log_words(&log))
                };
                let inputs: Vec<Input> = (0..TURNS).map(|_| input()).collect();
                let what = format!("{name}, {n} entries, {k} moves, {kind}");
                bench.row(pair, &what, table, &inputs)
            };
            let (small, full) = (self.small.clone(), self.full.clone());
            row(self, &small, 16, 16);
            for &n in self.entries {
                let mut line = Growth::new(format!("{}, {kind}, {n} entries", pair.name));
                for &k in self.moves {
                    line.push(k, row(self, &full, n, k));
                }
                self.growth.push(line);
            }
        }
    }
}

/// The list of a state of 64 rules with four consumes each: its length, and at the largest size a page from its middle.
impl Bench {
    fn list_moves(&mut self) {
        let mut random = Random::new(804);
        // All global, or local in 300 transactions to 1,024 entries.
        for (kind, class, open) in [("all global", 0, 0), ("local", 1, 300)] {
            let table = fours(&mut random, [8, 4, 0], class);
            let mut line = Growth::new(format!("list_moves, {kind}, length"));
            for &n in self.listed {
                let open = open * n as u32 / 1_024;
                let states: Vec<State> = (0..TURNS).map(|_| spread(&mut random, &table, class, n, open)).collect();
                let row = |bench: &mut Bench, part: &str, asked: &dyn Fn(&State) -> Vec<u32>| {
                    let inputs: Vec<Input> = states.iter().map(|state| (state.clone(), asked(state))).collect();
                    bench.row(&LIST_MOVES, &format!("64 rules, {n} entries, {kind}, {part}"), &table, &inputs)
                };
                line.push(n, row(self, "length", &|_| page_words(0, 0)));
                let middle = |state: &State| {
                    page_words(plain::list_moves(&table.words(), &state.words(), 0, 0, &mut []).length / 2, 256)
                };
                if self.listed.last() == Some(&n) {
                    row(self, "page", &middle);
                }
            }
            self.growth.push(line);
        }
    }
}

/// The largest budget on plants that never rest.
impl Bench {
    fn run_unattended(&mut self) {
        let mut random = Random::new(806);
        let budget = *self.moves.last().expect("a number of moves") as u32;
        for plant in PLANTS {
            for rules in [7, 64] {
                let mut line = Growth::new(format!("run_unattended, {}, {rules} rules", plant.name));
                for &n in self.entries {
                    let made: Vec<(Table, State)> = (0..TURNS).map(|_| (plant.make)(&mut random, rules, n)).collect();
                    let inputs: Vec<Input> = made.iter().map(|(_, state)| (state.clone(), vec![budget])).collect();
                    let what = format!("{rules} rules, {n} entries, {}", plant.name);
                    line.push(n, self.row(&RUN_UNATTENDED, &what, &made[0].0, &inputs));
                    let words = Words::new(&made[0].0, &inputs);
                    self.along.push((what, words.times(self.effort, RUN_UNATTENDED.ours, ALONG)));
                }
                self.growth.push(line);
            }
        }
    }
}

type Measure = fn(&mut Bench);

const CALLS: &[(&str, Measure)] = &[
    (CHECK_TABLE.name, Bench::check_table),
    (CHECK_STATE.name, Bench::check_state),
    (MAKE_MOVE.name, |bench| bench.single(&MAKE_MOVE, None)),
    (PREVIEW.name, |bench| bench.single(&PREVIEW, Some([MAKE_MOVE.ours, IN_PLACE]))),
    (RUN.name, |bench| bench.logs(&RUN)),
    (SERIALIZE.name, |bench| bench.logs(&SERIALIZE)),
    (LIST_MOVES.name, Bench::list_moves),
    (RUN_UNATTENDED.name, Bench::run_unattended),
];

/// What is printed behind the rows.
impl Bench {
    fn growth(&self) {
        println!("\nHow the cost grows with the size (atoms, entries or moves):\n");
        println!("| {:<35} | size          |  size |  ours |  Rust |", "call");
        println!("|{:-<37}|---------------|-------|-------|-------|", "");
        self.growth.iter().for_each(Growth::print);
    }

    fn beside(&self) {
        if self.beside.is_empty() {
            return;
        }
        println!("\nOur preview beside our move, and beside plain Rust on the state's words in place:\n");
        println!("| {:<35} | / move | preview in µs | move in µs | / in place | preview in µs | Rust in µs |", "input");
        println!("|{:-<37}|--------|---------------|------------|------------|---------------|------------|", "");
        for (what, [made, in_place]) in &self.beside {
            let [a, b, c, d] = [made.ours, made.rust, in_place.ours, in_place.rust].map(|time| time / 1e3);
            let (made, in_place) = (made.ratio(), in_place.ratio());
            println!("| {what:<35} | {made:>6.2} | {a:>13.3} | {b:>10.3} | {in_place:>10.2} | {c:>13.3} | {d:>10.3} |");
        }
    }

    fn along(&self) {
        if self.along.is_empty() {
            return;
        }
        println!("\nOur unattended run beside plain Rust whose counts follow the moves:\n");
        println!("| {:<35} | ratio | ours in µs | Rust in µs |", "input");
        println!("|{:-<37}|-------|------------|------------|", "");
        for (what, times) in &self.along {
            let (ratio, ours, rust) = (times.ratio(), times.ours / 1e3, times.rust / 1e3);
            println!("| {what:<35} | {ratio:>5.2} | {ours:>10.3} | {rust:>10.3} |");
        }
    }

    fn copies(&mut self) {
        println!("\nOne memcpy of the state's words:\n");
        for &n in self.entries {
            println!("- {n} entries: {:.3} µs", self.copy_time(2 + 2 * n) / 1e3);
        }
    }

    fn worst(&mut self) {
        println!("\nThe worst and the median ratio and the deepest stack of each call:\n");
        println!("| {:<14} | worst | median | stack in bytes |", "call");
        println!("|{:-<16}|-------|--------|----------------|", "");
        for ((name, ratios), (_, stack)) in self.ratios.iter_mut().zip(&self.stack) {
            ratios.sort_by(f64::total_cmp);
            let (worst, median) = (ratios[ratios.len() - 1], ratios[ratios.len() / 2]);
            println!("| {name:<14} | {worst:>5.2} | {median:>6.2} | {stack:>14} |");
        }
    }
}

fn main() {
    let (flags, chosen): (Vec<String>, Vec<String>) = args().skip(1).partition(|argument| argument == "--smoke");
    let mut bench = Bench::new(!flags.is_empty());

    println!(
        "Ratio: ours / plain Rust, best of {} interleaved rounds, same inputs, same answers.",
        bench.effort.rounds
    );
    println!("A row of `run` or `serialize` takes {TURNS} logs in turn, one of `list_moves` or `run_unattended`");
    println!("so many states.");
    println!("Copies: ours / one memcpy of the state's words.\n");
    println!("| {:<14} | {:<46} | ratio | ours in µs | Rust in µs |  copies |", "call", "input");
    println!("|{:-<16}|{:-<48}|-------|------------|------------|---------|", "", "");
    for (name, measure) in CALLS {
        if chosen.is_empty() || chosen.iter().any(|chosen| chosen == name) {
            measure(&mut bench);
        }
    }

    bench.growth();
    bench.beside();
    bench.along();
    bench.copies();
    bench.worst();
}
