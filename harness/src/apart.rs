//! Words taken apart field by field, as `docs/GUIDE.md` shows them.
use crate::words::{act, kind, log_from_words, mode, role, Atom, Entry, Move, State, Table};

/// `ports 0 to 3`, or `port 2` for a single one.
fn span(name: &str, first: u32, count: u32) -> String {
    match count {
        1 => format!("{name} {first}"),
        _ => format!("{name}s {first} to {}", first + count - 1),
    }
}

fn atom(atom: Atom) -> String {
    let value = match atom.mode {
        mode::RECEIVED => format!("the value of consume {}", atom.value),
        _ => format!("the value {}", atom.value),
    };
    let made = |what: &str| format!("{what} on port {}, {value}", atom.port);
    match atom.role {
        role::CONSUME => format!("consume a message on port {}", atom.port),
        role::EMIT => made("emit"),
        role::BEGIN => "begin a transaction".into(),
        role::BODY => made("body: a message"),
        role::COMPENSATE => made("compensate: a message"),
        _ => "abort: a mark in the transaction".into(),
    }
}

/// A table: its sizes, then each atom beside its rule number. The words follow its layout.
pub fn table(words: &[u32]) -> String {
    let table = Table::from_words(words).expect("the layout of a table");
    let (local, merge) = (table.global, table.global + table.local);
    let sizes = [
        span("G: global port", 0, table.global),
        span("L: local port", local, table.local),
        span("M: merge port", merge, table.merge),
        span("R: rule", 0, table.rules.len() as u32),
        "A: atoms".into(),
    ];
    let mut text = String::from("word  size\n");
    for (at, size) in sizes.iter().enumerate() {
        text += &format!("{at:>4} {:>5}  {size}\n", words[at]);
    }
    text += "\nword  rule  word  atom        role  mode  port  value\n";
    let atoms = table.atoms();
    for at in 0..atoms {
        let (number, word) = (words[5 + at], words[5 + atoms + at]);
        let taken = Atom::from_word(word);
        text += &format!(
            "{:>4} {number:>5} {:>5}  {word:#010x} {:>5} {:>5} {:>5} {:>6}  {}\n",
            5 + at,
            5 + atoms + at,
            taken.role,
            taken.mode,
            taken.port,
            taken.value,
            atom(taken)
        );
    }
    text
}

fn entry(entry: Entry) -> String {
    match entry.kind {
        kind::MESSAGE => format!("message on port {}", entry.port),
        kind::COMPENSATION => format!("compensation on port {}", entry.port),
        kind::ABORT_MARK => "abort mark".into(),
        _ => format!("member mark of {}", entry.value),
    }
}

/// A state: each entry's owner and item. The words follow its layout.
pub fn state(words: &[u32]) -> String {
    let state = State::from_words(words).expect("the layout of a state");
    let n = state.entries.len();
    let mut text = format!("word 0: n = {n}, word 1: N = {}\n", state.next);
    text += "place  word  owner  word  item        kind  port  value\n";
    for (place, &taken) in state.entries.iter().enumerate() {
        text += &format!(
            "{place:>5} {:>5} {:>6} {:>5}  {:#010x} {:>5} {:>5} {:>6}  {}\n",
            2 + place,
            taken.owner,
            2 + n + place,
            taken.item(),
            taken.kind,
            taken.port,
            taken.value,
            entry(taken)
        );
    }
    text
}

/// What a move does.
pub fn does(mv: Move) -> String {
    match mv.kind {
        act::REACT => format!("react by rule {}", mv.number),
        act::COMMIT => format!("commit {}", mv.number),
        _ => format!("abort {}", mv.number),
    }
}

fn picks(mv: Move) -> String {
    mv.picks.map(|pick| pick.to_string()).join(" ")
}

/// A move in words.
pub fn one_move(mv: Move) -> String {
    format!("move: {:#010x} {}  {}\n", mv.head(), picks(mv), does(mv))
}

/// The columns of `moves`.
pub const MOVES_HEAD: &str = "place  head        picks\n";

/// Moves of a list, the first of which has this place in it.
pub fn moves(first: usize, moves: &[Move]) -> String {
    let line =
        |(place, mv): (usize, &Move)| format!("{place:>5}  {:#010x}  {}  {}\n", mv.head(), picks(*mv), does(*mv));
    (first..).zip(moves).map(line).collect()
}

/// The columns of `preview`.
pub const PREVIEWS_HEAD: &str = "case  after  head        picks    number  entries  next  id  members\n";

/// A move of a case after so many others, with what its preview answers: number, entries, next id, id and members.
pub fn preview(case: char, after: usize, mv: Move, [number, entries, next, id, members]: [u32; 5]) -> String {
    let (head, picks, does) = (mv.head(), picks(mv), does(mv));
    let asked = format!("({case}) {after:>7}  {head:#010x}  {picks}");
    format!("{asked} {number:>7} {entries:>8} {next:>5} {id:>3} {members:>8}  {does}\n")
}

/// A log: each move's head and picks. The words follow its layout; `was` gives each move's place in
/// the log that this is the serial log of.
pub fn log(words: &[u32], was: Option<&[usize]>) -> String {
    let log = log_from_words(words).expect("the layout of a log");
    let k = log.len();
    let mut text = format!("word 0: k = {k}\n");
    text += if was.is_some() { "place  was" } else { "place" };
    text += "  word  head        kind  number  words     picks\n";
    for (place, &mv) in log.iter().enumerate() {
        let was = was.map_or(String::new(), |was| format!(" {:>4}", was[place]));
        let first = 1 + k + 4 * place;
        let words = format!("{first} to {}", first + 3);
        text += &format!(
            "{place:>5}{was} {:>5}  {:#010x} {:>5} {:>7}  {words:<8}  {}  {}\n",
            1 + place,
            mv.head(),
            mv.kind,
            mv.number,
            picks(mv),
            does(mv)
        );
    }
    text
}
