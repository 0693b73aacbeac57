//! A law's statement in a form in which equal ones are equal.
use std::collections::{BTreeMap, BTreeSet};

use super::antt::{outside, Declaration, Kind, Token};

/// What a law says: each thing that is given, and what follows from them.
struct Statement<'a> {
    given: Vec<Vec<&'a str>>,
    follows: Vec<&'a str>,
    bound: BTreeSet<&'a str>,
}

/// The statement of a law with its variables numbered as they come in what follows, and without
/// brackets; what is given stands in one order. Of the parameters of the modules around it, it has
/// those that it uses. A function's type says nothing of its arguments, and is no statement.
pub fn statement(one: &Declaration) -> Option<String> {
    if one.kind != Kind::Plain {
        return None;
    }
    let mut says = Statement { given: Vec::new(), follows: Vec::new(), bound: BTreeSet::new() };
    for binder in used_parameters(one) {
        says.bind(&binder);
    }
    let mut rest = one.statement;
    while let Some(arrow) = outside(rest, "→") {
        says.give(&rest[..arrow]);
        rest = &rest[arrow + 1..];
    }
    let mut follows = Vec::new();
    says.spread(rest, &mut follows);
    says.follows = follows;
    says.is_law().then(|| says.numbered())
}

impl<'a> Statement<'a> {
    /// What stands before an arrow: variables, or a fact.
    fn give(&mut self, part: &'a [Token<'a>]) {
        match binders(part) {
            Some(binders) => binders.iter().for_each(|binder| self.bind(binder)),
            None => {
                let mut fact = Vec::new();
                self.spread(part, &mut fact);
                self.given.push(fact);
            }
        }
    }

    fn bind(&mut self, binder: &Binder<'a>) {
        for name in binder.names {
            let mut of = vec![name.text, ":"];
            self.bound.insert(name.text);
            self.spread(binder.of, &mut of);
            self.given.push(of);
        }
    }

    /// The words of a term without its brackets and arrows.
    fn spread(&mut self, term: &'a [Token<'a>], words: &mut Vec<&'a str>) {
        let mut binds = false;
        for (place, token) in term.iter().enumerate() {
            match token.text {
                "(" | "{" => {
                    let names = binder(term, place).map_or(&[][..], |binder| binder.names);
                    self.bound.extend(names.iter().map(|name| name.text));
                }
                ")" | "}" | "→" => {}
                text => {
                    binds = (binds && text != ".") || text == "λ";
                    if binds && text != "λ" {
                        self.bound.insert(text);
                    }
                    words.push(text);
                }
            }
        }
    }

    fn is_law(&self) -> bool {
        self.follows.iter().any(|word| *word == "≡" || self.bound.contains(word))
    }

    fn numbered(&self) -> String {
        let mut numbers: BTreeMap<&str, usize> = BTreeMap::new();
        for word in self.follows.iter().chain(self.given.iter().flatten()).filter(|word| self.bound.contains(*word)) {
            let next = numbers.len();
            numbers.entry(word).or_insert(next);
        }
        let number = |word: &&str| numbers.get(word).map_or(word.to_string(), |number| format!("#{number}"));
        let line = |words: &Vec<&str>| words.iter().map(number).collect::<Vec<_>>().join(" ");
        let mut given: Vec<String> = self.given.iter().map(line).collect();
        given.sort();
        given.push(line(&self.follows));
        given.join(" → ")
    }
}

/// Variables that a bracket binds, with their type: `(x y : A)`.
struct Binder<'a> {
    names: &'a [Token<'a>],
    of: &'a [Token<'a>],
    /// The place of the closing bracket.
    end: usize,
}

/// The binder that begins at this place.
fn binder<'a>(tokens: &'a [Token<'a>], place: usize) -> Option<Binder<'a>> {
    let closing = match tokens.get(place)?.text {
        "(" => ")",
        "{" => "}",
        _ => return None,
    };
    let end = place + outside(&tokens[place..], closing)?;
    let inner = &tokens[place + 1..end];
    let colon = inner.iter().position(|token| matches!(token.text, ":" | "(" | ")" | "{" | "}"))?;
    let is_binder = inner[colon].text == ":" && colon > 0;
    is_binder.then(|| Binder { names: &inner[..colon], of: &inner[colon + 1..], end })
}

/// The binders that these tokens are, if they are nothing else.
fn binders<'a>(tokens: &'a [Token<'a>]) -> Option<Vec<Binder<'a>>> {
    let mut found: Vec<Binder> = Vec::new();
    let mut place = 0;
    while place < tokens.len() {
        let binder = binder(tokens, place)?;
        place = binder.end + 1;
        found.push(binder);
    }
    Some(found)
}

/// The parameters of the modules around a law that it mentions, or that those mention.
fn used_parameters<'a>(one: &Declaration<'a>) -> Vec<Binder<'a>> {
    let mut used: BTreeSet<&str> = one.text.iter().map(|token| token.text).collect();
    let heads = one.around.iter().rev().filter_map(|head| binders(head.get(2..)?));
    let inmost_first = heads.flat_map(|binders| binders.into_iter().rev());
    let mut kept = Vec::new();
    for binder in inmost_first {
        if binder.names.iter().any(|name| used.contains(name.text)) {
            used.extend(binder.of.iter().map(|token| token.text));
            kept.push(binder);
        }
    }
    kept.reverse();
    kept
}
