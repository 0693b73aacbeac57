//! One name for one thing, and one proof of a statement.
use std::collections::{BTreeMap, BTreeSet};

use super::antt::{declarations, Declaration};
use super::cites::sources;
use super::statement::statement;
use super::{File, Finding, Tree};

/// A place, lower crates first.
type Place<'a> = (usize, &'a File, usize, &'a str);

/// All places but the first of those that share a key and stand in more than one file.
fn again<'a>(shared: BTreeMap<String, Vec<Place<'a>>>, what: fn(&str) -> String) -> Vec<Finding> {
    let mut found = Vec::new();
    for mut places in shared.into_values() {
        places.sort_by_key(|(layer, file, line, _)| (*layer, file.path.as_str(), *line));
        let (_, first, line, _) = places[0];
        for (_, file, here, name) in places.iter().filter(|place| place.1.path != first.path) {
            found.push(file.at(*here, format!("{} {}:{line}", what(name), first.path)));
        }
    }
    found.sort();
    found
}

/// Declarations by what a key makes of them.
fn shared(tree: &Tree, key: fn(&Declaration) -> Option<String>, what: fn(&str) -> String) -> Vec<Finding> {
    let crates = tree.crates();
    let sources = sources(tree);
    let mut by_key: BTreeMap<String, Vec<Place>> = BTreeMap::new();
    for source in sources.iter().filter(|source| source.file.is_theory()) {
        let (own, _) = source.file.place().unwrap();
        let layer = crates.iter().position(|(_, name)| *name == own).unwrap_or(crates.len());
        for declaration in declarations(&source.tokens) {
            if let Some(key) = key(&declaration) {
                by_key.entry(key).or_default().push((layer, source.file, declaration.line, declaration.name));
            }
        }
    }
    again(by_key, what)
}

/// Public names that a file lower down has at its top too.
pub fn declared_twice(tree: &Tree) -> Vec<Finding> {
    let public = |one: &Declaration| (one.public && one.at_top()).then(|| one.name.to_string());
    shared(tree, public, |name| format!("{name} is declared public in"))
}

/// Public laws whose name a file lower down has for a public law too, one of them inside a module.
pub fn laws_named_twice(tree: &Tree) -> Vec<Finding> {
    let top: BTreeSet<Finding> = declared_twice(tree).into_iter().collect();
    let law = |one: &Declaration| (one.public && statement(one).is_some()).then(|| one.name.to_string());
    let all = shared(tree, law, |name| format!("{name} is declared public in"));
    all.into_iter().filter(|finding| !top.contains(finding)).collect()
}

/// Laws that a file lower down proves too, up to names of variables, brackets, white space and the order of
/// what is given.
pub fn stated_twice(tree: &Tree) -> Vec<Finding> {
    shared(tree, statement, |name| format!("{name} is proved in"))
}

#[cfg(test)]
mod tests {
    use super::*;

    const CRATES: &str = "# layers\nlow:\nhigh: low\n";

    fn shown(findings: Vec<Finding>) -> Vec<String> {
        findings.iter().map(Finding::to_string).collect()
    }

    // Catches a name for two things; one inside a module, a constructor or a private one is no matter.
    #[test]
    fn names_of_two_files_are_found() {
        let low = "pub a : T\na = t\nb : T\nb = t\nmodule _ (x : T) where\n  pub c : T\n  c = t\n";
        let high = "module _ (x : T) where\n  pub a : T\n  a = t\nabbrev pub a : T\na = t\npub b : T\nb = t\npub c : T\nc = t\n";
        let tree = Tree::of(&[
            ("crates/high/proofs/A.antt", "pub data D : Type 0 where\n  a : D\n"),
            ("crates/high/specs/High.antt", high),
            ("crates/low/specs/Low.antt", low),
            ("crates/low/proofs/f/Proof.antt", "pub a : T\na = t\n"),
            ("crates.txt", CRATES),
        ]);
        let wanted = ["crates/high/specs/High.antt:4: a is declared public in crates/low/specs/Low.antt:1"];
        assert_eq!(shown(declared_twice(&tree)), wanted);
    }

    // Catches two laws of one name, one of them inside a module; aliases inside modules are no matter.
    #[test]
    fn laws_of_one_name_are_found() {
        let module = "module _ (x : T) where\n  pub law : x ≡ x\n  law = t\n  abbrev pub s : T\n  s = x\n";
        let top = "abbrev pub s : T\ns = x\npub law : (x y : T) → x ≡ y\nlaw = t\n";
        let tree = Tree::of(&[
            ("crates/high/specs/High.antt", module),
            ("crates/low/specs/Low.antt", top),
            ("crates/low/specs/Too.antt", top),
            ("crates.txt", CRATES),
        ]);
        let wanted = ["crates/high/specs/High.antt:2: law is declared public in crates/low/specs/Low.antt:3"];
        assert_eq!(shown(laws_named_twice(&tree)), wanted);
        assert_eq!(declared_twice(&tree).len(), 2);
    }

    const LOW_LAWS: &str = "\
law : {A : Type 0} (xs ys : List A) → xs ≡ ys
law = x
apart : (n m : ℕ) → n + m ≡ n
apart = x
given : {f : ℕ → ℕ} (p : ℕ → Bool) (n : ℕ) → p n ≡ true → f n ≡ 0 → p (f n) ≡ (λ k. p (f k)) n
given = x
pair : (n : ℕ) → (m : ℕ) × (n ≡ m)
pair = x
type : ℕ → List ℕ
type = x
function : (n : ℕ) → ℕ
function = x
";
    const HIGH_LAWS: &str = "\
module _ {B : Type 0} (unused : T) where
  module _ (us : List B) where
    mine : (vs : List B)
        → (us ≡ vs)
    mine = x
other : (m n : ℕ) → n + m ≡ m
other = x
turned : (q g : ℕ → ℕ) (n m : ℕ) → g n ≡ 0 → q n ≡ true → q (g n) ≡ (λ i. q (g i)) n
turned = x
module _ (q : ℕ → Bool) (g : ℕ → ℕ) (m : ℕ) where
  moved : (g m ≡ 0) → q m ≡ true → q (g m) ≡ (λ i. q (g i)) m
  moved = q g
pairs : (m : ℕ) → (n : ℕ) × (m ≡ n) × (n ≡ m)
pairs = x
kind : ℕ → List ℕ
kind = x
function : (k : ℕ) → ℕ
function = x
abbrev short : (n m : ℕ) → n + m ≡ n
short = x
";

    // Catches a law that is proved again under other names of its variables or with other brackets,
    // and two statements that only look alike.
    #[test]
    fn statements_of_two_files_are_found() {
        let tree = Tree::of(&[
            ("crates/high/specs/High.antt", HIGH_LAWS),
            ("crates/low/specs/Low.antt", LOW_LAWS),
            ("crates.txt", CRATES),
        ]);
        let wanted = [
            "crates/high/specs/High.antt:3: mine is proved in crates/low/specs/Low.antt:1",
            "crates/high/specs/High.antt:11: moved is proved in crates/low/specs/Low.antt:5",
        ];
        assert_eq!(shown(stated_twice(&tree)), wanted);
    }
}
