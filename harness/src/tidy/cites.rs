//! What cites what. Code with its contracts, and the proofs of functions, stand by themselves; a
//! definition or a law stands if something that stands cites it, or if it is listed for readers.
use std::collections::{BTreeMap, BTreeSet};

use super::antt::{declarations, said, tokens, uses, Declaration, Token, Use};
use super::{File, Finding, Part, Tree, THEOREMS};

/// A file of Rattle and its tokens.
pub struct Source<'a> {
    pub file: &'a File,
    pub tokens: Vec<Token<'a>>,
}

pub fn sources(tree: &Tree) -> Vec<Source<'_>> {
    let source = |file: &'_ File| match (file.part()?, file.path.rsplit_once('.')?.1) {
        (Part::Src, "rt") => Some("//"),
        (Part::Specs | Part::Proofs, "antt") => Some("--"),
        _ => None,
    };
    let with = |file| source(file).map(|comment| Source { file, tokens: tokens(&file.text, comment) });
    tree.files.iter().filter_map(with).collect()
}

/// What a file brings in, and where it can mention that: of code, in what it says to the prover.
fn mentions<'a>(source: &Source<'a>) -> (Vec<Use<'a>>, Vec<Token<'a>>) {
    let (uses, rest) = uses(&source.tokens);
    let is_code = source.file.part() == Some(Part::Src);
    (uses, if is_code { said(&rest) } else { rest })
}

/// The declarations of all files, and where each name of a file is declared.
struct Index<'a> {
    all: Vec<(&'a File, Declaration<'a>)>,
    named: BTreeMap<&'a str, BTreeMap<&'a str, Vec<usize>>>,
}

/// What names mean in a file: places in the index, and files under other names.
struct Scope<'a> {
    names: BTreeMap<&'a str, Vec<usize>>,
    aliases: BTreeMap<&'a str, String>,
}

/// The file that a path of `use` leads to.
fn file_of(path: &[&str]) -> Option<String> {
    let &["Rattle", of, part, ref modules @ ..] = path else { return None };
    (!modules.is_empty()).then(|| format!("crates/{of}/{part}/{}.antt", modules.join("/")))
}

/// The file and the name that a path of code leads to: `crate::proofs::M::law`.
fn by_code<'a>(own: &'a str, path: &'a str) -> Option<(String, &'a str)> {
    let (modules, name) = path.rsplit_once("::")?;
    let mut modules: Vec<&str> = modules.split("::").collect();
    if modules[0] == "crate" {
        modules[0] = own;
    }
    let file = file_of(&[&["Rattle"], &modules[..]].concat())?;
    Some((file, name))
}

/// An operator is cited by its parts too.
fn spellings(name: &str) -> impl Iterator<Item = &str> {
    let parts =
        if name.contains('◌') { name.split('◌').filter(|part| !part.is_empty()).collect() } else { Vec::new() };
    std::iter::once(name).chain(parts)
}

impl<'a> Index<'a> {
    fn new(sources: &'a [Source<'a>]) -> Index<'a> {
        let mut index = Index { all: Vec::new(), named: BTreeMap::new() };
        for source in sources.iter().filter(|source| source.file.is_theory()) {
            for declaration in declarations(&source.tokens) {
                let own = index.named.entry(&source.file.path).or_default();
                for name in declaration.members.iter().chain([&declaration.name]) {
                    own.entry(name).or_default().push(index.all.len());
                }
                index.all.push((source.file, declaration));
            }
        }
        index
    }

    fn places(&self, path: &str, name: &str) -> &[usize] {
        self.named.get(path).and_then(|own| own.get(name)).map_or(&[], |places| places)
    }

    fn scope(&self, file: &'a File, uses: &[Use<'a>]) -> Scope<'a> {
        let mut scope = Scope { names: BTreeMap::new(), aliases: BTreeMap::new() };
        let mut add = |here: &'a str, places: &[usize]| {
            for name in spellings(here) {
                scope.names.entry(name).or_default().extend(places);
            }
        };
        for (name, places) in self.named.get(file.path.as_str()).into_iter().flatten() {
            add(name, places);
        }
        for one in uses {
            let Some(path) = file_of(&one.path) else { continue };
            for (here, there) in &one.names {
                add(here, self.places(&path, there));
            }
            scope.aliases.extend(one.alias.map(|alias| (alias, path)));
        }
        scope
    }

    /// What these tokens cite. A field's name, behind a dot or before its value, is no citation.
    fn cited(&self, scope: &Scope<'a>, tokens: &[Token<'a>]) -> Vec<usize> {
        let text = |place: Option<usize>| place.and_then(|place| tokens.get(place)).map_or("", |token| token.text);
        let mut found = Vec::new();
        for (place, token) in tokens.iter().enumerate() {
            let before = text(place.checked_sub(1));
            let is_label = matches!(before, "{" | ";") && text(Some(place + 1)) == "=";
            if token.tight && before == "." {
                let alias = scope.aliases.get(text(place.checked_sub(2)));
                found.extend(alias.into_iter().flat_map(|path| self.places(path, token.text)));
            } else if !is_label {
                found.extend(scope.names.get(token.text).into_iter().flatten());
            }
        }
        found
    }
}

/// The declarations, each with what it cites, and what code and the proofs of functions cite.
struct Graph<'a> {
    index: Index<'a>,
    cites: Vec<Vec<usize>>,
    roots: Vec<usize>,
}

impl<'a> Graph<'a> {
    fn new(sources: &'a [Source<'a>]) -> Graph<'a> {
        let index = Index::new(sources);
        let scopes = sources.iter().map(|source| {
            let (uses, rest) = mentions(source);
            (source.file.path.as_str(), (index.scope(source.file, &uses), rest))
        });
        let scopes: BTreeMap<&str, _> = scopes.collect();
        let roots = sources.iter().filter(|source| !source.file.is_theory()).flat_map(|source| {
            let (scope, rest) = &scopes[source.file.path.as_str()];
            let (own, _) = source.file.place().unwrap();
            let by_code = rest.iter().filter_map(|token| by_code(own, token.text));
            let by_code = by_code.flat_map(|(path, name)| index.places(&path, name)).copied();
            index.cited(scope, rest).into_iter().chain(by_code).collect::<Vec<_>>()
        });
        let roots = roots.collect();
        let cites = index.all.iter().map(|(file, declaration)| {
            let (scope, _) = &scopes[file.path.as_str()];
            let around = declaration.around.iter().flat_map(|head| index.cited(scope, head));
            around.chain(index.cited(scope, declaration.text)).collect()
        });
        let cites = cites.collect();
        Graph { index, cites, roots }
    }

    /// What stands because of these.
    fn reached(&self, from: &[usize]) -> BTreeSet<usize> {
        let mut found = BTreeSet::new();
        let mut ahead = from.to_vec();
        while let Some(place) = ahead.pop() {
            if found.insert(place) {
                ahead.extend(&self.cites[place]);
            }
        }
        found
    }
}

/// The theorems for readers: line, path and name.
fn theorems(tree: &Tree) -> Vec<(usize, String, &str)> {
    let lines = tree.file(THEOREMS).into_iter().flat_map(File::lines);
    let named = lines.map(|(number, line)| (number, line.split('#').next().unwrap_or_default().trim()));
    named
        .filter_map(|(number, line)| line.split_once(' ').map(|(path, name)| (number, format!("crates/{path}"), name)))
        .collect()
}

/// Declarations that nothing cites.
pub fn uncited(tree: &Tree) -> Vec<Finding> {
    let sources = sources(tree);
    let graph = Graph::new(&sources);
    let listed = theorems(tree);
    let listed = listed.iter().flat_map(|(_, path, name)| graph.index.places(path, name));
    let from: Vec<usize> = graph.roots.iter().chain(listed).copied().collect();
    let reached = graph.reached(&from);
    let others = graph.cites.iter().enumerate().flat_map(|(by, cited)| cited.iter().filter(move |place| **place != by));
    let by_another: BTreeSet<usize> = others.copied().collect();
    let left = graph.index.all.iter().enumerate().filter(|(place, _)| !reached.contains(place));
    left.map(|(place, (file, declaration))| {
        let by = if by_another.contains(&place) { "only what nothing cites cites" } else { "nothing cites" };
        file.at(declaration.line, format!("{by} {}", declaration.name))
    })
    .collect()
}

/// Theorems for readers that are not there, or that something else cites.
pub fn listed(tree: &Tree) -> Vec<Finding> {
    let sources = sources(tree);
    let graph = Graph::new(&sources);
    let reached = graph.reached(&graph.roots);
    let wrong = |(line, path, name): (usize, String, &str)| {
        let places = graph.index.places(&path, name);
        let what = match places {
            [] => "is not declared",
            _ if places.iter().any(|place| reached.contains(place)) => "is cited, so it need not be listed",
            _ => return None,
        };
        Some(Finding { path: THEOREMS.into(), line, what: format!("{path} {name} {what}") })
    };
    theorems(tree).into_iter().filter_map(wrong).collect()
}

/// Names that a file brings in for the definitions or proofs and does not mention.
pub fn unused(tree: &Tree) -> Vec<Finding> {
    let mut found = Vec::new();
    for source in sources(tree) {
        let (uses, rest) = mentions(&source);
        let mentioned: BTreeSet<&str> = rest.iter().map(|token| token.text).collect();
        let ghost = uses.iter().filter(|one| one.path.len() > 1);
        for (one, name) in
            ghost.flat_map(|one| one.names.iter().map(|name| name.0).chain(one.alias).map(move |name| (one, name)))
        {
            if !spellings(name).any(|name| mentioned.contains(name)) {
                found.push(source.file.at(one.line, format!("{name} is brought in and not used")));
            }
        }
    }
    found
}

#[cfg(test)]
mod tests {
    use super::*;

    const LAWS: &str = "\
-- laws
pub used : A
used = used
helper : A
helper = record { label = used }
pub dead : A
dead = dead
pub label : A
label = helper
pub data D : Type 0 where
  made : D
◌+◌ : A
◌+◌ = used
pub told : A
told = told
";
    const MORE: &str = "\
use Rattle.a.specs.Laws.{used, made, ◌+◌}
use Rattle.a.specs.Laws as laws
pub theorem : A
theorem = used made
other : A
other = theorem.helper
";
    const CODE: &str = "\
ghost use Rattle.a.specs.Laws.{D};
#[tactic(auto, using(a::specs::Laws::told))]
fn f() requires { laws } { dead(D) }
// dead
";
    const PROOF: &str = "\
use Rattle.a.specs.Laws.{used as mine, ◌+◌}
f : A
f = mine + mine
";

    fn tree(listed: &str) -> Tree {
        Tree::of(&[
            ("crates/a/specs/Laws.antt", LAWS),
            ("crates/b/specs/More.antt", MORE),
            ("crates/b/proofs/f/Proof.antt", PROOF),
            ("crates/b/src/lib.rt", CODE),
            (THEOREMS, listed),
        ])
    }

    fn shown(findings: Vec<Finding>) -> Vec<String> {
        findings.iter().map(Finding::to_string).collect()
    }

    // Catches a law that is called dead and is not, and one that only a comment, a field or itself cites.
    #[test]
    fn dead_laws_are_found() {
        let wanted = [
            "crates/a/specs/Laws.antt:4: only what nothing cites cites helper",
            "crates/a/specs/Laws.antt:6: nothing cites dead",
            "crates/a/specs/Laws.antt:8: nothing cites label",
            "crates/a/specs/Laws.antt:10: only what nothing cites cites D",
            "crates/b/specs/More.antt:3: only what nothing cites cites theorem",
            "crates/b/specs/More.antt:5: nothing cites other",
        ];
        assert_eq!(shown(uncited(&tree(""))), wanted);
        let wanted = [wanted[0], wanted[1], wanted[2], wanted[5]];
        assert_eq!(shown(uncited(&tree("# for readers\nb/specs/More.antt theorem # yes\n"))), wanted);
    }

    // Catches a list that goes on naming what is gone or what is cited.
    #[test]
    fn the_list_is_held_too() {
        let all = "b/specs/More.antt theorem\na/specs/Laws.antt gone\na/specs/Laws.antt used\n";
        let wanted = [
            "harness/tests/tidy_theorems.txt:2: crates/a/specs/Laws.antt gone is not declared",
            "harness/tests/tidy_theorems.txt:3: crates/a/specs/Laws.antt used is cited, so it need not be listed",
        ];
        assert_eq!(shown(listed(&tree(all))), wanted);
    }

    // Catches a name that is brought in for nothing.
    #[test]
    fn unused_names_are_found() {
        let wanted = [
            "crates/b/specs/More.antt:1: ◌+◌ is brought in and not used",
            "crates/b/specs/More.antt:2: laws is brought in and not used",
            "crates/b/src/lib.rt:1: D is brought in and not used",
        ];
        assert_eq!(shown(unused(&tree(""))), wanted);
    }
}
