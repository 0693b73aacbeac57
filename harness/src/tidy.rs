//! What a careful reader would ask about in this repository, as rules that a machine holds. Each rule
//! goes from the files to its findings, and a finding names its file and line.
use std::fmt;
use std::fs;
use std::path::Path;

pub mod antt;
pub mod cites;
pub mod code;
pub mod names;
pub mod pages;
pub mod statement;

/// The theorems that stand for readers, so that nothing need cite them.
pub const THEOREMS: &str = "harness/tests/tidy_theorems.txt";

#[derive(Clone, Debug, PartialEq, Eq, PartialOrd, Ord)]
pub struct Finding {
    pub path: String,
    pub line: usize,
    pub what: String,
}

impl fmt::Display for Finding {
    fn fmt(&self, out: &mut fmt::Formatter<'_>) -> fmt::Result {
        write!(out, "{}:{}: {}", self.path, self.line, self.what)
    }
}

pub struct File {
    /// From the repository's folder.
    pub path: String,
    pub text: String,
}

/// What the files of a function's own proof are called.
const OF_FUNCTIONS: [&str; 3] = ["Proof.antt", "Invariants.antt", "Answers.antt"];

/// The part of a crate that a file belongs to.
#[derive(Clone, Copy, Debug, PartialEq, Eq)]
pub enum Part {
    Src,
    Specs,
    Proofs,
    MustFail,
}

impl File {
    pub fn at(&self, line: usize, what: impl Into<String>) -> Finding {
        Finding { path: self.path.clone(), line, what: what.into() }
    }

    /// Its crate's name and its part of the crate.
    pub fn place(&self) -> Option<(&str, Part)> {
        let (name, rest) = self.path.strip_prefix("crates/")?.split_once('/')?;
        let (folder, _) = rest.split_once('/')?;
        let part = match folder {
            "src" => Part::Src,
            "specs" => Part::Specs,
            "proofs" => Part::Proofs,
            "must-fail" => Part::MustFail,
            _ => return None,
        };
        Some((name, part))
    }

    pub fn part(&self) -> Option<Part> {
        self.place().map(|(_, part)| part)
    }

    /// The last part of its path.
    pub fn name(&self) -> &str {
        self.path.rsplit('/').next().unwrap_or_default()
    }

    /// Whether it holds definitions or laws: of specs/ or proofs/, but no function's own proof.
    pub fn is_theory(&self) -> bool {
        matches!(self.part(), Some(Part::Specs | Part::Proofs))
            && self.path.ends_with(".antt")
            && self.function().is_none()
    }

    /// The function whose own proof this is, in whole or in part: proofs/MODULE/../FUNCTION/Answers.antt, say.
    pub fn function(&self) -> Option<&str> {
        let mut above = self.path.rsplit('/');
        let is_own = OF_FUNCTIONS.contains(&above.next()?) && self.part() == Some(Part::Proofs);
        let function = above.next()?;
        (is_own && function != "proofs").then_some(function)
    }

    /// Its lines, numbered from 1.
    pub fn lines(&self) -> impl Iterator<Item = (usize, &str)> {
        self.text.lines().enumerate().map(|(place, line)| (place + 1, line))
    }
}

/// The text files of the repository by their paths, those that are made left out.
pub struct Tree {
    pub files: Vec<File>,
}

impl Tree {
    pub fn read(root: &Path) -> Tree {
        let mut files = Vec::new();
        read_folder(root, "", &mut files);
        Tree { files }
    }

    /// A tree of these paths and texts.
    pub fn of(files: &[(&str, &str)]) -> Tree {
        let file = |(path, text): &(&str, &str)| File { path: path.to_string(), text: text.to_string() };
        Tree { files: files.iter().map(file).collect() }
    }

    pub fn file(&self, path: &str) -> Option<&File> {
        self.files.iter().find(|file| file.path == path)
    }

    pub fn in_part(&self, part: Part) -> impl Iterator<Item = &File> {
        self.files.iter().filter(move |file| file.part() == Some(part))
    }

    /// The crates of crates.txt with their lines, in order.
    pub fn crates(&self) -> Vec<(usize, &str)> {
        self.rows().into_iter().map(|(number, own, _)| (number, own)).collect()
    }

    /// The same with what each crate needs. Behind a name a row may say what kind of library it is.
    pub fn rows(&self) -> Vec<(usize, &str, &str)> {
        let lines = self.file("crates.txt").into_iter().flat_map(File::lines);
        let rows = lines.filter_map(|(number, line)| {
            let line = line.split('#').next().unwrap_or_default();
            let (own, needs) = line.split_once(':').unwrap_or((line, ""));
            Some((number, own.split_whitespace().next()?, needs))
        });
        rows.collect()
    }
}

/// Folders that hold only what is made.
const MADE: [&str; 3] = ["target", "out", ".git"];

fn read_folder(folder: &Path, path: &str, files: &mut Vec<File>) {
    let entries = fs::read_dir(folder).unwrap_or_else(|error| panic!("{}: {error}", folder.display()));
    let mut entries: Vec<_> = entries.map(|entry| entry.unwrap()).collect();
    entries.sort_by_key(|entry| entry.file_name());
    for entry in entries {
        let name = entry.file_name().into_string().unwrap();
        let below = if path.is_empty() { name.clone() } else { format!("{path}/{name}") };
        let kind = entry.file_type().unwrap();
        if kind.is_dir() && !MADE.contains(&&*name) {
            read_folder(&entry.path(), &below, files);
        } else if kind.is_file() && name != ".git" {
            let text = String::from_utf8(fs::read(entry.path()).unwrap());
            files.extend(text.ok().map(|text| File { path: below, text }));
        }
    }
}

pub struct Rule {
    pub name: &'static str,
    pub says: &'static str,
    pub find: fn(&Tree) -> Vec<Finding>,
}

pub const RULES: [Rule; 18] = [
    Rule { name: "cited", says: "something cites every definition and law", find: cites::uncited },
    Rule {
        name: "theorems",
        says: "the theorems for readers are there, and nothing else cites them",
        find: cites::listed,
    },
    Rule { name: "names", says: "a public name stands at the top of one file", find: names::declared_twice },
    Rule {
        name: "module names",
        says: "a public law, inside modules too, has a name that no other file's has",
        find: names::laws_named_twice,
    },
    Rule { name: "statements", says: "a statement is proved in one file", find: names::stated_twice },
    Rule { name: "functions", says: "a function has at most 40 lines", find: code::long_functions },
    Rule { name: "columns", says: "a line of src/ and specs/ has at most 160 columns", find: code::wide_code },
    Rule { name: "proof columns", says: "a line of proofs/ has at most 160 columns", find: code::wide_proofs },
    Rule { name: "fields", says: "code takes words apart in the modules of their fields", find: code::fields_in_code },
    Rule {
        name: "spec fields",
        says: "definitions and laws take words apart where their fields are defined",
        find: code::fields_in_specs,
    },
    Rule {
        name: "heads",
        says: "a file of specs/ or proofs/ begins by saying what it holds",
        find: code::without_head,
    },
    Rule { name: "uses", says: "a file names what it brings in by `use`", find: cites::unused },
    Rule {
        name: "edits",
        says: "what an edit of must-fail/ replaces stands once in its file",
        find: pages::stale_edits,
    },
    Rule { name: "edits listed", says: "docs/EDITS.md has the edits with what they say", find: pages::edits_listed },
    Rule { name: "crates", says: "docs/ARCHITECTURE.md has the crates of crates.txt", find: pages::crates_named },
    Rule { name: "layers", says: "crates.txt goes from low to high and has only what is needed", find: pages::layers },
    Rule { name: "pages", says: "the files and names that a page shows are there", find: pages::stale_names },
    Rule { name: "outside", says: "no text points outside the repository", find: pages::outside },
];

/// The rule of this name.
pub fn rule(name: &str) -> &'static Rule {
    RULES.iter().find(|rule| rule.name == name).unwrap_or_else(|| panic!("no rule {name}"))
}
