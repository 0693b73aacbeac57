//! Texts that name other files: the edits of must-fail/, the architecture, and all that is committed.
use std::collections::BTreeSet;

use super::{File, Finding, Part, Tree};
use crate::markdown::{prose, rows};

/// Edits whose old text does not stand once in the file that they change.
pub fn stale_edits(tree: &Tree) -> Vec<Finding> {
    let mut found = Vec::new();
    for edit in tree.in_part(Part::MustFail) {
        let folder = edit.path.split("must-fail/").next().unwrap_or_default();
        let mut changed = String::new();
        for (number, line) in edit.lines() {
            if let Some(path) = line.strip_prefix("file: ") {
                changed = format!("{folder}{path}");
            }
            let Some(old) = line.strip_prefix("old: ") else { continue };
            let times = tree.file(&changed).map_or(0, |file| file.text.matches(old).count());
            if times != 1 {
                found.push(edit.at(number, format!("the old text stands {times} times in {changed}")));
            }
        }
        if !edit.text.lines().any(|line| line.starts_with("old: ")) {
            found.push(edit.at(1, "replaces nothing"));
        }
        if !edit.text.starts_with("# ") {
            found.push(edit.at(1, "does not say what it breaks"));
        }
    }
    found
}

const EDITS: &str = "docs/EDITS.md";

/// Edits that the page of edits has not, or has with another comment, edits on it that are gone, and first errors in
/// functions that their crate has not.
pub fn edits_listed(tree: &Tree) -> Vec<Finding> {
    let Some(page) = tree.file(EDITS) else { return Vec::new() };
    let mut listed = BTreeSet::new();
    let mut own = "";
    let mut found = Vec::new();
    for (number, line) in page.lines() {
        if let Some((name, _)) = line.strip_prefix('`').and_then(|rest| rest.split_once("` (")) {
            own = name;
        }
        let Some((name, rest)) = line.strip_prefix("| `").and_then(|rest| rest.split_once("` | ")) else { continue };
        let path = format!("crates/{own}/must-fail/{name}.edit");
        let comment = rest.split(" | ").next().unwrap_or_default();
        let says = |edit: &File| {
            edit.text.lines().next().unwrap_or_default().trim_start_matches("# ").trim_end_matches('.') == comment
        };
        if !tree.file(&path).is_some_and(says) {
            found.push(page.at(number, format!("{own}/{name} is not there, or says something else")));
        }
        let fails = rest.split(" | ").nth(1).and_then(|cell| cell.split('`').nth(1)).unwrap_or_default();
        if !has_proof(tree, own, fails) {
            found.push(page.at(number, format!("{own} has no `{fails}` that could fail")));
        }
        listed.insert(path);
    }
    let missing = tree.in_part(Part::MustFail).filter(|edit| !listed.contains(&edit.path));
    found.extend(missing.map(|edit| edit.at(1, format!("is not in {EDITS}"))));
    found
}

/// A function with a proof of its own, one of the code, which may be proved with no file, or a file of specs/ or
/// proofs/ by its name.
fn has_proof(tree: &Tree, own: &str, name: &str) -> bool {
    let of_crate = |file: &File| file.place().is_some_and(|(crate_name, _)| crate_name == own);
    let declared = format!("fn {name}");
    let in_code = |text: &str| {
        let mut found = text.match_indices(&declared).map(|(place, _)| &text[place + declared.len()..]);
        found.any(|behind| behind.starts_with(['(', '<']))
    };
    tree.files.iter().filter(|file| of_crate(file)).any(|file| match file.part() {
        Some(Part::Src) => in_code(&file.text),
        Some(Part::Specs | Part::Proofs) => file.function() == Some(name) || (file.is_theory() && file.name() == name),
        _ => false,
    })
}

/// Crates that stand above one that they depend on, and dependencies that no file of theirs names. A
/// value's type needs its crate without a name, so a crate that declares types is taken as needed.
pub fn layers(tree: &Tree) -> Vec<Finding> {
    let page = tree.file("crates.txt").unwrap_or_else(|| panic!("no crates.txt"));
    let crates = tree.crates();
    let mut found = Vec::new();
    for (number, own, needs) in tree.rows() {
        for need in needs.split_whitespace() {
            let Some((below, _)) = crates.iter().find(|(_, name)| *name == need) else { continue };
            if *below > number {
                found.push(page.at(number, format!("{own} stands above {need}, which it needs")));
            }
            if !names_crate(tree, own, need) && !declares_types(tree, need) {
                found.push(page.at(number, format!("{own} names nothing of {need}")));
            }
        }
    }
    found
}

/// Whether a file of this crate names something of that one.
fn names_crate(tree: &Tree, own: &str, need: &str) -> bool {
    let (in_code, in_theory) = (format!("{need}::"), format!("Rattle.{need}."));
    let is_path = |before: &str| !before.ends_with(|sign: char| sign.is_alphanumeric() || sign == '_' || sign == ':');
    let named = |text: &str| text.match_indices(&in_code).any(|(place, _)| is_path(&text[..place]));
    let files = tree.files.iter().filter(|file| file.place().is_some_and(|(name, _)| name == own));
    files.into_iter().any(|file| file.text.contains(&in_theory) || named(&file.text))
}

/// Whether the code of a crate declares public types.
fn declares_types(tree: &Tree, name: &str) -> bool {
    let mut code = tree.in_part(Part::Src).filter(|file| file.place().is_some_and(|(own, _)| own == name));
    code.any(|file| file.lines().any(|(_, line)| line.starts_with("pub struct ") || line.starts_with("pub enum ")))
}

const ARCHITECTURE: &str = "docs/ARCHITECTURE.md";
const CRATES_HEAD: &str = "| crate | one line |";

/// Crates that the architecture's table does not have, and rows of it that are no crates. A name
/// that ends in a star stands for all that begin so.
pub fn crates_named(tree: &Tree) -> Vec<Finding> {
    let page = tree.file(ARCHITECTURE).unwrap_or_else(|| panic!("no {ARCHITECTURE}"));
    let lines = prose(&page.text);
    let rows = rows(&lines, CRATES_HEAD);
    let named: Vec<&str> = rows.iter().flat_map(|row| row[0].split(", ")).map(|name| name.trim_matches('`')).collect();
    let stands_for = |name: &str, own: &str| name.strip_suffix('*').map_or(name == own, |start| own.starts_with(start));
    let crates = tree.crates();
    let unnamed = crates.iter().filter(|(_, own)| !named.iter().any(|name| stands_for(name, own)));
    let unnamed = unnamed.map(|(line, own)| Finding {
        path: "crates.txt".into(),
        line: *line,
        what: format!("{own} is not in the table of {ARCHITECTURE}"),
    });
    let gone = named.iter().filter(|name| !crates.iter().any(|(_, own)| stands_for(name, own)));
    let row = |name: &str| page.lines().find(|(_, line)| line.starts_with('|') && line.contains(&format!("`{name}`")));
    let gone = gone.map(|name| page.at(row(name).map_or(1, |row| row.0), format!("{name} is no crate")));
    unnamed.chain(gone).collect()
}

/// Files and names that a page shows as code and that are not there. A path with a part of one letter
/// is a pattern, and only a name that has the form of ours is looked for.
pub fn stale_names(tree: &Tree) -> Vec<Finding> {
    let (pages, others): (Vec<&File>, Vec<&File>) = tree.files.iter().partition(|file| file.path.ends_with(".md"));
    let is_part = |sign: char| sign.is_alphanumeric() || "_-′".contains(sign);
    let words = others.iter().flat_map(|file| file.text.split(|sign| !is_part(sign)));
    let paths = others.iter().flat_map(|file| file.path.split(['/', '.']));
    let known: BTreeSet<&str> = words.chain(paths).collect();
    let there = |path: &str| others.iter().any(|file| file.path == path || file.path.ends_with(&format!("/{path}")));
    let mut found = Vec::new();
    for page in pages {
        for (number, shown) in code_in(page) {
            let gone = if is_path(shown) { !there(shown) } else { is_name(shown) && !known.contains(shown) };
            if gone {
                found.push(page.at(number, format!("{shown} is not there")));
            }
        }
    }
    found
}

/// What the lines of a page outside its blocks show as code.
fn code_in(page: &File) -> Vec<(usize, &str)> {
    let mut inside = false;
    let mut found = Vec::new();
    for (number, line) in page.lines() {
        inside ^= line.starts_with("```");
        if !inside {
            found.extend(line.split('`').skip(1).step_by(2).map(|shown| (number, shown)));
        }
    }
    found
}

/// Whether this is the path of a file of code, definitions or proofs.
fn is_path(shown: &str) -> bool {
    let plain = shown.chars().all(|sign| sign.is_ascii_alphanumeric() || "/_.".contains(sign));
    let is_file = [".rt", ".antt", ".rs"].iter().any(|ending| shown.ends_with(ending));
    plain && is_file && !shown.starts_with("..") && shown.split(['/', '.']).all(|part| part.len() > 1)
}

/// Whether this is a name of more than one word, and none of C's.
fn is_name(shown: &str) -> bool {
    let begins = shown.starts_with(|sign: char| sign.is_ascii_alphabetic());
    let plain = shown.chars().all(|sign| sign.is_ascii_alphanumeric() || "_-".contains(sign));
    let has_small = shown.contains(|sign: char| sign.is_ascii_lowercase());
    let signs: Vec<char> = shown.chars().collect();
    let joined = signs
        .windows(2)
        .any(|pair| pair[0].is_ascii_lowercase() && !pair[1].is_ascii_lowercase() && !pair[1].is_ascii_digit());
    begins && plain && has_small && joined
}

/// Folders that are not the repository's, but for the toolchain's own.
const OUTSIDE: [&str; 4] = ["/work", "/home", "/root", "/opt"];
const TOOLCHAIN: &str = "/opt/rattle";
/// A folder beside the repository.
const BESIDE: &str = "shared";

/// Lines that point to another place of some machine.
pub fn outside(tree: &Tree) -> Vec<Finding> {
    let mut found = Vec::new();
    for file in &tree.files {
        for (number, line) in file.lines() {
            found.extend(points_outside(line).map(|path| file.at(number, format!("points to {path}"))));
        }
    }
    found
}

fn points_outside(line: &str) -> Option<&str> {
    let is_part = |sign: char| sign.is_alphanumeric() || "/._-*".contains(sign);
    let mut paths = line.split(|sign: char| !is_part(sign));
    let below = |path: &str, folder: &str| path.strip_prefix(folder).is_some_and(|rest| rest.starts_with('/'));
    paths.find(|path| {
        let machine = OUTSIDE.iter().any(|folder| below(path, folder)) && *path != TOOLCHAIN && !below(path, TOOLCHAIN);
        machine || below(path.trim_start_matches("../"), BESIDE)
    })
}

#[cfg(test)]
mod tests {
    use super::*;

    fn shown(findings: Vec<Finding>) -> Vec<String> {
        findings.iter().map(Finding::to_string).collect()
    }

    // Catches an edit that changes nothing any more, or more than one place.
    #[test]
    fn stale_edits_are_found() {
        let tree = Tree::of(&[
            ("crates/a/src/lib.rt", "one\ntwo\ntwo\n"),
            ("crates/a/must-fail/right.edit", "# why\nfile: src/lib.rt\nold: one\nnew: x\n"),
            ("crates/a/must-fail/twice.edit", "# why\nfile: src/lib.rt\nold: one\nnew: x\nold: two\nnew: x\n"),
            ("crates/a/must-fail/gone.edit", "# why\nfile: src/other.rt\nold: one\nnew: x\n"),
            ("crates/a/must-fail/empty.edit", "# why\nfile: src/lib.rt\n"),
            ("crates/a/must-fail/silent.edit", "file: src/lib.rt\nold: one\nnew: x\n"),
        ]);
        let wanted = [
            "crates/a/must-fail/twice.edit:5: the old text stands 2 times in crates/a/src/lib.rt",
            "crates/a/must-fail/gone.edit:3: the old text stands 0 times in crates/a/src/other.rt",
            "crates/a/must-fail/empty.edit:1: replaces nothing",
            "crates/a/must-fail/silent.edit:1: does not say what it breaks",
        ];
        assert_eq!(shown(stale_edits(&tree)), wanted);
    }

    // Catches an edit that the page forgets, goes on naming, or describes as something else, and a first error in a
    // function that is gone.
    #[test]
    fn edits_and_the_page_agree() {
        let page = "# E\n\n`a` (x)\n\n| edit | what | error |\n|---|---|---|\n| `right` | why | `f`, y |\n| `other` | because | `Case.antt`, y |\n| `gone` | why | `g`, y |\n| `auto` | why | `h`, y |\n| `parts` | why | `k`, y |\n";
        let tree = Tree::of(&[
            (EDITS, page),
            ("crates/a/proofs/m/f/Proof.antt", ""),
            ("crates/b/proofs/m/g/Proof.antt", ""),
            ("crates/a/specs/Case.antt", ""),
            ("crates/a/src/m.rt", "pub fn h(x: u32) {}\nfn go() {}\n"),
            ("crates/a/proofs/m/k/Answers.antt", ""),
            ("crates/a/must-fail/right.edit", "# why.\nfile: src/lib.rt\n"),
            ("crates/a/must-fail/auto.edit", "# why.\nfile: src/lib.rt\n"),
            ("crates/a/must-fail/parts.edit", "# why.\nfile: src/lib.rt\n"),
            ("crates/a/must-fail/other.edit", "# why\nfile: src/lib.rt\n"),
            ("crates/b/must-fail/right.edit", "# why\nfile: src/lib.rt\n"),
        ]);
        let wanted = [
            "docs/EDITS.md:8: a/other is not there, or says something else",
            "docs/EDITS.md:9: a/gone is not there, or says something else",
            "docs/EDITS.md:9: a has no `g` that could fail",
            "crates/b/must-fail/right.edit:1: is not in docs/EDITS.md",
        ];
        assert_eq!(shown(edits_listed(&tree)), wanted);
    }

    // Catches a layer out of its order, and a dependency that is no longer one.
    #[test]
    fn layers_are_held() {
        let tree = Tree::of(&[
            ("crates.txt", "# all\nhigh staticlib: low mid none types io # kit\nlow:\nmid: low\nnone:\ntypes:\n"),
            ("crates/high/src/lib.rt", "use low::f;\nuse other_none::f;\nuse crate::none::f;\n"),
            ("crates/high/proofs/f/Proof.antt", "use Rattle.mid.specs.A.{x}\n"),
            ("crates/mid/src/lib.rt", "low::f()\n"),
            ("crates/types/src/lib.rt", "pub struct S {\n"),
        ]);
        let wanted = [
            "crates.txt:2: high stands above low, which it needs",
            "crates.txt:2: high stands above mid, which it needs",
            "crates.txt:2: high stands above none, which it needs",
            "crates.txt:2: high names nothing of none",
            "crates.txt:2: high stands above types, which it needs",
        ];
        assert_eq!(shown(layers(&tree)), wanted);
    }

    // Catches a crate that the page forgets, and one that it goes on naming.
    #[test]
    fn crates_and_the_page_agree() {
        let page = "# A\n\n| crate | one line |\n|---|---|\n| `a`, `gone` | x |\n| `case_*` | `b` |\n\nelse\n";
        let tree = Tree::of(&[("crates.txt", "# all\na:\nb: a\ncase_one: a\n"), (ARCHITECTURE, page)]);
        let wanted =
            ["crates.txt:3: b is not in the table of docs/ARCHITECTURE.md", "docs/ARCHITECTURE.md:5: gone is no crate"];
        assert_eq!(shown(crates_named(&tree)), wanted);
    }

    // Catches a page that goes on naming what was renamed.
    #[test]
    fn stale_names_are_found() {
        let page = "`a_one`, `a-two`, `aThree`, `AFour`\n```\n`gone_here`\n```\n`src/m.rt`, `gone_name`, `is-gone`, `goneName`\n\
            `a/src/lib.rt`, `src/gone.rt`, `NOT_OURS`, `x`, `rt dev x-y`, `u32`, `gone-`\n";
        let tree = Tree::of(&[
            ("docs/A.md", page),
            ("crates/a/src/lib.rt", "fn a_one(x: &u32) requires { AFour }\n"),
            ("crates/a/specs/A.antt", "a-two : aThree [] ≡ x\n"),
        ]);
        let gone = |line: usize, name: &str| format!("docs/A.md:{line}: {name} is not there");
        let wanted = [(5, "gone_name"), (5, "is-gone"), (5, "goneName"), (6, "src/gone.rt"), (6, "gone-")];
        assert_eq!(shown(stale_names(&tree)), wanted.map(|(line, name)| gone(line, name)));
    }

    // Catches a path of the machine on which something was written.
    #[test]
    fn paths_outside_are_found() {
        for folder in OUTSIDE {
            assert!(points_outside(&format!("see `{folder}/x`")).is_some(), "{folder}");
            assert!(points_outside(&format!("see a{folder}/x, and {folder} of it")).is_none(), "{folder}");
        }
        for (before, found) in [("(", true), ("../../", true), ("", true), ("is_", false), ("a/", false)] {
            assert_eq!(points_outside(&format!("{before}{BESIDE}/x")).is_some(), found, "{before}");
        }
        assert_eq!(points_outside(&format!("{TOOLCHAIN}/bin, ../rust, {BESIDE}")), None);
        let tree = Tree::of(&[("docs/A.md", &format!("one\nsee {}/x\n", OUTSIDE[0]))]);
        assert_eq!(outside(&tree)[0].line, 2);
    }
}
