//! Sizes of functions and lines, fields of words taken apart in one place, and what a file says first.
use super::{File, Finding, Part, Tree};

const MOST_LINES: usize = 40;
const MOST_COLUMNS: usize = 160;

/// The two passes of the serial log and the function that lends them their arrays, the functions of the list of open
/// moves that hand a page on, and the moves of an unattended run. `rt fmt` gives each argument of such a call a line, and
/// the prover lends no struct of references, so they stay long.
const LENDING: [(&str, &str); 8] = [
    ("crates/choices/src/page.rt", "fill"),
    ("crates/groups/src/pages.rt", "group_page"),
    ("crates/listing/src/list.rt", "open_moves"),
    ("crates/listing/src/reactions.rt", "reactions"),
    ("crates/recording/src/record.rt", "record"),
    ("crates/replay/src/lib.rt", "replay"),
    ("crates/serial/src/lib.rt", "serialized"),
    ("crates/unattended/src/walk.rt", "walk"),
];

/// Functions with too many lines, from `fn` to the closing brace.
pub fn long_functions(tree: &Tree) -> Vec<Finding> {
    let mut found = Vec::new();
    for file in tree.in_part(Part::Src) {
        for (line, name, lines) in functions(&file.text) {
            if lines > MOST_LINES && !LENDING.contains(&(&*file.path, name)) {
                found.push(file.at(line, format!("fn {name} has {lines} lines")));
            }
        }
    }
    found
}

/// The functions of a text: line, name and number of lines.
fn functions(text: &str) -> Vec<(usize, &str, usize)> {
    let lines: Vec<&str> = text.lines().collect();
    let mut found = Vec::new();
    for (place, line) in lines.iter().enumerate() {
        let Some(name) = function(line) else { continue };
        let indent = line.len() - line.trim_start().len();
        let ends = |line: &&str| line.trim_start() == "}" && line.len() == indent + 1;
        let length = if closes(line) { Some(0) } else { lines[place..].iter().position(ends) };
        found.push((place + 1, name, length.map_or(lines.len() - place, |length| length + 1)));
    }
    found
}

/// Whether the function that a line begins ends in it: by its body, and not by a clause.
fn closes(line: &str) -> bool {
    let words = line.split_whitespace();
    let clauses = words.filter(|word| matches!(word.trim_end_matches('*'), "requires" | "ensures")).count();
    let (mut depth, mut groups) = (0, 0);
    for sign in line.chars() {
        match sign {
            '{' => depth += 1,
            '}' => depth -= 1,
            _ => continue,
        }
        groups += usize::from(depth == 0);
    }
    line.ends_with('}') && depth == 0 && groups > clauses
}

/// The name of the function that a line begins.
fn function(line: &str) -> Option<&str> {
    let mut rest = line.trim_start();
    while let Some(behind) =
        ["pub ", "const ", "unsafe ", "extern \"C\" "].iter().find_map(|mark| rest.strip_prefix(mark))
    {
        rest = behind;
    }
    rest.strip_prefix("fn ")?.split(|sign: char| !sign.is_alphanumeric() && sign != '_').next()
}

/// Wide lines of code and of definitions.
pub fn wide_code(tree: &Tree) -> Vec<Finding> {
    wide(tree, &[Part::Src, Part::Specs])
}

/// Wide lines of proofs.
pub fn wide_proofs(tree: &Tree) -> Vec<Finding> {
    wide(tree, &[Part::Proofs])
}

/// Lists of names may be as wide as they are, on all their lines.
fn wide(tree: &Tree, parts: &[Part]) -> Vec<Finding> {
    let begins_list =
        |line: &str| ["use ", "ghost use ", "unfolding "].iter().any(|word| line.trim_start().starts_with(word));
    let mut found = Vec::new();
    for file in tree.files.iter().filter(|file| file.part().is_some_and(|part| parts.contains(&part))) {
        // How far the list is indented that a line may go on.
        let mut list = None;
        for (number, line) in file.lines() {
            let indent = line.len() - line.trim_start().len();
            if begins_list(line) {
                list = Some(indent);
            } else if list.is_some_and(|first| indent <= first) {
                list = None;
            }
            let columns = line.chars().count();
            if list.is_none() && columns > MOST_COLUMNS {
                found.push(file.at(number, format!("{columns} columns")));
            }
        }
    }
    found
}

/// The files that may take words apart by numbers: the fields of words, one module each, and the
/// bytes of a word.
const FIELD_MODULES: [&str; 5] = [
    "crates/words/src/head.rt",
    "crates/words/src/item.rt",
    "crates/words/src/atom.rt",
    "crates/words/src/origin.rt",
    "crates/intake/src/gather.rt",
];
const FIELDS: [&str; 3] = ["16777216", "268435456", "33554432"];

/// Fields taken apart, or put together, by hand in code or contracts.
pub fn fields_in_code(tree: &Tree) -> Vec<Finding> {
    let by_hand = |file: &File, words: &[&str]| {
        let at_home = FIELD_MODULES.contains(&file.path.as_str());
        let is_field = |place: usize| {
            let scales = place > 0 && matches!(words[place - 1], "*" | "/" | "%");
            match words[place] {
                "16" | "65536" => scales && !at_home,
                word => FIELDS.contains(&word) && !at_home,
            }
        };
        (0..words.len()).find(|place| is_field(*place)).map(|place| words[place].to_string())
    };
    fields(tree, &[Part::Src], "//", by_hand)
}

/// Files of definitions and laws that may: the definitions of the fields, and of a word's bytes with
/// their cases; and the crates whose code may.
const FIELD_SPECS: [&str; 3] = [
    "crates/semantics/specs/Words.antt",
    "crates/semantics/specs/Program.antt",
    "crates/semantics/specs/ProgramCases.antt",
];
const FIELD_CRATES: [&str; 2] = ["words", "intake"];

/// The same in definitions and laws.
pub fn fields_in_specs(tree: &Tree) -> Vec<Finding> {
    let by_hand = |file: &File, words: &[&str]| {
        let (own, _) = file.place()?;
        if FIELD_CRATES.contains(&own) || FIELD_SPECS.contains(&file.path.as_str()) {
            return None;
        }
        let power =
            words.windows(3).find(|power| matches!(power, ["2", "^", "24" | "28"])).map(|power| power.join(" "));
        power.or(words.iter().find(|word| FIELDS.contains(word)).map(|word| word.to_string()))
    };
    fields(tree, &[Part::Specs, Part::Proofs], "--", by_hand)
}

/// Lines of these parts that have a field by hand, comments left out.
fn fields(
    tree: &Tree,
    parts: &[Part],
    comment: &str,
    by_hand: impl Fn(&File, &[&str]) -> Option<String>,
) -> Vec<Finding> {
    let mut found = Vec::new();
    for file in tree.files.iter().filter(|file| file.part().is_some_and(|part| parts.contains(&part))) {
        for (number, line) in file.lines() {
            let code = line.split(comment).next().unwrap_or_default();
            let sign = |sign: char| !sign.is_alphanumeric() && !"*/%^_".contains(sign);
            let words: Vec<&str> = code.split(sign).filter(|word| !word.is_empty()).collect();
            found.extend(by_hand(file, &words).map(|field| file.at(number, format!("{field} by hand"))));
        }
    }
    found
}

/// Files of definitions and laws that do not begin with a comment; a list of modules needs none.
pub fn without_head(tree: &Tree) -> Vec<Finding> {
    let silent = |file: &&File| file.is_theory() && file.name() != "Lib.antt" && !file.text.starts_with("-- ");
    tree.files.iter().filter(silent).map(|file| file.at(1, "does not say what it holds")).collect()
}

#[cfg(test)]
mod tests {
    use super::*;

    fn shown(findings: Vec<Finding>) -> Vec<String> {
        findings.iter().map(Finding::to_string).collect()
    }

    // Catches a function of 41 lines, whatever stands before `fn`, and one of 40 that is refused.
    #[test]
    fn long_functions_are_found() {
        let of = |head: &str, lines: usize| format!("{head}\n{}}}\n", "    f();\n".repeat(lines - 2));
        let inner = format!("impl S {{\n    fn inner() {{\n{}    }}\n}}\n", "        f();\n".repeat(39));
        let text = [
            of("fn right() {", 40),
            of("pub extern \"C\" fn wrong(", 41),
            "fn short() {}\n".into(),
            "fn one() ensures { x } { f() }\n".into(),
            of("fn clause() ensures { x }\n{", 41),
            of("fn x() {", 3),
            inner,
        ];
        let tree = Tree::of(&[("crates/a/src/lib.rt", &text.concat())]);
        let wanted = [
            "crates/a/src/lib.rt:41: fn wrong has 41 lines",
            "crates/a/src/lib.rt:84: fn clause has 42 lines",
            "crates/a/src/lib.rt:130: fn inner has 41 lines",
        ];
        assert_eq!(shown(long_functions(&tree)), wanted);
    }

    // Catches columns counted as bytes, and lists of names that are not let through.
    #[test]
    fn wide_lines_are_found() {
        let (right, wrong) = ("≡".repeat(160), "≡".repeat(161));
        let text = format!("{right}\nuse {wrong}\n  unfolding {wrong}\n    {wrong}\nghost use {wrong}\n{wrong}\n");
        let tree = Tree::of(&[
            ("crates/a/specs/A.antt", &text),
            ("crates/a/proofs/f/Proof.antt", &text),
            ("docs/A.md", &text),
        ]);
        assert_eq!(shown(wide_code(&tree)), ["crates/a/specs/A.antt:6: 161 columns"]);
        assert_eq!(shown(wide_proofs(&tree)), ["crates/a/proofs/f/Proof.antt:6: 161 columns"]);
    }

    // Catches a field by hand that is missed, or one that is found where fields are at home.
    #[test]
    fn fields_by_hand_are_found() {
        let code =
            "head / 16777216; // 16777216\n[u32; 1024]\nn <= 1024\nx=(y)/ 16\n1167772160\nv < 65536\nw % 65536\n";
        let specs = "-- 2 ^ 24\na = 2 ^ 28\nb = 2 ^ 16\nc = x + 33554432\n";
        let tree = Tree::of(&[
            ("crates/a/src/lib.rt", code),
            ("crates/words/src/item.rt", code),
            ("crates/words/src/origin.rt", code),
            ("crates/a/specs/A.antt", specs),
            ("crates/semantics/specs/Words.antt", specs),
            ("crates/words/specs/A.antt", specs),
        ]);
        let wanted = [
            "crates/a/src/lib.rt:1: 16777216 by hand",
            "crates/a/src/lib.rt:4: 16 by hand",
            "crates/a/src/lib.rt:7: 65536 by hand",
        ];
        assert_eq!(shown(fields_in_code(&tree)), wanted);
        let wanted = ["crates/a/specs/A.antt:2: 2 ^ 28 by hand", "crates/a/specs/A.antt:4: 33554432 by hand"];
        assert_eq!(shown(fields_in_specs(&tree)), wanted);
    }

    // Catches a file that begins with a list of names.
    #[test]
    fn silent_files_are_found() {
        let tree = Tree::of(&[
            ("crates/a/specs/A.antt", "-- what it holds\n"),
            ("crates/a/specs/B.antt", "use x.{y}\n"),
            ("crates/a/specs/Lib.antt", "pub mod A\n"),
            ("crates/a/specs/Answers.antt", "use x.{y}\n"),
            ("crates/a/proofs/f/Proof.antt", "use x.{y}\n"),
            ("crates/a/proofs/f/Answers.antt", "use x.{y}\n"),
            ("crates/a/proofs/f/Invariants.antt", "use x.{y}\n"),
            ("crates/a/proofs/Answers.antt", "use x.{y}\n"),
        ]);
        assert_eq!(
            shown(without_head(&tree)),
            ["B", "Answers"]
                .map(|name| format!("crates/a/specs/{name}.antt:1: does not say what it holds"))
                .into_iter()
                .chain(["crates/a/proofs/Answers.antt:1: does not say what it holds".into()])
                .collect::<Vec<_>>()
        );
    }
}
