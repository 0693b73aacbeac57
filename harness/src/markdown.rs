//! The parts of a Markdown page, so that tests can hold it to what it says.

/// A fenced block. Its first fence has a language and, behind a space, a label.
#[derive(Clone, Copy, Debug, PartialEq, Eq)]
pub struct Block<'a> {
    pub language: &'a str,
    pub label: &'a str,
    pub text: &'a str,
    /// The line of the first fence, from 1.
    pub line: usize,
}

const FENCE: &str = "```";

/// The fenced blocks in order.
pub fn blocks(page: &str) -> Vec<Block<'_>> {
    let mut blocks = Vec::new();
    let mut open: Option<Block<'_>> = None;
    let mut rest = page;
    for (place, line) in page.split_inclusive('\n').enumerate() {
        let behind = &rest[line.len()..];
        match (line.strip_prefix(FENCE), open) {
            (Some(info), None) => {
                let info = info.trim_end();
                let (language, label) = info.split_once(' ').unwrap_or((info, ""));
                open = Some(Block { language, label, text: behind, line: place + 1 });
            }
            (Some(_), Some(block)) => {
                blocks.push(Block { text: &block.text[..block.text.len() - rest.len()], ..block });
                open = None;
            }
            (None, _) => {}
        }
        rest = behind;
    }
    assert!(open.is_none(), "a block without an end: {open:?}");
    blocks
}

/// The lines outside all blocks.
pub fn prose(page: &str) -> Vec<&str> {
    let mut inside = false;
    let outside = |line: &&str| {
        let fence = line.starts_with(FENCE);
        inside ^= fence;
        !inside && !fence
    };
    page.lines().filter(outside).collect()
}

/// The cells of each row of a table, its head left out.
pub fn rows<'a>(lines: &[&'a str], head: &str) -> Vec<Vec<&'a str>> {
    let first = lines.iter().position(|line| *line == head).unwrap_or_else(|| panic!("no table {head}"));
    let rows = lines[first + 2..].iter().map_while(|line| line.strip_prefix("| ")?.strip_suffix(" |"));
    rows.map(|row| row.split(" | ").collect()).collect()
}

/// Where the links of a line lead to.
pub fn links(line: &str) -> Vec<&str> {
    line.split("](").skip(1).map(|rest| rest.split_once(')').expect("a link without an end").0).collect()
}

#[cfg(test)]
mod tests {
    use super::*;

    const PAGE: &str = "\
a [page](to/it.md) and [a part](#b)

```sh
one
two
```

```text with a label
```
| a | b |
|---|---|
| 1 | 2 |
| 3 | `4` |

last
";

    // Catches a block that is cut wrongly: the tests of the pages would then hold other text.
    #[test]
    fn parts_of_a_page() {
        let block = |language, label, text, line| Block { language, label, text, line };
        assert_eq!(blocks(PAGE), [block("sh", "", "one\ntwo\n", 3), block("text", "with a label", "", 8)]);
        let lines = prose(PAGE);
        assert_eq!(
            lines,
            [
                "a [page](to/it.md) and [a part](#b)",
                "",
                "",
                "| a | b |",
                "|---|---|",
                "| 1 | 2 |",
                "| 3 | `4` |",
                "",
                "last"
            ]
        );
        assert_eq!(rows(&lines, "| a | b |"), [["1", "2"], ["3", "`4`"]]);
        assert_eq!(links(lines[0]), ["to/it.md", "#b"]);
    }
}
