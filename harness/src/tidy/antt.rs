//! Definitions and laws as they stand in a file: names, marks, statements, and what they bring in.

/// A name or a sign. What a comment says is no token.
#[derive(Clone, Copy, Debug, PartialEq, Eq)]
pub struct Token<'a> {
    pub text: &'a str,
    /// From 1.
    pub line: usize,
    pub column: usize,
    /// Whether it begins its line.
    pub first: bool,
    /// Whether it follows the one before it without a space.
    pub tight: bool,
}

/// A name is a run of characters other than these and spaces; each of these is a token by itself.
const SIGNS: [char; 9] = ['(', ')', '{', '}', '.', ';', ',', '@', '"'];
/// These only hold a name together.
const QUOTES: [char; 2] = ['«', '»'];

/// The tokens of a text in which this begins a comment.
pub fn tokens<'a>(text: &'a str, comment: &str) -> Vec<Token<'a>> {
    let mut found: Vec<Token<'a>> = Vec::new();
    for (place, line) in text.lines().enumerate() {
        let (mut end, mut first) = (0, true);
        for (column, text) in runs(line) {
            if text.starts_with(comment) {
                break;
            }
            found.push(Token { text, line: place + 1, column, first, tight: !first && column == end });
            end = column + text.len();
            first = false;
        }
    }
    found
}

/// The names and signs of a line, each with the place where it begins.
fn runs(line: &str) -> Vec<(usize, &str)> {
    let mut found = Vec::new();
    let mut begun = None;
    for (place, sign) in line.char_indices() {
        let ends = sign.is_whitespace() || SIGNS.contains(&sign) || QUOTES.contains(&sign);
        if !ends {
            begun.get_or_insert(place);
            continue;
        }
        found.extend(begun.take().map(|start| (start, &line[start..place])));
        if SIGNS.contains(&sign) {
            found.push((place, &line[place..place + 1]));
        }
    }
    found.extend(begun.map(|start| (start, &line[start..])));
    found
}

#[derive(Clone, Copy, Debug, PartialEq, Eq)]
pub enum Kind {
    /// A law, or a function that computes nothing elsewhere.
    Plain,
    /// `abbrev` or `unfoldable`.
    Unfolds,
    /// `data` or `record`.
    Type,
}

#[derive(Clone, Debug)]
pub struct Declaration<'a> {
    pub name: &'a str,
    pub line: usize,
    pub kind: Kind,
    pub public: bool,
    /// Behind the colon.
    pub statement: &'a [Token<'a>],
    /// All of it, with its clauses.
    pub text: &'a [Token<'a>],
    /// The heads of the modules around it.
    pub around: Vec<&'a [Token<'a>]>,
    /// Constructors and fields.
    pub members: Vec<&'a str>,
}

impl Declaration<'_> {
    pub fn at_top(&self) -> bool {
        self.around.is_empty()
    }
}

/// What a file brings in from another.
#[derive(Clone, Debug, Default, PartialEq, Eq)]
pub struct Use<'a> {
    pub line: usize,
    pub path: Vec<&'a str>,
    /// Names as they are called here and there.
    pub names: Vec<(&'a str, &'a str)>,
    /// What the file as a whole is called here.
    pub alias: Option<&'a str>,
}

const MARKS: [&str; 4] = ["unfoldable", "abbrev", "axiom", "pub"];
const OTHERS: [&str; 7] = ["use", "mod", "open", "infix", "infixl", "infixr", "ghost"];

/// The declarations of a file in order, those in modules too.
pub fn declarations<'a>(file: &'a [Token<'a>]) -> Vec<Declaration<'a>> {
    let mut found = Vec::new();
    block(file, &[], &mut found);
    found
}

fn block<'a>(tokens: &'a [Token<'a>], around: &[&'a [Token<'a>]], found: &mut Vec<Declaration<'a>>) {
    // Where the declaration that clauses belong to begins.
    let mut begun = 0;
    for (start, end) in items(tokens) {
        let marks = tokens[start..end].iter().take_while(|token| MARKS.contains(&token.text)).count();
        let item = &tokens[start + marks..end];
        match item.first().map(|token| token.text) {
            Some("module" | "mutual") => {
                let (head, body) = module(item);
                block(body, &[around, &[head]].concat(), found);
            }
            None => {}
            Some(word) if OTHERS.contains(&word) => {}
            Some(_) => match declaration(&tokens[start..end], marks) {
                Some(new) => {
                    begun = start;
                    found.push(Declaration { around: around.to_vec(), ..new });
                }
                None => {
                    if let Some(last) = found.last_mut() {
                        last.text = &tokens[begun..end];
                    }
                }
            },
        }
    }
}

/// The items of a block, from and to: each begins a line at the block's column, outside all brackets.
fn items(block: &[Token]) -> Vec<(usize, usize)> {
    let mut starts = Vec::new();
    let mut depth = 0;
    for (place, token) in block.iter().enumerate() {
        if depth == 0 && token.first && token.column == block[0].column {
            starts.push(place);
        }
        depth += nesting(token);
    }
    starts.push(block.len());
    starts.windows(2).map(|pair| (pair[0], pair[1])).collect()
}

fn nesting(token: &Token) -> i32 {
    match token.text {
        "(" | "{" => 1,
        ")" | "}" => -1,
        _ => 0,
    }
}

/// The first place outside all brackets that has this text.
pub fn outside(tokens: &[Token], text: &str) -> Option<usize> {
    let mut depth = 0;
    tokens.iter().position(|token| {
        depth += nesting(token);
        depth == 0 && token.text == text
    })
}

/// A module's head and body.
fn module<'a>(item: &'a [Token<'a>]) -> (&'a [Token<'a>], &'a [Token<'a>]) {
    match outside(item, "where") {
        Some(end) if item[0].text == "module" => (&item[..end], &item[end + 1..]),
        _ => (&item[..0], &item[1..]),
    }
}

/// The declaration that this item begins, if it is no clause of one.
fn declaration<'a>(item: &'a [Token<'a>], marks: usize) -> Option<Declaration<'a>> {
    let marked = |mark: &str| item[..marks].iter().any(|token| token.text == mark);
    let is_type = matches!(item[marks].text, "data" | "record");
    let name = item.get(marks + usize::from(is_type))?;
    let behind = &item[marks + usize::from(is_type) + 1..];
    let colon = outside(behind, ":")?;
    // A clause has names before its colon, if it has one; a signature only levels in braces.
    if !is_type && colon > 0 && !(behind[0].text == "{" && behind[colon - 1].text == "}") {
        return None;
    }
    let end = if is_type { outside(behind, "where").unwrap_or(behind.len()) } else { behind.len() };
    let kind = match is_type {
        true => Kind::Type,
        false if marked("abbrev") || marked("unfoldable") => Kind::Unfolds,
        false => Kind::Plain,
    };
    Some(Declaration {
        name: name.text,
        line: name.line,
        kind,
        public: marked("pub"),
        statement: &behind[colon + 1..end],
        text: item,
        around: Vec::new(),
        members: if is_type { members(&behind[end..]) } else { Vec::new() },
    })
}

/// The names that the body of a type declares; `body` begins with its `where`.
fn members<'a>(body: &'a [Token<'a>]) -> Vec<&'a str> {
    let body = body.get(1..).unwrap_or_default();
    let names =
        items(body).into_iter().filter_map(|(start, end)| Some(start..start + outside(&body[start..end], ":")?));
    names.flat_map(|names| &body[names]).map(|token| token.text).filter(|name| !MARKS.contains(name)).collect()
}

/// What a file brings in, and all its other tokens.
pub fn uses<'a>(file: &[Token<'a>]) -> (Vec<Use<'a>>, Vec<Token<'a>>) {
    let (mut found, mut rest) = (Vec::new(), Vec::new());
    let mut place = 0;
    while place < file.len() {
        let begins = file[place].first && matches!(file[place].text, "use" | "ghost");
        let inside = |token: &&Token| !token.first || (begins && token.column > file[place].column);
        let end = place + 1 + file[place + 1..].iter().take_while(inside).count();
        if begins {
            found.push(one_use(&file[place..end]));
        } else {
            rest.extend(&file[place..end]);
        }
        place = end;
    }
    (found, rest)
}

/// What code says to the prover: its clauses, and what its attributes hand to the tactics.
pub fn said<'a>(code: &[Token<'a>]) -> Vec<Token<'a>> {
    let mut found = Vec::new();
    for (place, token) in code.iter().enumerate() {
        let opens = |text: &str| code[place..].iter().take(4).position(|token| token.text == text);
        let opened = match token.text {
            "requires" | "requires*" | "ensures" | "ensures*" | "ghost" => opens("{"),
            text if text.ends_with("[tactic") => opens("("),
            _ => None,
        };
        let Some(start) = opened.map(|behind| place + behind) else { continue };
        let closing = if code[start].text == "{" { "}" } else { ")" };
        let end = outside(&code[start..], closing).map_or(code.len(), |length| start + length);
        found.extend(&code[start..end]);
    }
    found
}

fn one_use<'a>(line: &[Token<'a>]) -> Use<'a> {
    let words: Vec<&str> = line.iter().map(|token| token.text).filter(|text| *text != ";").collect();
    let start = words.iter().position(|word| *word == "use").map_or(words.len(), |place| place + 1);
    let behind = &words[start..];
    let end = behind.iter().position(|word| matches!(*word, "{" | "as")).unwrap_or(behind.len());
    let path = behind[..end].iter().filter(|word| **word != ".").copied().collect();
    let mut one = Use { line: line[0].line, path, ..Use::default() };
    match behind.get(end) {
        Some(&"as") => one.alias = behind.get(end + 1).copied(),
        Some(_) => {
            let names = behind[end + 1..].split(|word| matches!(*word, "," | "}")).filter(|name| !name.is_empty());
            one.names = names.map(|name| (name[name.len() - 1], name[0])).collect();
        }
        None => {}
    }
    one
}

#[cfg(test)]
mod tests {
    use super::*;

    const FILE: &str = "\
-- what it holds
use a.b.{x, ◌+◌,
    y as z}
use a.c as d

abbrev pub one : A → A
one x = x

module _ {A : Type 0}
    (h : one ≡ one) where
  pub record Pair (B : Type 0) : Type 0 where
    pub left : A
    pub right : B

  law {ℓ} : (a : A)
      → a ≡ a
  unfolding one
  law a = let b : A = a in record {
    left = b;
  }

pub data T : Type 0 where
  p q : T -- a comment
last : T
last = p
";

    // Catches a declaration that is missed, or one that is cut wrongly.
    #[test]
    fn declarations_of_a_file() {
        let file = tokens(FILE, "--");
        let shown = |d: Declaration| {
            let words = |tokens: &[Token]| tokens.iter().map(|token| token.text).collect::<Vec<_>>().join(" ");
            format!("{} {} {:?} {} {} : {}", d.line, d.name, d.kind, d.public, d.around.len(), words(d.statement))
        };
        let all: Vec<String> = declarations(&file).into_iter().map(shown).collect();
        let wanted = [
            "6 one Unfolds true 0 : A → A",
            "11 Pair Type true 1 : Type 0",
            "15 law Plain false 1 : ( a : A ) → a ≡ a",
            "22 T Type true 0 : Type 0",
            "24 last Plain false 0 : T",
        ];
        assert_eq!(all, wanted);
        let all = declarations(&file);
        assert_eq!((&all[1].members[..], &all[3].members[..]), (&["left", "right"][..], &["p", "q"][..]));
        assert_eq!(all[2].text.last().unwrap().line, 20);
        assert_eq!(all[4].text.last().unwrap().text, "p");
    }

    // Catches names that are brought in and not seen.
    #[test]
    fn uses_of_a_file() {
        let file = tokens(FILE, "--");
        let (found, rest) = uses(&file);
        let whole = Use { line: 4, path: vec!["a", "c"], alias: Some("d"), ..Use::default() };
        let names = vec![("x", "x"), ("◌+◌", "◌+◌"), ("z", "y")];
        assert_eq!(found, [Use { line: 2, path: vec!["a", "b"], names, alias: None }, whole]);
        assert_eq!(rest[0].line, 6);
        let ghost = tokens("ghost use a.b.{x};\nfn f() {} // use\n", "//");
        assert_eq!(uses(&ghost).0, [Use { line: 1, path: vec!["a", "b"], names: vec![("x", "x")], alias: None }]);
    }

    // Catches code that is taken for a clause, and a clause or an attribute that is not seen.
    #[test]
    fn what_code_says() {
        let code = tokens(
            "#[tactic(auto, using(crate::proofs::M::law))]\nfn f(x: u32)\n    requires { p x }\n    ensures new { q (x) {A = B} }\n{\n    g(S { x })\n}\n",
            "//",
        );
        let words: Vec<&str> = said(&code).iter().map(|token| token.text).collect();
        let wanted = "( auto , using ( crate::proofs::M::law ) { p x { q ( x ) { A = B }";
        assert_eq!(words.join(" "), wanted);
    }
}
