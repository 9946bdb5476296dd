//! The wrong programs of `crates/*/must-fail` and `tests/edits` and the right ones of `tests/right`, all of them edits: each fits the crate
//! that it changes, and each wrong one of the gate has a right one of its shape, so that it is a fact that it is refused for.

use std::collections::BTreeMap;
use std::fs;
use std::path::{Path, PathBuf};

fn folder(path: &Path) -> Vec<PathBuf> {
    let entries = fs::read_dir(path).unwrap_or_else(|error| panic!("{}: {error}", path.display()));
    let mut paths: Vec<PathBuf> = entries.map(|entry| entry.expect("an entry").path()).collect();
    paths.sort();
    paths
}

fn tests() -> &'static Path {
    Path::new(env!("CARGO_MANIFEST_DIR"))
}

/// An edit of the repository: its text, and `CRATE/NAME` as `rt must-fail` names it.
struct Edit {
    text: String,
    name: String,
    path: PathBuf,
}

/// The edits `path/CRATE/below/*.edit` of every crate that has some.
fn edits(path: &Path, below: &str) -> Vec<Edit> {
    let mut found = Vec::new();
    for crate_folder in folder(path) {
        let inside = crate_folder.join(below);
        for path in if inside.is_dir() { folder(&inside) } else { Vec::new() } {
            let [crate_name, edit] = [&crate_folder, &path].map(|p| p.file_stem().expect("a name").to_string_lossy());
            let name = format!("{crate_name}/{edit}");
            found.push(Edit { text: fs::read_to_string(&path).expect("text"), name, path });
        }
    }
    found
}

fn gate_edits() -> Vec<Edit> {
    edits(&tests().join("../crates"), "must-fail")
}

fn right_edits() -> Vec<Edit> {
    edits(&tests().join("right"), "")
}

/// One pair of an edit.
struct Change<'a> {
    file: &'a str,
    old: &'a str,
    new: &'a str,
}

/// The pairs of an edit as `rt must-fail` reads them: a `file:` line holds for the pairs of `old:` and `new:` lines after it.
fn changes(edit: &str) -> Result<Vec<Change<'_>>, String> {
    let (mut file, mut old, mut found) = (None, None, Vec::new());
    for line in edit.lines() {
        if let Some(name) = line.strip_prefix("file: ") {
            file = Some(name);
        } else if let Some(text) = line.strip_prefix("old: ") {
            old = Some(text);
        } else if let Some(new) = line.strip_prefix("new:") {
            let (Some(file), Some(old)) = (file, old.take()) else {
                return Err(format!("no 'old:' or no 'file:' before '{line}'"));
            };
            found.push(Change { file, old, new: new.strip_prefix(' ').unwrap_or(new) });
        } else if file.is_some() {
            return Err(format!("'{line}' is no part of an edit"));
        }
    }
    if found.is_empty() {
        Err("it changes nothing".to_string())
    } else {
        Ok(found)
    }
}

/// Applies an edit to the texts of its crate.
fn apply(edit: &str, crate_folder: &Path) -> Result<(), String> {
    let mut texts: BTreeMap<&str, String> = BTreeMap::new();
    for Change { file, old, new } in changes(edit)? {
        if !texts.contains_key(file) {
            let text = fs::read_to_string(crate_folder.join(file)).map_err(|_| format!("there is no {file}"))?;
            texts.insert(file, text);
        }
        let text = texts.get_mut(file).expect("read");
        if new == old || text.matches(old).count() != 1 {
            return Err(format!("'{old}' is not changed, or does not stand once in {file}"));
        }
        *text = text.replace(old, new);
    }
    Ok(())
}

#[test]
fn every_edit_fits_its_crate() {
    let crates = tests().join("../crates");
    for edits in [gate_edits(), right_edits(), edits(&tests().join("edits"), "")] {
        assert!(!edits.is_empty());
        let faults = edits.iter().filter_map(|edit| {
            let crate_folder = crates.join(Path::new(&edit.name).parent().expect("a crate"));
            let fault = apply(&edit.text, &crate_folder).err()?;
            Some(format!("{}: {fault}", edit.path.display()))
        });
        let faults: Vec<String> = faults.collect();
        assert!(faults.is_empty(), "{}", faults.join("\n"));
    }
}

// ---- shapes

const KEYWORDS: [&str; 23] = [
    "as", "break", "const", "continue", "elim", "else", "ensures", "fn", "ghost", "if", "in", "let", "loop", "match",
    "mut", "pub", "record", "requires", "return", "struct", "then", "use", "while",
];

const TYPES: [&str; 11] = ["bool", "i16", "i32", "i64", "i8", "isize", "u16", "u32", "u64", "u8", "usize"];

fn in_word(c: char) -> bool {
    c.is_alphanumeric() || c == '_'
}

/// The length of the word that a text begins with: a number, a name, or a path of names such as `a.b` and `A::B`.
fn word(text: &str) -> usize {
    let end = text.find(|c| !in_word(c)).unwrap_or(text.len());
    if end == 0 || text.starts_with(|c: char| c.is_ascii_digit()) {
        return end;
    }
    for joint in ["::", "."] {
        let rest = text[end..].strip_prefix(joint).unwrap_or_default();
        if rest.starts_with(|c: char| in_word(c) && !c.is_ascii_digit()) {
            return end + joint.len() + word(rest);
        }
    }
    end
}

/// The length of the string or byte that a text begins with.
fn quoted(text: &str) -> usize {
    let start = text.strip_prefix('b').unwrap_or(text);
    for quote in ['"', '\''] {
        if let Some(end) = start.strip_prefix(quote).and_then(|inside| inside.find(quote)) {
            return text.len() - start.len() + end + 2;
        }
    }
    0
}

/// The words, literals, operators and brackets of a text.
fn tokens(text: &str) -> Vec<&str> {
    let (mut rest, mut found) = (text.trim_start(), Vec::new());
    while let Some(first) = rest.chars().next() {
        let operator = rest.find(|c| !"+-*/%&|^=<>!".contains(c)).unwrap_or(rest.len());
        let lengths = [quoted(rest), word(rest), operator, first.len_utf8()];
        let length = lengths.into_iter().find(|&length| length > 0).expect("a character");
        found.push(&rest[..length]);
        rest = rest[length..].trim_start();
    }
    found
}

fn is_literal(token: &str) -> bool {
    token.starts_with(|c: char| c.is_ascii_digit()) || quoted(token) > 0 || ["true", "false"].contains(&token)
}

fn is_constructor(token: &str) -> bool {
    token.rsplit(['.', ':']).next().is_some_and(|name| name.starts_with(char::is_uppercase))
}

fn is_path(token: &str) -> bool {
    token.starts_with(in_word) && !is_literal(token) && !KEYWORDS.contains(&token) && !TYPES.contains(&token)
}

/// The tokens without what says nothing of the shape: the name of a field before its value, so that `x` is `x: x`, and a local's type.
fn without_names<'a>(tokens: &[&'a str]) -> Vec<&'a str> {
    let (mut kept, mut at) = (Vec::new(), 0);
    while at < tokens.len() {
        let before = kept.last().copied().unwrap_or("{");
        let named = is_path(tokens[at]) && tokens.get(at + 1) == Some(&":");
        if named && ["{", ","].contains(&before) {
            at += 2;
        } else if named && ["let", "mut"].contains(&before) {
            kept.push(tokens[at]);
            at += tokens[at..].iter().position(|&token| token == "=").unwrap_or(1);
        } else {
            kept.push(tokens[at]);
            at += 1;
        }
    }
    kept
}

/// Is a token an operand, where it is called or not?
type Operand = fn(&str, bool) -> bool;

/// Code calls its functions with brackets.
const IN_CODE: Operand = |token, called| is_literal(token) || is_constructor(token) || is_path(token) && !called;

/// A definition calls them without, so that a name may be a function.
const IN_DEFINITIONS: Operand = |token, _| is_literal(token) || is_constructor(token);

const ANY_NAME: Operand = |token, _| is_literal(token) || is_path(token);

/// A text with `_` for each operand; of a called `a.f` it is `a`.
fn shape(text: &str, is_operand: Operand) -> Vec<String> {
    let tokens = without_names(&tokens(text));
    let mut shape = Vec::new();
    for (at, token) in tokens.iter().enumerate() {
        let called = tokens.get(at + 1) == Some(&"(");
        if is_operand(token, called) {
            shape.push("_".to_string());
        } else if let (true, Some((_, function))) = (called, token.rsplit_once('.')) {
            shape.extend(["_".to_string(), format!(".{function}")]);
        } else {
            shape.push(token.to_string());
        }
    }
    shape
}

impl Change<'_> {
    fn is_code(&self) -> bool {
        self.file.ends_with(".rt")
    }

    /// Is every operation and call kept, so that only operands differ?
    fn is_of_operands(&self) -> bool {
        let is_operand = if self.is_code() { IN_CODE } else { IN_DEFINITIONS };
        shape(self.old, is_operand) == shape(self.new, is_operand)
    }

    /// Does another edit change the same text to one that differs from this one's in operands alone, or in the names of a definition?
    fn is_like(&self, other: &Change) -> bool {
        let is_operand = if self.is_code() { IN_CODE } else { ANY_NAME };
        (self.file, self.old) == (other.file, other.old) && shape(self.new, is_operand) == shape(other.new, is_operand)
    }
}

/// A wrong program whose operands alone are wrong has the crate as it stands for a right one of its shape. Any other needs a right program of
/// its own, which differs from it in operands alone.
fn has_right_one(wrong: &str, right: Option<&Edit>) -> bool {
    let right = right.map(|edit| changes(&edit.text).unwrap_or_default()).unwrap_or_default();
    let wrong = changes(wrong).unwrap_or_default();
    wrong.iter().all(|change| change.is_of_operands() || right.iter().any(|other| change.is_like(other)))
}

#[test]
fn an_operand_is_told_from_an_operation() {
    let is_of_operands = |(old, new)| Change { file: "src/lib.rt", old, new }.is_of_operands();
    let operands = [
        ("f(a, b)", "f(b, a)"),
        ("Reading { held, unread }", "Reading { held: unread, unread: 0 }"),
        ("let goal = header.goal;", "let goal: u64 = 0;"),
        ("refuse(Reason::ListFull, n)", "refuse(Reason::NoWay, n)"),
        ("a.len() == b.len()", "a.len() == a.len()"),
        ("put(b\"refused\", x[i])", "put(b\"stopped\", x[1])"),
        ("b'a' + d", "b'A' + d"),
        ("&mut buf[done..]", "&mut buf[0..]"),
    ];
    let operations = [
        ("f(a, b)", "g(a, b)"),
        ("f(a)", "a"),
        ("a < b", "a <= b"),
        ("a | b", "a & b"),
        ("!a", "a"),
        ("x as u8", "x as u16"),
        ("[n, place as u64, 0]", "[n, 0, place as u64]"),
        ("s.len()", "s.first()"),
        ("if a", "while a"),
    ];
    assert_eq!(operands.into_iter().find(|&pair| !is_of_operands(pair)), None);
    assert_eq!(operations.into_iter().find(|&pair| is_of_operands(pair)), None);
    let definition = |old, new| Change { file: "specs/Lib.antt", old, new };
    assert!(definition("f 10 (Running 3)", "f 11 (Unsettled 8)").is_of_operands());
    assert!(!definition("f x y", "f y x").is_of_operands());
    assert!(definition("f x", "let a = g x in a").is_like(&definition("f x", "let b = g x in b")));
}

#[test]
fn every_wrong_program_has_a_right_one_of_its_shape() {
    let right = right_edits();
    let found = |name: &str| right.iter().find(|edit| edit.name == name);
    let alone = gate_edits().into_iter().filter(|edit| !has_right_one(&edit.text, found(&edit.name)));
    let alone: Vec<String> = alone.map(|edit| edit.name).collect();
    assert!(alone.is_empty(), "{}", alone.join("\n"));
}

#[test]
fn every_right_program_is_named_after_a_wrong_one() {
    let gate: Vec<String> = gate_edits().into_iter().map(|edit| edit.name).collect();
    let lost = right_edits().into_iter().map(|edit| edit.name).filter(|name| !gate.contains(name));
    assert_eq!(lost.collect::<Vec<String>>(), Vec::<String>::new());
}
