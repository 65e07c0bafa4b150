//! Holds the declarations of the exported calls against each other, for each library: the header, the Rust module, the crate that
//! exports them, and the Python module. Names, parameters and the answer's fields, with their types and in order, since no compiler
//! sees two of these texts together. Each text is read by the few lines below; then each is changed in a copy, and the change must
//! be seen.

use std::collections::{BTreeMap, BTreeSet};
use std::fs;
use std::ops::{Range, RangeInclusive};
use std::path::{Path, PathBuf};
use std::process::Command;

#[derive(Clone, Copy, Debug, PartialEq, Eq)]
enum Language {
    C,
    Rust,
    Rattle,
    Python,
}

const ALL: [Language; 4] = [Language::C, Language::Rust, Language::Rattle, Language::Python];

/// A library that callers link or load, its texts, and what must be found in them, so that none is read as if it were empty.
struct Library {
    file: &'static str,
    /// By their paths from the repository's root, in the languages' order. The others are held against the first.
    texts: [&'static str; 4],
    calls: &'static [&'static str],
    /// Whether a call is lent a slice that it only reads.
    reads_slices: bool,
    constants: &'static [&'static str],
    /// The header's enum, and all the numbers that it holds.
    numbers: (&'static str, RangeInclusive<u32>),
}

const LIBRARIES: [Library; 2] = [
    Library {
        file: "target/staticlib/libbimtsure.so",
        texts: [
            "host/include/bimtsure.h",
            "host/src/bimtsure.rs",
            "crates/bimtsure_c/src/lib.rt",
            "host/python/bimtsure.py",
        ],
        calls: &["bimtsure_plan"],
        reads_slices: true,
        constants: &["BLANK", "MOST_PARTIES", "MOST_APPOINTMENTS", "MOST_CELLS", "SCRATCH_WORDS", "MOST_ASKED"],
        numbers: ("bimtsure_number", 0..=15),
    },
    Library {
        file: "target/staticlib/libbimtsure_calendar.so",
        texts: [
            "host/include/bimtsure_calendar.h",
            "host/src/bimtsure_calendar.rs",
            "crates/calendar_c/src/lib.rt",
            "host/python/bimtsure_calendar.py",
        ],
        calls: &["bimtsure_clock", "bimtsure_slot"],
        reads_slices: false,
        constants: &["SLOTS_A_DAY", "LAST_SLOT", "LAST_DAY"],
        numbers: ("bimtsure_calendar_number", 23..=24),
    },
];

impl Library {
    fn path(&self, language: Language) -> &'static str {
        self.texts[language as usize]
    }

    fn text(&self, language: Language) -> String {
        let path = self.path(language);
        fs::read_to_string(root().join(path)).unwrap_or_else(|error| panic!("{path}: {error}"))
    }

    fn read(&self, language: Language) -> Calls {
        read(language, &self.text(language))
    }
}

/// What every exported name begins with.
const PREFIX: &str = "bimtsure_";

/// A parameter or a field, its type in Rust's words, and where it stands in its text.
#[derive(Clone, Debug)]
struct Named {
    name: String,
    kind: String,
    at: Range<usize>,
}

#[derive(Clone, Debug)]
struct Call {
    parameters: Vec<Named>,
    fields: Vec<Named>,
    at: Range<usize>,
}

type Calls = BTreeMap<String, Call>;

#[test]
fn the_texts_agree() {
    for library in &LIBRARIES {
        let header = library.read(Language::C);
        for call in library.calls {
            assert!(header.contains_key(*call), "{} declares {:?}", library.path(Language::C), header.keys());
        }
        for &language in &ALL[1..] {
            if let Some(difference) = difference(&header, &library.read(language)) {
                panic!("{} and {}: {difference}", library.path(Language::C), library.path(language));
            }
        }
    }
}

#[test]
fn two_fields_exchanged_are_seen() {
    change(&LIBRARIES, &ALL, |_, text, calls| exchanges(text, calls.values().map(|call| &call.fields)));
}

#[test]
fn two_parameters_exchanged_are_seen() {
    change(&LIBRARIES, &ALL, |_, text, calls| exchanges(text, calls.values().map(|call| &call.parameters)));
}

#[test]
fn a_dropped_call_is_seen() {
    change(&LIBRARIES, &ALL, |_, text, calls| calls.values().map(|call| replaced(text, call.at.clone(), "")).collect());
}

#[test]
fn a_dropped_field_or_parameter_is_seen() {
    change(&LIBRARIES, &ALL, |_, text, calls| {
        let named = calls.values().flat_map(|call| call.fields.iter().chain(&call.parameters));
        // what parts it from the next one goes too, if there is one
        let end = |named: &Named| named.at.end + usize::from(text[named.at.end..].starts_with([',', ';']));
        named.map(|named| replaced(text, named.at.start..end(named), "")).collect()
    });
}

#[test]
fn another_width_is_seen() {
    change(&LIBRARIES, &ALL, |_, text, calls| {
        let named = calls.values().flat_map(|call| call.fields.iter().chain(&call.parameters));
        let other =
            |was: &str| [("16", "32"), ("32", "8"), ("8", "16")].iter().find(|(old, _)| was.contains(old)).copied();
        let changed = |at: &Range<usize>| other(&text[at.clone()]).map(|(old, new)| text[at.clone()].replace(old, new));
        named.filter_map(|named| changed(&named.at).map(|new| replaced(text, named.at.clone(), &new))).collect()
    });
}

#[test]
fn a_slice_that_would_be_written_is_seen() {
    let reads = |named: &&Named| named.kind.starts_with("*const");
    for library in &LIBRARIES {
        let header = library.read(Language::C);
        let any = header.values().flat_map(|call| &call.parameters).any(|named| reads(&named));
        assert_eq!(any, library.reads_slices, "{}", library.path(Language::C));
    }
    // Python's pointers don't say it
    change(LIBRARIES.iter().filter(|library| library.reads_slices), &ALL[..3], |language, text, calls| {
        let (old, new) = match language {
            Language::C => ("const ", ""),
            Language::Rust => ("*const", "*mut"),
            _ => ("[", "mut ["),
        };
        let named = calls.values().flat_map(|call| &call.parameters).filter(reads);
        named.map(|named| replaced(text, named.at.clone(), &text[named.at.clone()].replace(old, new))).collect()
    });
}

#[test]
fn constants_agree() {
    for library in &LIBRARIES {
        let header = constants(Language::C, &library.text(Language::C));
        for name in library.constants {
            assert!(header.contains_key(*name), "{} has no {name}", library.path(Language::C));
        }
        for language in [Language::Rust, Language::Python] {
            assert_eq!(constants(language, &library.text(language)), header, "{}", library.path(language));
        }
    }
}

/// Each enum counts on, so that no number is left out or given twice.
#[test]
fn the_headers_numbers_count_on() {
    for library in &LIBRARIES {
        let (name, numbers) = &library.numbers;
        let text = without_comments(Language::C, &library.text(Language::C));
        let tokens = tokens(&text);
        let open = find(&tokens, &["enum", name, "{"]).expect("the header has the numbers") + 2;
        let (items, _) = items(&tokens, open);
        let values: Vec<&str> = items.iter().map(|item| item.last().expect("an item has a value").text).collect();
        let counted: Vec<String> = numbers.clone().map(|number| number.to_string()).collect();
        assert_eq!(values, counted, "{name}");
    }
}

#[test]
fn the_libraries_export_the_headers_names() {
    for library in &LIBRARIES {
        let file = root().join(library.file);
        assert!(file.exists(), "{} is missing: host/library writes it", file.display());
        let said = Command::new("nm").args(["--dynamic", "--defined-only"]).arg(&file).output().expect("nm can be run");
        assert!(said.status.success(), "{}", String::from_utf8_lossy(&said.stderr));
        let said = String::from_utf8(said.stdout).expect("nm writes text");
        let names = said.lines().filter_map(|line| line.split(' ').last());
        let exported: BTreeSet<String> = names.map(String::from).collect();
        let declared: BTreeSet<String> = library.read(Language::C).into_keys().collect();
        assert_eq!(exported, declared, "{}", library.file);
    }
}

fn root() -> PathBuf {
    Path::new(env!("CARGO_MANIFEST_DIR")).join("..")
}

/// Has the libraries' texts in these languages changed in some ways, and asserts that each changed copy no longer agrees with
/// another text of its library.
fn change<'a>(
    libraries: impl IntoIterator<Item = &'a Library>,
    languages: &[Language],
    changes: impl Fn(Language, &str, &Calls) -> Vec<String>,
) {
    for library in libraries {
        for &language in languages {
            let (text, path) = (library.text(language), library.path(language));
            let other = library.read(if language == Language::C { Language::Rust } else { Language::C });
            let copies = changes(language, &text, &read(language, &text));
            assert!(!copies.is_empty(), "{path}: nothing was changed");
            for copy in copies {
                assert!(copy != text, "{path}: nothing was changed");
                let changed = copy.lines().zip(text.lines()).find(|(new, old)| new != old);
                assert!(difference(&other, &read(language, &copy)).is_some(), "{path}: not seen: {changed:?}");
            }
        }
    }
}

/// A copy for every two neighbours, in which these have changed places.
fn exchanges<'a>(text: &str, lists: impl Iterator<Item = &'a Vec<Named>>) -> Vec<String> {
    // a slice of Rattle is two at one place
    let pairs = lists.flat_map(|list| list.windows(2)).filter(|pair| pair[0].at != pair[1].at);
    pairs
        .map(|pair| {
            let (first, second) = (&text[pair[0].at.clone()], &text[pair[1].at.clone()]);
            replaced(&replaced(text, pair[1].at.clone(), first), pair[0].at.clone(), second)
        })
        .collect()
}

fn replaced(text: &str, at: Range<usize>, new: &str) -> String {
    format!("{}{new}{}", &text[..at.start], &text[at.end..])
}

/// The first difference, in words.
fn difference(header: &Calls, other: &Calls) -> Option<String> {
    let names = |calls: &Calls| calls.keys().cloned().collect::<Vec<String>>();
    if names(header) != names(other) {
        return Some(format!("the calls are {:?} and {:?}", names(header), names(other)));
    }
    // Python's pointers don't say who writes
    let pointers_say =
        |calls: &Calls| !calls.values().flat_map(|call| &call.parameters).any(|named| named.kind.starts_with("*u"));
    let says = pointers_say(header) && pointers_say(other);
    let words = |list: &[Named]| -> Vec<String> {
        let kind = |named: &Named| {
            if says {
                named.kind.clone()
            } else {
                named.kind.replace("const ", "").replace("mut ", "")
            }
        };
        list.iter().map(|named| format!("{}: {}", named.name, kind(named))).collect()
    };
    header.iter().find_map(|(name, call)| {
        let both = [(&call.parameters, &other[name].parameters), (&call.fields, &other[name].fields)];
        let (ours, theirs) = both.into_iter().map(|(a, b)| (words(a), words(b))).find(|(a, b)| a != b)?;
        Some(format!("{name}: {ours:?} and {theirs:?}"))
    })
}

/// The calls that a text declares. Answers are found by the name of their struct, which is each text's own.
fn read(language: Language, text: &str) -> Calls {
    let text = without_comments(language, text);
    let tokens = tokens(&text);
    let structs = structs(language, &tokens);
    let mut calls = Calls::new();
    for at in 0..tokens.len() {
        let Some((first, name, open)) = call_at(language, &tokens, at) else { continue };
        let (parameters, close) = items(&tokens, open);
        let parameters = parameters.iter().flat_map(|item| named(language, item)).collect();
        let (answer, last) = match language {
            Language::C => (tokens[at + 1].text, close),
            Language::Rust | Language::Rattle => {
                assert_eq!([tokens[close + 1].text, tokens[close + 2].text], ["-", ">"], "{name} has no answer");
                (tokens[close + 3].text, close + 3)
            }
            Language::Python => (tokens[at + 5].text, close + 1),
        };
        let fields = structs.get(answer).cloned().unwrap_or_default();
        let at = tokens[first].at.start..tokens[last].at.end;
        let before = calls.insert(name.to_string(), Call { parameters, fields, at });
        assert!(before.is_none(), "{name} is declared twice");
    }
    calls
}

/// Where a declaration begins at this token: its first token, the call's name, and the bracket that opens the parameters.
fn call_at<'a>(language: Language, tokens: &[Token<'a>], at: usize) -> Option<(usize, &'a str, usize)> {
    let word = |ahead: usize| tokens.get(at + ahead).map_or("", |token| token.text);
    let name = match language {
        Language::C if word(0) == "struct" && word(3) == "(" => word(2),
        Language::Rust | Language::Rattle if word(0) == "fn" => word(1),
        // "name": (Answer, [..
        Language::Python if word(0) == "\"" && word(2) == "\"" && word(3) == ":" && word(7) == "[" => word(1),
        _ => return None,
    };
    let open = match language {
        Language::C => at + 3,
        Language::Rust | Language::Rattle => at + tokens[at..].iter().position(|token| token.text == "(")?,
        Language::Python => at + 7,
    };
    name.starts_with(PREFIX).then_some((at, name, open))
}

/// The structs with C's layout, and their fields.
fn structs<'a>(language: Language, tokens: &[Token<'a>]) -> BTreeMap<&'a str, Vec<Named>> {
    let mut structs = BTreeMap::new();
    for at in 0..tokens.len() {
        let word = |ahead: usize| tokens.get(at + ahead).map_or("", |token| token.text);
        let (name, open) = match language {
            Language::C | Language::Rust | Language::Rattle if word(0) == "struct" && word(2) == "{" => {
                (word(1), at + 2)
            }
            // class Name(Structure): _fields_ = [
            Language::Python if word(0) == "class" && word(3) == "Structure" && word(8) == "[" => (word(1), at + 8),
            _ => continue,
        };
        if matches!(language, Language::Rust | Language::Rattle) {
            let from =
                tokens[..at].iter().rposition(|token| [";", "}"].contains(&token.text)).map_or(0, |before| before + 1);
            if find(&tokens[from..at], &["#", "[", "repr", "(", "C", ")", "]"]).is_none() {
                continue;
            }
        }
        let (fields, _) = items(tokens, open);
        structs.insert(name, fields.iter().flat_map(|item| named(language, item)).collect());
    }
    structs
}

/// One parameter or field; but two for a slice of Rattle, which passes as its address and its number of entries.
fn named(language: Language, item: &[Token]) -> Vec<Named> {
    let words: Vec<&str> = item.iter().map(|token| token.text).collect();
    let at = item[0].at.start..item[item.len() - 1].at.end;
    let (name, kind) = match (language, words.as_slice()) {
        (Language::C, [kind @ .., name]) => (*name, c_kind(kind)),
        (Language::Rust, ["pub", name, ":", kind @ ..] | [name, ":", kind @ ..]) => (*name, rust_kind(kind)),
        (Language::Rattle, ["pub", name, ":", kind @ ..] | [name, ":", kind @ ..]) => (*name, rattle_kind(kind)),
        (Language::Python, ["(", "\"", name, "\"", ",", kind @ .., ")"]) => (*name, python_kind(kind)),
        _ => panic!("{language:?}: {words:?} is no parameter and no field"),
    };
    let own = Named { name: name.to_string(), kind, at: at.clone() };
    if language == Language::Rattle && own.kind.starts_with('*') {
        return vec![own, Named { name: format!("{name}_len"), kind: "usize".to_string(), at }];
    }
    vec![own]
}

fn c_kind(words: &[&str]) -> String {
    match words {
        ["const", kind, "*"] => format!("*const {}", c_kind(&[kind])),
        [kind, "*"] => format!("*mut {}", c_kind(&[kind])),
        ["size_t"] => "usize".to_string(),
        [kind] if kind.starts_with("uint") && kind.ends_with("_t") => kind.replace("uint", "u").replace("_t", ""),
        _ => format!("unknown {words:?}"),
    }
}

fn rust_kind(words: &[&str]) -> String {
    match words {
        ["*", who, kind] => format!("*{who} {kind}"),
        _ => words.concat(),
    }
}

fn rattle_kind(words: &[&str]) -> String {
    match words {
        ["&", "[", kind, "]"] | ["&", "'", _, "[", kind, "]"] => format!("*const {kind}"),
        ["&", "mut", "[", kind, "]"] | ["&", "'", _, "mut", "[", kind, "]"] => format!("*mut {kind}"),
        _ => words.concat(),
    }
}

fn python_kind(words: &[&str]) -> String {
    match words {
        ["POINTER", "(", kind, ")"] => format!("*{}", python_kind(&[kind])),
        ["c_size_t"] => "usize".to_string(),
        [kind] => kind.replace("c_uint", "u"),
        _ => format!("unknown {words:?}"),
    }
}

/// The constants by their names, without the header's prefix.
fn constants(language: Language, text: &str) -> BTreeMap<String, String> {
    let lines = text.lines().filter_map(|line| match language {
        Language::C => line.strip_prefix("#define BIMTSURE_")?.split_once(' '),
        Language::Rust => {
            let (name, rest) = line.strip_prefix("pub const ")?.split_once(": ")?;
            Some((name, rest.split_once(" = ")?.1.trim_end_matches(';')))
        }
        _ => line
            .split_once(" = ")
            .filter(|(name, _)| name.chars().all(|letter| letter.is_ascii_uppercase() || letter == '_')),
    });
    let numbers = lines.filter(|(_, value)| value.chars().all(|digit| digit.is_ascii_digit()));
    numbers.map(|(name, value)| (name.to_string(), value.to_string())).collect()
}

struct Token<'a> {
    text: &'a str,
    at: Range<usize>,
}

/// Words, and every other sign by itself.
fn tokens(text: &str) -> Vec<Token<'_>> {
    let of_a_word = |sign: char| sign.is_ascii_alphanumeric() || sign == '_';
    let mut tokens = Vec::new();
    let mut from = 0;
    while let Some(sign) = text[from..].chars().next() {
        let word = text[from..].find(|sign| !of_a_word(sign)).unwrap_or(text.len() - from);
        let length = if word > 0 { word } else { sign.len_utf8() };
        if !sign.is_whitespace() {
            tokens.push(Token { text: &text[from..from + length], at: from..from + length });
        }
        from += length;
    }
    tokens
}

fn find(tokens: &[Token], wanted: &[&str]) -> Option<usize> {
    tokens.windows(wanted.len()).position(|window| window.iter().map(|token| token.text).eq(wanted.iter().copied()))
}

/// What stands between a bracket and the one that closes it, parted at commas and semicolons; and where that one is.
fn items<'t, 'a>(tokens: &'t [Token<'a>], open: usize) -> (Vec<&'t [Token<'a>]>, usize) {
    let (mut items, mut from, mut depth) = (Vec::new(), open + 1, 0);
    for at in open..tokens.len() {
        let sign = tokens[at].text;
        depth += i32::from(["(", "[", "{"].contains(&sign)) - i32::from([")", "]", "}"].contains(&sign));
        if depth == 0 || (depth == 1 && [",", ";"].contains(&sign)) {
            if from < at {
                items.push(&tokens[from..at]);
            }
            from = at + 1;
        }
        if depth == 0 {
            return (items, at);
        }
    }
    panic!("a bracket isn't closed");
}

/// The text with spaces for its comments, and for the preprocessor's lines, so that places stay.
fn without_comments(language: Language, text: &str) -> String {
    let pairs: &[(&str, &str)] = match language {
        Language::C => &[("/*", "*/"), ("//", "\n"), ("\n#", "\n")],
        Language::Rust | Language::Rattle => &[("//", "\n")],
        Language::Python => &[("\"\"\"", "\"\"\""), ("#", "\n")],
    };
    let mut text = text.to_string();
    let mut from = 0;
    loop {
        let next = pairs.iter().filter_map(|pair| Some((from + text[from..].find(pair.0)?, pair)));
        let Some((at, (open, close))) = next.min_by_key(|(at, _)| *at) else { return text };
        let inner = at + open.len();
        let end = text[inner..].find(close).map_or(text.len(), |length| inner + length + close.trim_end().len());
        text.replace_range(at..end, &" ".repeat(end - at));
        from = end;
    }
}
