//! Has the definitions computed on random lists: a crate `computed` states, for each list, that checks 1 to 8, D and
//! `bipartite_edge_color` come to what the Rust answers just now, each by `refl`; and `rt check` decides.
//!
//! The crate stands beside copies of those modules of the definitions that it needs, without code and proofs, which computing
//! doesn't ask for. Of the code only the structs and enums come along that these modules name. All of it is written where the
//! system has its temporary files, since `rt ci` wants no second crates.txt below the repository's root.

use crate::answer::{self, Answer};
use crate::format::write_list;
use crate::list::{List, Refusal};
use crate::lists::Lists;
use crate::reference;
use std::collections::{BTreeMap, BTreeSet};
use std::fmt::Write;
use std::path::{Path, PathBuf};
use std::process::Command;
use std::time::Instant;
use std::{env, fs, io};

/// Larger lists take too long to compute.
const MOST_COMPUTED_APPOINTMENTS: usize = 60;
const MOST_COMPUTED_PARTIES: usize = 40;
const ROWS_IN_A_MODULE: usize = 24;
const FOLDER: &str = "bimtsure-definitions";
/// How the modules are called that `rt` makes of a crate's structs and enums.
const DECLARED: &str = "declared.";

/// The modules that the rows cite, as crate and module.
const CITED: [(&str, &str); 4] =
    [("appointments", "Appointments"), ("appointments", "Checks"), ("planning", "Planning"), ("planning", "Computing")];

const HEADER: &str = "\
use Rattle.std.specs.Prelude.{ℕ, ◌≡◌, refl, List, [], ◌∷◌}
use Rattle.appointments.specs.Appointments.{appts, largest_load}
use Rattle.appointments.specs.Checks.{Check, passed, refused, checks}
use Rattle.planning.specs.Planning.{Outcome, plan, graph_not_bipartite, bipartite_edge_color}
use Rattle.planning.specs.Computing.{computing}
";

/// A list, what it must come to, and whether the Rust panics on it.
struct Row {
    list: List,
    answer: Answer,
    panicked: bool,
}

/// Writes the crate and checks it. An error says which lists differ.
pub fn check(count: usize, seed: u64) -> Result<(), String> {
    reference::silence_panics();
    let rows = choose(count, seed);
    let place = env::temp_dir().join(FOLDER);
    write_repository(&place, &rows).map_err(|error| format!("{} can't be written: {error}", place.display()))?;
    println!("{}", summary(&rows));
    let begun = Instant::now();
    let computed = place.join("crates/computed");
    let run = Command::new("rt").arg("check").current_dir(&computed).output();
    let run = run.map_err(|error| format!("rt can't be run: {error}"))?;
    let said = String::from_utf8_lossy(&run.stdout) + String::from_utf8_lossy(&run.stderr);
    let seconds = begun.elapsed().as_secs();
    if run.status.success() {
        println!("the definitions compute to the Rust's answer on all of them ({seconds} s)");
        return Ok(());
    }
    let named = |number: usize| said.contains(&format!("`row_{number}`"));
    let differing: Vec<&Row> = (0..rows.len()).filter(|&number| named(number)).map(|number| &rows[number]).collect();
    if differing.is_empty() {
        return Err(format!("the check failed:\n{said}"));
    }
    let mut message =
        format!("{} differ ({seconds} s; `rt check` in {} says more):", differing.len(), computed.display());
    for row in differing {
        write!(message, "\n{}\n    the Rust: {}", write_list(&row.list), row.answer.text())
            .expect("a string can be written to");
    }
    Err(message)
}

/// An eighth with few parties and an odd D of 11 or more, a sixteenth near the Rust's panics, the others of every kind.
fn choose(count: usize, seed: u64) -> Vec<Row> {
    let mut lists = Lists::new(seed, MOST_COMPUTED_APPOINTMENTS, MOST_COMPUTED_PARTIES);
    (0..count)
        .map(|at| {
            let list = match at % 16 {
                3 | 11 => loop {
                    let list = lists.busy();
                    let largest_load = list.largest_load();
                    if largest_load >= 11 && largest_load % 2 == 1 {
                        break list;
                    }
                },
                7 => lists.near_a_panic(),
                _ => lists.any(),
            };
            Row::answered_by_the_rust(list)
        })
        .collect()
}

impl Row {
    /// Where the Rust panics, the answer is that of the Rust with document 01's second search.
    fn answered_by_the_rust(list: List) -> Row {
        let (answer, panicked) = answer::by_the_rust(&list);
        let second = answer::by(reference::with_second_search, &list);
        assert!(second.as_ref() == Some(&answer), "the second search changes an answer: {}", write_list(&list));
        Row { list, answer, panicked }
    }

    /// D, if the list is planned.
    fn degree(&self) -> Option<usize> {
        match self.answer {
            Answer::Planned { largest_load, .. } => Some(largest_load),
            Answer::Refused(_) => None,
        }
    }

    /// The number of the refusal, or 0 for a plan.
    fn refused_by(&self) -> u8 {
        match self.answer {
            Answer::Planned { .. } => 0,
            Answer::Refused(Refusal { number, .. }) => number,
        }
    }

    /// The row as a statement, with buffers exactly as long as needed.
    fn statement(&self, number: usize) -> String {
        let parties = self.list.parties;
        let ends = numerals(&self.list.ends);
        let checks = format!("checks {parties} list_{number} {} {}", self.list.count(), self.list.scratch_words());
        let passed = |outcome: &str| {
            let facts = format!(
                "({checks} ≡ passed)\n  \
                 × (largest_load {parties} (appts list_{number}) ≡ {})\n  \
                 × (bipartite_edge_color {parties} (appts list_{number}) ≡ {outcome})",
                self.list.largest_load()
            );
            (facts, "(refl, refl, refl)")
        };
        let (facts, proof) = match &self.answer {
            Answer::Planned { slots, .. } => passed(&format!("plan ({})", numerals(slots))),
            Answer::Refused(Refusal { number: 9, .. }) => passed("graph_not_bipartite"),
            Answer::Refused(Refusal { number, place }) => (format!("{checks} ≡ refused {number} {place}"), "refl"),
        };
        format!(
            "\nabbrev list_{number} : List ℕ\nlist_{number} = {ends}\n\n\
             row_{number} :\n  {facts}\nunfolding computing\nrow_{number} = {proof}\n"
        )
    }
}

fn numerals(numbers: &[u16]) -> String {
    numbers.iter().map(|number| format!("{number} ∷ ")).collect::<String>() + "[]"
}

type Trait = (&'static str, fn(&Row) -> bool);

/// What is worth having among the lists, and which lists have it.
const TRAITS: [Trait; 9] = [
    ("planned", |row| row.degree().is_some()),
    ("with a D of 11 or more", |row| row.degree().is_some_and(|degree| degree >= 11)),
    ("with an odd D of 11 or more", |row| row.degree().is_some_and(|degree| degree >= 11 && degree % 2 == 1)),
    ("by the second search, where the Rust panics", |row| row.panicked),
    ("with a pair that comes again", |row| {
        row.degree().is_some() && comes_again(&row.list, |a, b| a == b || a == (b.1, b.0))
    }),
    ("with a pair both ways round", |row| row.degree().is_some() && comes_again(&row.list, |a, b| a == (b.1, b.0))),
    ("in several parts", |row| row.degree().is_some() && in_several_parts(&row.list)),
    ("refused by 9", |row| row.refused_by() == 9),
    ("refused by checks 1 to 6", |row| (1..=6).contains(&row.refused_by())),
];

fn comes_again(list: &List, same: fn((u16, u16), (u16, u16)) -> bool) -> bool {
    let appointments: Vec<(u16, u16)> = list.appointments().collect();
    appointments.iter().enumerate().any(|(at, &a)| appointments[..at].iter().any(|&b| same(a, b)))
}

/// Some appointment isn't joined to the first one.
fn in_several_parts(list: &List) -> bool {
    let appointments: Vec<(u16, u16)> = list.appointments().collect();
    let Some(&(start, _)) = appointments.first() else { return false };
    let mut reached = BTreeSet::from([start]);
    loop {
        let before = reached.len();
        for &(a, b) in &appointments {
            if reached.contains(&a) || reached.contains(&b) {
                reached.extend([a, b]);
            }
        }
        if reached.len() == before {
            return appointments.iter().any(|(a, _)| !reached.contains(a));
        }
    }
}

fn summary(rows: &[Row]) -> String {
    let longest = rows.iter().map(|row| row.list.count()).max().unwrap_or(0);
    let counts = TRAITS.map(|(name, has)| format!("\n{:6} {name}", rows.iter().filter(|row| has(row)).count()));
    format!("{} lists of up to {longest} appointments, of which{}", rows.len(), counts.concat())
}

fn write_repository(place: &Path, rows: &[Row]) -> io::Result<()> {
    if place.exists() {
        fs::remove_dir_all(place)?;
    }
    let modules = copy_definitions(place)?;
    let computed: Vec<String> = rows
        .chunks(ROWS_IN_A_MODULE)
        .enumerate()
        .map(|(module, part)| {
            let first = module * ROWS_IN_A_MODULE;
            let statements = part.iter().enumerate().map(|(at, row)| row.statement(first + at));
            HEADER.to_string() + &statements.collect::<String>()
        })
        .collect();
    let specs = crate_folder(place, "computed")?;
    for (module, text) in computed.iter().enumerate() {
        fs::write(specs.join(format!("Rows{module}.antt")), text)?;
    }
    let names = (0..computed.len()).map(|module| format!("Rows{module}"));
    fs::write(specs.join("Lib.antt"), declarations(names))?;

    let mut lines = crate_lines(&modules)?;
    let all: Vec<&str> = modules.keys().map(String::as_str).collect();
    writeln!(lines, "computed: {}", all.join(" ")).expect("a string can be written to");
    fs::write(place.join("crates.txt"), lines)
}

/// An empty crate's folder, and the folder of its definitions.
fn crate_folder(place: &Path, name: &str) -> io::Result<PathBuf> {
    let folder = place.join("crates").join(name);
    fs::create_dir_all(folder.join("src"))?;
    fs::create_dir_all(folder.join("specs"))?;
    fs::write(folder.join("src/lib.rt"), "// Definitions alone.\n")?;
    Ok(folder.join("specs"))
}

fn declarations(modules: impl Iterator<Item = String>) -> String {
    modules.map(|module| format!("pub mod {module}\n")).collect()
}

/// Copies the cited modules and all that they lean on: the modules of each crate.
fn copy_definitions(place: &Path) -> io::Result<BTreeMap<String, BTreeSet<String>>> {
    let mut copied: BTreeMap<String, BTreeSet<String>> = BTreeMap::new();
    let mut declared: BTreeSet<(String, String)> = BTreeSet::new();
    let mut waiting: Vec<(String, String)> = CITED.map(|(owner, module)| (owner.into(), module.into())).into();
    while let Some((owner, module)) = waiting.pop() {
        if let Some(name) = module.strip_prefix(DECLARED) {
            declared.insert((owner, name.to_string()));
            continue;
        }
        if !copied.entry(owner.clone()).or_default().insert(module.clone()) {
            continue;
        }
        let from = Path::new("crates").join(&owner).join("specs").join(format!("{module}.antt"));
        let text =
            fs::read_to_string(&from).map_err(|error| io::Error::other(format!("{}: {error}", from.display())))?;
        fs::write(crate_folder(place, &owner)?.join(format!("{module}.antt")), &text)?;
        waiting
            .extend(text.lines().filter_map(used_module).filter(|(owner, _)| Path::new("crates").join(owner).exists()));
    }
    for (owner, modules) in &copied {
        fs::write(crate_folder(place, owner)?.join("Lib.antt"), declarations(modules.iter().cloned()))?;
    }
    for (owner, path) in &declared {
        let (module, name) = path.split_once('.').unwrap_or(("lib", path));
        let folder = Path::new("crates").join(owner).join("src");
        let source = folder.join(format!("{module}.rt"));
        let text = declaration(&fs::read_to_string(&source)?, name)
            .ok_or_else(|| io::Error::other(format!("{} declares no {name}", source.display())))?;
        if !place.join(&source).exists() {
            append(&place.join(&folder).join("lib.rt"), &format!("mod {module};\n"))?;
        }
        append(&place.join(&source), &text)?;
    }
    Ok(copied)
}

fn append(file: &Path, text: &str) -> io::Result<()> {
    let mut file = fs::OpenOptions::new().create(true).append(true).open(file)?;
    io::Write::write_all(&mut file, text.as_bytes())
}

/// The text of a struct or enum, from its first line to the brace that ends it.
fn declaration(source: &str, name: &str) -> Option<String> {
    let heads = [format!("pub struct {name} {{"), format!("pub enum {name} {{")];
    let from = source.lines().position(|line| heads.iter().any(|head| line == head))?;
    let body = source.lines().skip(from).take_while(|line| *line != "}");
    Some(body.chain(["}"]).map(|line| format!("{line}\n")).collect())
}

/// The crate and the module that a line `use Rattle.NAME.specs.MODULE..` names; the crate may be one of the kit's. For a struct or
/// enum of the code the module is `declared.NAME`, or `declared.MODULE.NAME` if it stands in src/MODULE.rt.
fn used_module(line: &str) -> Option<(String, String)> {
    let (owner, rest) = line.strip_prefix("use Rattle.")?.split_once(".specs.")?;
    let word = |text: &str| text.chars().take_while(|c| c.is_alphanumeric() || *c == '_').collect::<String>();
    let module = match rest.strip_prefix(DECLARED) {
        // a module begins with a small letter, and `.TheVariants` can follow the name
        Some(path) => {
            let modules = path.split('.').take_while(|part| part.starts_with(char::is_lowercase)).count();
            let parts: Vec<String> = path.split('.').take(modules + 1).map(word).collect();
            DECLARED.to_string() + &parts.join(".")
        }
        None => word(rest),
    };
    Some((owner.to_string(), module))
}

/// The lines of crates.txt for the copied crates, with those of their dependencies that are copied too.
fn crate_lines(copied: &BTreeMap<String, BTreeSet<String>>) -> io::Result<String> {
    let mut lines = String::new();
    for line in fs::read_to_string("crates.txt")?.lines() {
        let Some((name, needs)) = line.split_once(':') else { continue };
        if copied.contains_key(name) {
            let needs: Vec<&str> = needs.split_whitespace().filter(|need| copied.contains_key(*need)).collect();
            writeln!(lines, "{name}: {}", needs.join(" ")).expect("a string can be written to");
        }
    }
    Ok(lines)
}

#[cfg(test)]
mod tests {
    use super::*;

    #[test]
    fn used_modules_are_found() {
        let used = |line: &str| used_module(line).map(|(owner, module)| format!("{owner} {module}"));
        let is = |line: &str, wanted: &str| assert_eq!(used(line).as_deref(), Some(wanted));
        is("use Rattle.planning.specs.Planning.{Outcome, plan}", "planning Planning");
        is("use Rattle.euler.specs.Model as M", "euler Model");
        is("use Rattle.std.specs.Prelude.{ℕ, ◌≡◌}", "std Prelude");
        is("use Rattle.matching.specs.declared.Table.{Table}", "matching declared.Table");
        is("use Rattle.two_color.specs.declared.TwoColoring.TheVariants.{Sides}", "two_color declared.TwoColoring");
        is("use Rattle.list_pairs.specs.declared.rows.RowBases.{RowBases}", "list_pairs declared.rows.RowBases");
        is("use Rattle.filing.specs.declared.Read.TheVariants as read", "filing declared.Read");
        assert_eq!(used("use mathlib.Core.List.{List}"), None);
    }
}
