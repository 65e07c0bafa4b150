//! Makes the texts that are compiled but not stored: `two_color` cut out of coloring.rs, bipartite_coloring.rs with the second
//! search of document 01 (second-search.diff), and bipartite_coloring.rs with split-hook.rs behind it. Finds the archives of our
//! exported calls.

use std::path::{Path, PathBuf};
use std::process::Command;
use std::{env, fs};

const SOURCES: &str = "../docs/src/rustworkx-core/src";
/// Where host/archive puts what `rt lib` writes.
const ARCHIVES: &str = "../target/staticlib";
const LINKED: [&str; 3] = ["steps_c", "bimtsure_c", "calendar_c"];

/// The use lines of coloring.rs that `two_color` needs, by how they begin.
const NEEDED_USES: [&str; 4] =
    ["use std::hash::Hash;", "use crate::dictmap::*;", "use petgraph::visit::{", "use petgraph::{"];

fn main() {
    let out = PathBuf::from(env::var_os("OUT_DIR").expect("cargo sets OUT_DIR"));
    let coloring = Path::new(SOURCES).join("coloring.rs");
    let bipartite = Path::new(SOURCES).join("bipartite_coloring.rs");
    let own = ["second-search.diff", "split-hook.rs", "build.rs"].map(PathBuf::from);
    for input in [&coloring, &bipartite].into_iter().chain(&own) {
        println!("cargo:rerun-if-changed={}", input.display());
    }

    let text = fs::read_to_string(&coloring).expect("docs/src holds coloring.rs");
    fs::write(out.join("coloring.rs"), cut_two_color(&text)).expect("the build folder can be written");

    let status = Command::new("patch")
        .args(["--fuzz=0", "--quiet", "--output"])
        .arg(out.join("second_search.rs"))
        .arg(&bipartite)
        .arg("second-search.diff")
        .status()
        .expect("patch can be run");
    assert!(status.success(), "second-search.diff no longer fits bipartite_coloring.rs");

    let text = fs::read_to_string(&bipartite).expect("docs/src holds bipartite_coloring.rs");
    let hook = fs::read_to_string("split-hook.rs").expect("split-hook.rs stands beside this file");
    fs::write(out.join("split_opened.rs"), text + &hook).expect("the build folder can be written");

    link_archives();
}

/// Our crates stand at fixed paths from here, so that cargo finds what `rt` has proved and written.
fn link_archives() {
    let folder = env::current_dir().expect("cargo runs this in the package's folder").join(ARCHIVES);
    for name in LINKED {
        let archive = folder.join(format!("lib{name}.a"));
        assert!(archive.exists(), "{} is missing: host/setup has rt write it", archive.display());
        println!("cargo:rerun-if-changed={}", archive.display());
    }
    println!("cargo:rustc-link-search=native={}", folder.display());
}

/// The licence note, the needed use lines, and `two_color` with its comment; every line as it stands in the file.
fn cut_two_color(text: &str) -> String {
    let lines: Vec<&str> = text.lines().collect();
    let mut kept: Vec<&str> = lines.iter().copied().take_while(|line| line.starts_with("//")).collect();
    for needed in NEEDED_USES {
        let from = find(&lines, 0, |line| line.starts_with(needed));
        let to = find(&lines, from, |line| line.ends_with(';'));
        kept.extend(&lines[from..=to]);
    }
    let header = find(&lines, 0, |line| line.starts_with("pub fn two_color<G>"));
    let comment = (0..header).rev().take_while(|&at| lines[at].starts_with("///")).last().unwrap_or(header);
    let end = find(&lines, header, |line| line == "}");
    kept.extend(&lines[comment..=end]);
    kept.join("\n") + "\n"
}

fn find(lines: &[&str], from: usize, matches: impl Fn(&str) -> bool) -> usize {
    (from..lines.len()).find(|&at| matches(lines[at])).expect("coloring.rs holds two_color as it is known")
}
