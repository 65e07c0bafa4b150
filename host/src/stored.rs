//! Prints a sample of the Rust's answers, one list to a line, fit to be stored: `P first-second .. = planned D s0 s1 ..` or
//! `P first-second .. = refused N PLACE`. What follows a `#` is a remark.

use crate::answer;
use crate::format::write_list;
use crate::known;
use crate::list::List;
use crate::lists::Lists;
use crate::reference;
use std::io::{self, Write};

/// The small lists that papers name, then COUNT random ones of at most that many appointments and, from 16 on, parties.
pub fn print(count: usize, seed: u64, most: usize) -> Result<(), String> {
    reference::silence_panics();
    let mut out = io::BufWriter::new(io::stdout().lock());
    let mut print_line = |list: &List, remark: &str| {
        let (answer, panicked) = answer::by_the_rust(list);
        let second = if panicked { " # by the second search: the Rust panics" } else { "" };
        writeln!(out, "{} = {}{second}{remark}", write_list(list), answer.text()).map_err(|error| error.to_string())
    };
    for known in known::small() {
        print_line(&known.list, &format!(" # {}", known.paper))?;
    }
    let mut lists = Lists::new(seed, most, most);
    for _ in 0..count {
        print_line(&lists.mixed(), "")?;
    }
    out.flush().map_err(|error| error.to_string())
}
