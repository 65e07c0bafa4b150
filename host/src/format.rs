//! Lists and bytes as lines of text.
//!
//! A list is one line, `P first-second first-second ..`. An empty end is blank, as is 65535; a last number without a hyphen
//! is an end without a partner.

use crate::list::{List, BLANK};

pub fn read_list(line: &str) -> Result<List, String> {
    let mut words = line.split_whitespace();
    let parties = words.next().ok_or("an empty line")?;
    let parties = parties.parse().map_err(|_| format!("P is {parties}"))?;
    let mut ends = Vec::new();
    for word in words {
        for end in word.splitn(2, '-') {
            ends.push(read_end(end)?);
        }
    }
    Ok(List { parties, ends })
}

fn read_end(text: &str) -> Result<u16, String> {
    if text.is_empty() {
        return Ok(BLANK);
    }
    text.parse().map_err(|_| format!("an end is {text}"))
}

pub fn write_list(list: &List) -> String {
    let mut line = list.parties.to_string();
    for pair in list.ends.chunks(2) {
        let ends: Vec<String> = pair.iter().map(u16::to_string).collect();
        line.push(' ');
        line += &ends.join("-");
    }
    line
}

/// Two hexadecimal digits for each byte.
pub fn write_bytes(bytes: &[u8]) -> String {
    bytes.iter().map(|byte| format!("{byte:02x}")).collect()
}
