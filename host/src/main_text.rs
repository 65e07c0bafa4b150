//! Main once more, in Rust and after document 01's text, with no line taken from the definitions or the code: from input to
//! output bytes, and what is printed of a broken input. The program is compared with this. Checks 1 to 8 are those of list.rs,
//! the slots are the Rust's, and waiting is desk.rs's (document 02's request 2), by these slots.

use crate::answer::{self, Answer};
use crate::desk;
use crate::list::{List, Refusal, BLANK};
use std::fmt::Write;

/// The most bytes of input.
pub const MOST_BYTES: usize = 4_096;
/// What main lends.
const SLOT_ENTRIES: usize = 4_096;
const SCRATCH_WORDS: usize = 16_384;
/// The most digits of a number.
const MOST_DIGITS: usize = 5;

/// What main prints, the number of its refusal or 0 for a plan, whether the plan is by the second search, and whether some party
/// waits.
pub struct Printed {
    pub text: String,
    pub number: u8,
    pub second: bool,
    pub waits: bool,
}

pub fn output(input: &[u8]) -> Printed {
    match planned(input) {
        Ok((list, Answer::Planned { largest_load, slots }, second)) => {
            let waiting: Vec<usize> =
                (0..list.parties).map(|party| desk::waiting_in_the_hall(&list, &slots, party)).collect();
            let text = plan_text(&list, largest_load, &slots, &waiting);
            Printed { text, number: 0, second, waits: waiting.iter().any(|&waiting| waiting > 0) }
        }
        Ok((_, Answer::Refused(refusal), _)) | Err(refusal) => {
            Printed { text: refusal_text(refusal), number: refusal.number, second: false, waits: false }
        }
    }
}

/// What main prints where reading fails for good behind these bytes: 11 if there are more than 4,096; else 10 with the first
/// malformed line among those that ended, or else 1 plus the number of line feeds.
pub fn broken_output(came: &[u8]) -> String {
    if came.len() > MOST_BYTES {
        return refusal_text(Refusal { number: 11, place: 0 });
    }
    let ended: Vec<&[u8]> =
        came.split_inclusive(|&byte| byte == b'\n').filter_map(|line| line.strip_suffix(b"\n")).collect();
    let well_formed = |at: usize| if at == 0 { number(ended[0]).is_some() } else { appointment(ended[at]).is_some() };
    let malformed = (0..ended.len()).find(|&at| !well_formed(at));
    refusal_text(Refusal { number: 10, place: 1 + malformed.unwrap_or(ended.len()) })
}

/// The list with its answer, and whether it is by the second search.
fn planned(input: &[u8]) -> Result<(List, Answer, bool), Refusal> {
    let list = read(input)?;
    list.check_lent(SLOT_ENTRIES, SCRATCH_WORDS)?;
    let (answer, second) = answer::by_the_rust(&list);
    Ok((list, answer, second))
}

/// A line P, then lines `first,second`, each ended by a line feed. 11 precedes 10, whose place is the number, from 1, of the
/// first malformed line.
fn read(input: &[u8]) -> Result<List, Refusal> {
    if input.len() > MOST_BYTES {
        return Err(Refusal { number: 11, place: 0 });
    }
    let malformed = |line: usize| Refusal { number: 10, place: line };
    // what stands behind the last line feed is a line only if there are bytes there
    let mut lines = input.split_inclusive(|&byte| byte == b'\n').zip(1..);
    let (first, _) = lines.next().ok_or(malformed(1))?;
    let parties = first.strip_suffix(b"\n").and_then(number).ok_or(malformed(1))?;
    let mut ends = Vec::new();
    for (line, at) in lines {
        ends.extend(line.strip_suffix(b"\n").and_then(appointment).ok_or(malformed(at))?);
    }
    Ok(List { parties: parties.into(), ends })
}

/// `first,second`; an end may be empty and is then blank.
fn appointment(line: &[u8]) -> Option<[u16; 2]> {
    let ends: Vec<&[u8]> = line.split(|&byte| byte == b',').collect();
    let end = |text: &[u8]| if text.is_empty() { Some(BLANK) } else { number(text) };
    match ends.as_slice() {
        [first, second] => Some([end(first)?, end(second)?]),
        _ => None,
    }
}

/// Numbers have 1 to 5 digits and are below 65,535.
fn number(text: &[u8]) -> Option<u16> {
    if text.is_empty() || text.len() > MOST_DIGITS || !text.iter().all(u8::is_ascii_digit) {
        return None;
    }
    let value = text.iter().fold(0, |value, &digit| 10 * value + u32::from(digit - b'0'));
    u16::try_from(value).ok().filter(|&value| value < BLANK)
}

/// The word, number, place.
fn refusal_text(Refusal { number, place }: Refusal) -> String {
    format!("refused {number} {place}\n")
}

/// First D; then position, ends, slot; then each party and its waiting.
fn plan_text(list: &List, largest_load: usize, slots: &[u16], waiting: &[usize]) -> String {
    let mut text = format!("plan {largest_load}\n");
    for ((position, (first, second)), slot) in list.appointments().enumerate().zip(slots) {
        writeln!(text, "{position} {first} {second} {slot}").expect("a string can be written to");
    }
    for (party, waiting) in waiting.iter().enumerate() {
        writeln!(text, "party {party} {waiting}").expect("a string can be written to");
    }
    text
}

#[cfg(test)]
mod tests {
    use super::*;

    fn prints(input: &str, printed: &str) {
        assert_eq!(output(input.as_bytes()).text, printed, "{input:?}");
    }

    /// With waiting as document 02 has it: all three party lines end in 0.
    #[test]
    fn document_01_s_input_prints_in_full() {
        prints("3\n0,1\n1,2\n", "plan 2\n0 0 1 0\n1 1 2 1\nparty 0 0\nparty 1 0\nparty 2 0\n");
    }

    /// docs/DIFFERENCES.md has it, with the slots 10 9 6 5 3 1, 8 4, 6 3 and 8 7 4 2 0. So 3 waits in 5 and 7, 4 in 1 and 5, and 6
    /// in 2 and 7; 5 has every slot, and 0 to 2 have none.
    #[test]
    fn a_list_on_which_the_rust_panics_is_planned() {
        let rows = [("6,5\n", 6), ("6,3\n", 2), ("4,3\n", 2), ("5,4\n", 5)];
        let lines: String = rows.into_iter().map(|(line, times)| line.repeat(times)).collect();
        let printed = output(format!("7\n{lines}").as_bytes());
        assert!(printed.second && printed.text.starts_with("plan 11\n0 6 5 10\n1 6 5 9\n"));
        let waiting = "\nparty 0 0\nparty 1 0\nparty 2 0\nparty 3 2\nparty 4 2\nparty 5 0\nparty 6 2\n";
        assert!(printed.waits && printed.text.ends_with(waiting), "{}", printed.text);
    }

    #[test]
    fn the_first_malformed_line_is_told() {
        for first in ["", "3", "\n", "3\r\n", "65535\n", "000003\n", " 3\n", "+3\n", "3,\n", "0,1\n3\n", "99999"] {
            prints(first, "refused 10 1\n");
        }
        for second in ["0,1", "\n", "0\n", "0, 1\n", "0,1\r\n", "0,1,2\n", "0,000001\n", "65535,1\n", ",,\n"] {
            prints(&format!("3\n{second}"), "refused 10 2\n");
        }
        prints("3\n0,1\n1,2\n\n0,x\n", "refused 10 4\n");
    }

    #[test]
    fn refusals_come_in_order() {
        let of_length = |length: usize| output(&vec![0; length]).text;
        assert_eq!(of_length(MOST_BYTES + 1), "refused 11 0\n");
        assert_eq!(of_length(MOST_BYTES), "refused 10 1\n");
        prints("1025\n0,1,2\n", "refused 10 2\n");
        prints("1025\n0,\n", "refused 1 0\n");
        prints("65534\n", "refused 1 0\n");
        prints("2\n0,65534\n0,1\n,1\n", "refused 4 2\n");
        prints("2\n0,1\n0,65534\n", "refused 5 1\n");
        prints("129\n", "refused 8 0\n");
        prints("1\n0,0\n", "refused 9 0\n");
    }

    #[test]
    fn a_broken_input_is_refused() {
        let of_length = |length: usize| broken_output(&vec![0; length]);
        assert_eq!(of_length(MOST_BYTES + 1), "refused 11 0\n");
        assert_eq!(of_length(MOST_BYTES), "refused 10 1\n");
        let by_place: [(usize, &[&str]); 4] = [
            (1, &["", "3", "\n", "x\n0,1\n", "3\r\n0,1\n"]),
            (2, &["3\n", "3\n0", "3\n0,1", "3\nx", "3\n0\n0,1\n", "3\n\n"]),
            (3, &["3\n0,1\n", "3\n0,1\n1,2", "3\n0,1\n1\n1,2\n", "1025\n,\n"]),
            (4, &["3\n0,1\n1,2\n", "3\n0,1\n1,2\n,,"]),
        ];
        for (place, inputs) in by_place {
            for input in inputs {
                assert_eq!(broken_output(input.as_bytes()), format!("refused 10 {place}\n"), "{input:?}");
            }
        }
    }

    #[test]
    fn lines_that_look_odd_are_read() {
        prints("00002\n00000,1\n", "plan 1\n0 0 1 0\nparty 0 0\nparty 1 0\n");
        prints("0\n", "plan 0\n");
        prints("2\n", "plan 0\nparty 0 0\nparty 1 0\n");
        prints("2\n,\n", "refused 4 0\n");
    }
}
