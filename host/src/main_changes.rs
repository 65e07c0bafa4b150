//! Small changes to an input for main: a byte, a number, a line, or the end.

use crate::random::Random;

type Change = fn(&mut Vec<u8>, &mut Random);

const CHANGES: [Change; 15] = [
    change_a_byte,
    change_a_byte,
    insert_a_byte,
    double_a_line,
    drop_a_line,
    swap_two_lines,
    spoil_a_line,
    lengthen_a_number,
    set_a_number,
    empty_a_number,
    carriage_returns,
    drop_the_last_byte,
    cut_off,
    go_on,
    begin_earlier,
];

/// Numbers at which an answer can turn.
const NUMBERS: [&str; 20] = [
    "0", "00000", "000000", "1", "2", "63", "64", "127", "128", "129", "1023", "1024", "1025", "04096", "65534",
    "65535", "65536", "65537", "99999", "100000",
];
/// Lines of which most are malformed.
const LINES: [&str; 20] = [
    "", ",", ",,", "0", "0,", ",0", "0,1,", "0,1,2", " 0,1", "0,1 ", "0, 1", "0 1", "0;1", "-1,0", "+0,1", "0x1,0",
    "0,1.", "0,1\r", "0,\0", "a,b",
];
/// Bytes that have a meaning here, stand beside those that have one, or are taken for such elsewhere.
const BYTES: &[u8] = b"09/:,,\n\n\r \t-+\0\x7f\x80\xff";

/// One change, whichever comes.
pub fn change(input: &mut Vec<u8>, random: &mut Random) {
    CHANGES[random.below(CHANGES.len())](input, random);
}

fn any_byte(random: &mut Random) -> u8 {
    if random.chance(2) {
        BYTES[random.below(BYTES.len())]
    } else {
        random.below(256) as u8
    }
}

/// A place of the input, if it has one.
fn place(input: &[u8], random: &mut Random) -> Option<usize> {
    (!input.is_empty()).then(|| random.below(input.len()))
}

/// One bit of a byte, the byte as a whole, or the byte goes.
fn change_a_byte(input: &mut Vec<u8>, random: &mut Random) {
    let Some(at) = place(input, random) else { return };
    match random.below(3) {
        0 => input[at] ^= 1 << random.below(8),
        1 => input[at] = any_byte(random),
        _ => drop(input.remove(at)),
    }
}

fn insert_a_byte(input: &mut Vec<u8>, random: &mut Random) {
    input.insert(random.below(input.len() + 1), any_byte(random));
}

/// Changes the lines as a whole. Each has its line feed; only the last may lack it.
fn change_lines(input: &mut Vec<u8>, change: impl FnOnce(&mut Vec<Vec<u8>>)) {
    let mut lines: Vec<Vec<u8>> = input.split_inclusive(|&byte| byte == b'\n').map(<[u8]>::to_vec).collect();
    if !lines.is_empty() {
        change(&mut lines);
        *input = lines.concat();
    }
}

fn double_a_line(input: &mut Vec<u8>, random: &mut Random) {
    change_lines(input, |lines| {
        let line = lines[random.below(lines.len())].clone();
        lines.insert(random.below(lines.len() + 1), line);
    });
}

fn drop_a_line(input: &mut Vec<u8>, random: &mut Random) {
    change_lines(input, |lines| drop(lines.remove(random.below(lines.len()))));
}

fn swap_two_lines(input: &mut Vec<u8>, random: &mut Random) {
    change_lines(input, |lines| {
        let [one, other] = [(); 2].map(|()| random.below(lines.len()));
        lines.swap(one, other);
    });
}

/// One of the lines above instead of a line, or between two.
fn spoil_a_line(input: &mut Vec<u8>, random: &mut Random) {
    change_lines(input, |lines| {
        let line = format!("{}\n", LINES[random.below(LINES.len())]).into_bytes();
        let at = random.below(lines.len());
        match random.chance(2) {
            true => lines[at] = line,
            false => lines.insert(at, line),
        }
    });
}

/// Changes the digits of one number, if there is one.
fn change_a_number(input: &mut Vec<u8>, random: &mut Random, change: impl FnOnce(&mut Vec<u8>, &mut Random)) {
    let Some(from) = place(input, random) else { return };
    let is_digit = |at: &usize| input[*at].is_ascii_digit();
    let Some(at) = (from..input.len()).chain(0..from).find(is_digit) else { return };
    let first = (0..=at).rev().take_while(is_digit).last().unwrap_or(at);
    let end = (at..input.len()).take_while(is_digit).last().map_or(at, |last| last + 1);
    let mut digits = input[first..end].to_vec();
    change(&mut digits, random);
    input.splice(first..end, digits);
}

/// Zeros before it, or any digits behind it.
fn lengthen_a_number(input: &mut Vec<u8>, random: &mut Random) {
    change_a_number(input, random, |digits, random| {
        let more = if random.chance(8) { random.size(5_000) } else { random.between(1, 5) };
        match random.chance(2) {
            true => drop(digits.splice(0..0, vec![b'0'; more])),
            false => digits.extend((0..more).map(|_| b'0' + random.below(10) as u8)),
        }
    });
}

fn set_a_number(input: &mut Vec<u8>, random: &mut Random) {
    change_a_number(input, random, |digits, random| *digits = NUMBERS[random.below(NUMBERS.len())].into());
}

fn empty_a_number(input: &mut Vec<u8>, random: &mut Random) {
    change_a_number(input, random, |digits, _| digits.clear());
}

/// At the end of one line, or of each.
fn carriage_returns(input: &mut Vec<u8>, random: &mut Random) {
    change_lines(input, |lines| {
        let (each, one) = (random.chance(2), random.below(lines.len()));
        for (at, line) in lines.iter_mut().enumerate() {
            if (each || at == one) && line.ends_with(b"\n") {
                line.insert(line.len() - 1, b'\r');
            }
        }
    });
}

/// Which is mostly a line feed.
fn drop_the_last_byte(input: &mut Vec<u8>, _random: &mut Random) {
    input.pop();
}

fn cut_off(input: &mut Vec<u8>, random: &mut Random) {
    input.truncate(random.below(input.len() + 1));
}

/// Bytes behind the end.
fn go_on(input: &mut Vec<u8>, random: &mut Random) {
    let more = random.size(300);
    input.extend((0..more).map(|_| any_byte(random)).collect::<Vec<u8>>());
}

/// A few bytes before the beginning, as a mark of the encoding is.
fn begin_earlier(input: &mut Vec<u8>, random: &mut Random) {
    const STARTS: [&[u8]; 6] = [b"\xef\xbb\xbf", b" ", b"\n", b"0", b",", b"\0"];
    input.splice(0..0, STARTS[random.below(STARTS.len())].iter().copied());
}
