//! Lines that are almost in form.

use super::Random;
use crate::form::LINE_LIMIT;

/// A damaged line with its end.
pub fn damaged(line: &str, random: &mut Random) -> Vec<u8> {
    let mut bytes = line.as_bytes().to_vec();
    for _ in 0..random.pick(&[1, 1, 1, 2]) {
        damage(&mut bytes, random);
    }
    bytes.push(b'\n');
    bytes
}

fn damage(bytes: &mut Vec<u8>, random: &mut Random) {
    let place = random.below(bytes.len() + 1);
    match random.below(14) {
        0 | 1 => change_byte(bytes, random),
        2 => bytes.truncate(place),
        3 => drop(bytes.drain(..place)),
        4 => double_byte(bytes, random),
        5 => bytes.insert(place, b' '),
        6 => bytes.insert(place, any_byte(random)),
        7 => put_before_number(bytes, b"0", random),
        8 => put_before_number(bytes, b"-", random),
        9 => put_number(bytes, random),
        10 | 11 => lengthen(bytes, random),
        12 => bytes.extend_from_slice(random.pick(&[&b" "[..], b"\r", b"\t", b"\0", b" edit=257"])),
        _ => swap_words(bytes, random),
    }
}

fn any_byte(random: &mut Random) -> u8 {
    match random.below(3) {
        0 => random.below(256) as u8,
        1 => random.pick(b" =-+#\n\r\t\0"),
        _ => random.pick(b"0123456789adeilnorst"),
    }
}

fn change_byte(bytes: &mut [u8], random: &mut Random) {
    if !bytes.is_empty() {
        bytes[random.below(bytes.len())] = any_byte(random);
    }
}

fn double_byte(bytes: &mut Vec<u8>, random: &mut Random) {
    if !bytes.is_empty() {
        let place = random.below(bytes.len());
        bytes.insert(place, bytes[place]);
    }
}

/// Where the numbers of the line begin and end.
fn numbers(bytes: &[u8]) -> Vec<(usize, usize)> {
    let is_digit = |place: usize| bytes.get(place).is_some_and(u8::is_ascii_digit);
    let begins = |place: &usize| is_digit(*place) && (*place == 0 || !is_digit(*place - 1));
    let end = |begin: usize| (begin..).find(|&place| !is_digit(place)).expect("the line ends");
    (0..bytes.len()).filter(begins).map(|begin| (begin, end(begin))).collect()
}

fn any_number(bytes: &[u8], random: &mut Random) -> Option<(usize, usize)> {
    let numbers = numbers(bytes);
    (!numbers.is_empty()).then(|| random.pick(&numbers))
}

fn put_before_number(bytes: &mut Vec<u8>, sign: &[u8], random: &mut Random) {
    if let Some((begin, _)) = any_number(bytes, random) {
        bytes.splice(begin..begin, sign.iter().copied());
    }
}

/// Another number in form, often one that doesn't fit 32 bits.
fn put_number(bytes: &mut Vec<u8>, random: &mut Random) {
    let number = match random.below(6) {
        0 => "4294967295".to_string(),
        1 => "4294967296".to_string(),
        2 => "4294967553".to_string(),
        3 => "18446744073709551616".to_string(),
        4 => "340282366920938463463374607431768211713".to_string(),
        _ => random.odd_number().to_string(),
    };
    if let Some((begin, end)) = any_number(bytes, random) {
        bytes.splice(begin..end, number.bytes());
    }
}

/// Digits are put to a number until the line is as long as may be, or longer.
/// So the number stays in form, and only the length decides between 1 and 2.
fn lengthen(bytes: &mut Vec<u8>, random: &mut Random) {
    let length = match random.below(60) {
        0 => random.between(5_000, 70_000),
        1..=10 => LINE_LIMIT - 1,
        11..=30 => LINE_LIMIT,
        31..=50 => LINE_LIMIT + 1,
        _ => random.between(LINE_LIMIT + 2, 400),
    };
    if let Some((_, end)) = any_number(bytes, random) {
        let more = length.saturating_sub(bytes.len());
        bytes.splice(end..end, std::iter::repeat_n(b'7', more));
    }
}

fn swap_words(bytes: &mut Vec<u8>, random: &mut Random) {
    let mut words: Vec<Vec<u8>> = bytes.split(|&byte| byte == b' ').map(<[u8]>::to_vec).collect();
    random.shuffle(&mut words);
    *bytes = words.join(&b' ');
}
