//! Spoils some lines of a script.

use crate::random::Random;

/// What may come in place of a character. Not all of it is UTF-8.
const PIECES: [&[u8]; 26] = [
    b"0",
    b"1",
    b"2",
    b"3",
    b"7",
    b"9",
    b"99",
    b" ",
    b"\t",
    b"/",
    b" / ",
    b":",
    b" : ",
    b"#",
    b"-",
    b"+",
    b".",
    b",",
    b"x",
    b"f",
    b"F",
    b"\r",
    b"\0",
    "\u{e9}".as_bytes(),
    "\u{a0}".as_bytes(),
    b"\xff",
];

/// Words that mean something somewhere.
const WORDS: [&str; 34] = [
    "f",
    "liar",
    "deal",
    "round",
    "say",
    "post",
    "send",
    "board",
    "show",
    "night",
    "dealer",
    "share",
    "told",
    "complaint",
    "reveal",
    "fine",
    "finished",
    "value",
    "hex",
    "yes",
    "no",
    "0",
    "1",
    "2",
    "12",
    "256",
    "4294967296",
    "2305843009213693951",
    "18446744073709551615",
    "18446744073709551616",
    "99999999999999999999999999999999999999999",
    "/",
    ":",
    "0:",
];

/// Spoils lines in place; of those on which all else depends mostly a copy.
pub fn mangle(random: &mut Random, lines: Vec<Vec<u8>>) -> Vec<Vec<u8>> {
    let percent = random.pick(&[10, 25, 50]);
    let mut mangled = Vec::new();
    for mut line in lines {
        if random.chance(percent) {
            if is_basic(&line) && random.chance(80) {
                mangled.push(line.clone());
            }
            for _ in 0..1 + random.below(2) {
                spoil(random, &mut line);
            }
        }
        mangled.push(line);
    }
    mangled
}

fn is_basic(line: &[u8]) -> bool {
    let text = line.trim_ascii_start();
    let basic: [&[u8]; 4] = [b"f", b"liar", b"deal", b"round"];
    basic.iter().any(|word| text.starts_with(word))
}

fn spoil(random: &mut Random, line: &mut Vec<u8>) {
    if random.chance(2) {
        return lengthen(random, line);
    }
    if random.chance(45) {
        return spoil_character(random, line);
    }
    let mut words: Vec<Vec<u8>> = line
        .split(|byte| *byte == b' ')
        .map(<[u8]>::to_vec)
        .collect();
    spoil_word(random, &mut words);
    *line = words.join(&b' ');
}

fn spoil_character(random: &mut Random, line: &mut Vec<u8>) {
    let at = place(
        random,
        line.len() + 1,
        line.iter().position(|byte| *byte == b' '),
    );
    let end = (at + random.below(2)).min(line.len());
    let piece: &[u8] = if random.chance(25) {
        b""
    } else {
        random.pick(&PIECES)
    };
    line.splice(at..end, piece.iter().copied());
}

/// A place below `end`, mostly past the first word, which must stay for the
/// rest to matter.
fn place(random: &mut Random, end: usize, second: Option<usize>) -> usize {
    match second {
        Some(second) if second < end && random.chance(80) => second + random.below(end - second),
        _ => random.below(end),
    }
}

fn spoil_word(random: &mut Random, words: &mut Vec<Vec<u8>>) {
    let at = place(random, words.len(), Some(1));
    let other = place(random, words.len(), Some(1));
    let word = random.pick(&WORDS).as_bytes().to_vec();
    match random.below(7) {
        0 | 1 => {
            words.remove(at);
        }
        2 => words.swap(at, other),
        3 => words[at] = word,
        4 => words.insert(at, word),
        5 => words.insert(at, words[other].clone()),
        _ => words.truncate(at + 1),
    }
}

/// A very long line.
fn lengthen(random: &mut Random, line: &mut Vec<u8>) {
    let piece: &[u8] = random.pick(&[b"0", b" 1", b"a", b" ", b" / 1", b"\xc3"]);
    line.extend(piece.repeat(1000));
}
