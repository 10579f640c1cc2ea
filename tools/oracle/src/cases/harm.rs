//! Damage to a text: one byte, one token or one line, of a kind that a reader, a check or a bound must notice, or may let pass.
use crate::draw::Draw;

const BYTES: &[u8] = b" ()\n%-0123456789abcdefxXYZ:@.\t\r\x00\x1f\x7e\x7f\x80\xff";

/// Tokens at and past the bounds of each kind, and tokens of none.
const NUMBERS: [&str; 35] = [
    "0",
    "1",
    "2",
    "3",
    "9",
    "0000000007",
    "00000000007",
    "1000000",
    "604799",
    "604800",
    "50400",
    "50401",
    "-50400",
    "-50401",
    "4102444799",
    "4102444800",
    "4294967295",
    "4294967296",
    "9999999999",
    "2147483647",
    "2147483648",
    "-2147483648",
    "-2147483649",
    "999999999999999999",
    "-999999999999999999",
    "1000000000000000000",
    "-0",
    "-1",
    "--1",
    "+1",
    "1.5",
    "-",
    "1000",
    "36000",
    "86400",
];
const DATES: [&str; 12] = [
    "19700101",
    "20000229",
    "20990229",
    "20241301",
    "20240100",
    "00010101",
    "00000101",
    "10101",
    "99991231",
    "99991232",
    "100000101",
    "0",
];
const SINGLES: [&str; 9] =
    ["7f800000", "ff800000", "7fc00000", "7f7fffff", "42c80000", "c2c80000", "00000000", "80000000", "7F800000"];
const DOUBLES: [&str; 14] = [
    "7ff8000000000000",
    "7ff0000000000000",
    "fff0000000000000",
    "4056800000000000",
    "4056800000000001",
    "c056800000000001",
    "4066800000000000",
    "4066800000000001",
    "c066800000000000",
    "c066800000000001",
    "0000000000000000",
    "8000000000000000",
    "405680000000000",
    "405680000000000A",
];
const WORDS: [&str; 8] = ["1111111", "0000000", "0101010", "11111111", "1111112", "added", "removed", "Added"];

/// Tokens of ids: none, bytes by their digits, bytes that no id has.
const IDS: [&str; 14] = ["%", "%20", "%25", "%7e", "%7f", "%1f", "%00", "%0a", "%ff", "%zz", "%2", "%2F", "a%", "%%"];

/// An id of so many bytes.
fn long(draw: &mut Draw) -> Vec<u8> {
    vec![b'z'; draw.one_of(&[95, 96, 97, 254, 255, 256])]
}

/// A token of the kind that another seems to be.
fn alike(draw: &mut Draw, old: &[u8]) -> Vec<u8> {
    let digits = old.iter().all(|byte| byte.is_ascii_digit() || *byte == b'-');
    match (old.len(), digits) {
        (16, _) => draw.one_of(&DOUBLES).into(),
        (8, true) if draw.below(3) != 0 => draw.one_of(&DATES).into(),
        (8, _) => draw.one_of(&SINGLES).into(),
        (7, true) => draw.one_of(&WORDS).into(),
        (_, true) => draw.one_of(&NUMBERS).into(),
        _ if draw.below(3) == 0 => long(draw),
        _ => draw.one_of(&IDS).into(),
    }
}

fn token(draw: &mut Draw, old: &[u8], tokens: &[Vec<u8>]) -> Vec<u8> {
    match draw.below(8) {
        0 => tokens[draw.below(tokens.len() as u64) as usize].clone(),
        1 => {
            let kind = tokens[draw.below(tokens.len() as u64) as usize].clone();
            alike(draw, &kind)
        }
        _ => alike(draw, old),
    }
}

/// Where the tokens of a text are.
fn spans(text: &[u8]) -> Vec<(usize, usize)> {
    let (mut all, mut start) = (vec![], 0);
    for (k, byte) in text.iter().enumerate() {
        if b" ()\n".contains(byte) {
            if start < k {
                all.push((start, k));
            }
            start = k + 1;
        }
    }
    all
}

fn harm_byte(draw: &mut Draw, text: &mut Vec<u8>) {
    let k = draw.below(text.len() as u64) as usize;
    let byte = draw.one_of(BYTES);
    match draw.below(5) {
        0 => drop(text.remove(k)),
        1 => text.insert(k, byte),
        2 => text.insert(k, text[k]),
        3 => text[k] ^= 1 << draw.below(8),
        _ => text[k] = byte,
    }
}

fn harm_token(draw: &mut Draw, text: &mut Vec<u8>) {
    let spans = spans(text);
    let tokens: Vec<Vec<u8>> = spans.iter().map(|&(a, b)| text[a..b].to_vec()).collect();
    // the first token of a line is its name, which is seldom touched
    let mut k = draw.below(spans.len() as u64) as usize;
    if text[spans[k].0.saturating_sub(1)] == b'(' && draw.below(8) != 0 {
        k = (k + 1) % spans.len();
    }
    let (a, b) = spans[k];
    match draw.below(16) {
        0 => drop(text.drain(a.saturating_sub(1)..b)),
        1 => {
            let mut more = token(draw, &tokens[k], &tokens);
            more.insert(0, b' ');
            drop(text.splice(b..b, more));
        }
        2 => drop(text.splice(a..b, tokens[(k + 1) % tokens.len()].clone())),
        _ => drop(text.splice(a..b, token(draw, &tokens[k], &tokens))),
    }
}

fn harm_line(draw: &mut Draw, text: &mut Vec<u8>) {
    let mut lines: Vec<Vec<u8>> = text.split_inclusive(|&byte| byte == b'\n').map(<[u8]>::to_vec).collect();
    let (k, j) = (draw.below(lines.len() as u64) as usize, draw.below(lines.len() as u64) as usize);
    match draw.below(8) {
        0 | 1 => drop(lines.remove(k)),
        2 => lines.insert(k, lines[k].clone()),
        3 => lines.insert(k, lines[j].clone()),
        4 => lines.swap(k, j),
        5 if k > 0 => lines.swap(k, k - 1),
        6 => {
            let line = lines.remove(k);
            lines.insert(j.min(lines.len()), line);
        }
        _ => lines.insert(
            k,
            draw.one_of(&["\n", "()\n", "(x)\n", "(place)\n", "(cancelled)\n", "(offset 0)\n", "(offset -60)\n"])
                .into(),
        ),
    }
    *text = lines.concat();
}

/// A damaged copy.
pub fn harmed(draw: &mut Draw, text: &str) -> Vec<u8> {
    let mut text = text.as_bytes().to_vec();
    match draw.below(16) {
        0..=2 => harm_byte(draw, &mut text),
        3..=10 => harm_token(draw, &mut text),
        11..=14 => harm_line(draw, &mut text),
        _ => text.truncate(draw.below(text.len() as u64 + 1) as usize),
    }
    text
}
