//! Texts: journey refs, journey ids, route ids, line tokens and trip ids of the forms that matching tells apart, and of forms beside them.
use crate::draw::Draw;

/// The longest id.
pub const LONGEST: usize = 96;

pub const FEEDS: [&str; 5] = ["idfm", "IDFM", "f", "sncf", "A B"];
pub const SERVICES: [&str; 4] = ["s", "s1", "S", "~"];

fn digits(d: &mut Draw, n: usize) -> String {
    (0..n).map(|_| (b'0' + d.below(10) as u8) as char).collect()
}

fn letters(d: &mut Draw, n: usize) -> String {
    (0..n).map(|_| d.one_of(b"abcxyzABCXYZ0189-._ ") as char).collect()
}

/// 36 bytes with dashes at 8, 13, 18 and 23; the rest are seldom hexadecimal digits only.
fn uuid(d: &mut Draw) -> String {
    let mut text: Vec<u8> = (0..36).map(|_| d.one_of(b"0123456789abcdefgZ.")).collect();
    for dash in [8, 13, 18, 23] {
        text[dash] = b'-';
    }
    String::from_utf8(text).expect("bytes of ASCII")
}

/// A uuid, or one that is not quite: spaces around it, a byte too few or too many, a dash that is missing.
pub fn uuid_like(d: &mut Draw) -> String {
    let text = uuid(d);
    match d.below(12) {
        0 => format!(" {text}"),
        1 => format!("{text}  "),
        2 => text[1..].to_string(),
        3 => format!("{text}0"),
        4 => text.replacen('-', "0", 1),
        5 => format!("{}{text}", " ".repeat(d.below(40) as usize)),
        _ => text,
    }
}

/// The token of a line: a capital C and digits, or something beside that.
pub fn token(d: &mut Draw) -> String {
    match d.below(14) {
        0 => format!("C{}", digits(d, 3)),
        1 => format!("c{}", digits(d, 5)),
        2 => format!("C{}X", digits(d, 4)),
        3 => letters(d, 5),
        4 => format!("AB{}", digits(d, 2)),
        5 => format!("C{}", digits(d, 40)),
        6..=8 => format!("C{}", digits(d, 4)),
        9 => format!("CX{}", digits(d, 4)),
        _ => format!("C0{}", digits(d, 4)),
    }
}

/// A route id that has the token, mostly where it is read from.
pub fn route(d: &mut Draw, token: &str) -> String {
    match d.below(20) {
        0 => format!("line::{token}"),
        1 => format!("x:LINE::{token}:y"),
        2 => format!("STIF:Line::{token}:"),
        3 => format!("IDFM:{token}"),
        4 => token.to_string(),
        5 => format!("Line::ab:{token}"),
        6 => format!("Line::ab:Line::{token}"),
        7 => format!("C1234x:{token}.C99999"),
        8 => format!("a-C12:{}", token.to_lowercase()),
        9 => format!("Line:{token}"),
        10 => format!("L{token}"),
        11 => format!("Line::{}", &token[..token.len().min(3)]),
        _ => format!("idfm:STIF:Line::{token}:"),
    }
}

/// What a journey ref has for its journey id.
pub fn journey_id(d: &mut Draw, token: &str) -> String {
    match d.below(16) {
        0..=4 => uuid_like(d),
        5 | 6 => format!("local-{}", digits(d, 4)),
        7 => format!("local-{}", digits(d, 60)),
        8 | 9 => format!("2026{}.361.A.{token}", digits(d, 4)),
        10 => format!("COU_RATP_{}", digits(d, 5)),
        11 => digits(d, 2),
        12 => format!("{}:{}", digits(d, 2), letters(d, 4)),
        13 => String::new(),
        14 => format!("a.{}", token.to_lowercase()),
        _ => {
            let n = 1 + d.below(10) as usize;
            letters(d, n)
        }
    }
}

/// A journey ref around a journey id.
pub fn journey_ref(d: &mut Draw, id: &str) -> String {
    let before = d.one_of(&["", "", "idfm:", "idfm:", "IDFM:", "f:", "idfm:idfm:", "IDFM:idfm:", "Idfm:"]);
    let operator = d.one_of(&["SNCF", "RATP-SIV", "stif", "SNCF_MAGENTA_PRD", "A", ""]);
    let kind = d.one_of(&[
        ":VehicleJourney",
        ":VehicleJourney",
        ":ServiceJourney",
        ":vehiclejourney",
        ":SERVICEJOURNEY",
        ":Journey",
        "",
    ]);
    let between = d.one_of(&["::", "::", ":", ":", ":::"]);
    let after = d.one_of(&[
        "", ":LOC", ":LOC", ":LOC", ":", "::", ":LOC:", ":LOC:LOC", ":loc", ":Loc", ":LOC::", ":LOCx", "LOC",
    ]);
    format!("{before}{operator}{kind}{between}{id}{after}")
}

/// A trip id of no special form.
pub fn trip_id(d: &mut Draw) -> String {
    let n = 1 + d.below(12) as usize;
    match d.below(4) {
        0 => format!("idfm:IDFM:TN:SNCF:{}", uuid(d)),
        1 => format!("f:{}", digits(d, 6)),
        2 => format!("idfm:{}", letters(d, n)),
        _ => letters(d, n),
    }
}

/// The same text, or one with a byte changed, dropped or doubled.
pub fn beside(d: &mut Draw, text: &str) -> String {
    let mut bytes = text.as_bytes().to_vec();
    if bytes.is_empty() {
        return text.to_string();
    }
    let at = d.below(bytes.len() as u64) as usize;
    match d.below(4) {
        0 => bytes[at] = d.one_of(b":-.@LCc ~0"),
        1 => {
            bytes.remove(at);
        }
        2 => bytes.insert(at, bytes[at]),
        _ => bytes[at] ^= 32 * bytes[at].is_ascii_alphabetic() as u8,
    }
    String::from_utf8(bytes).expect("bytes of ASCII")
}

/// Whether a text may stand as an id.
pub fn is_id(text: &str) -> bool {
    (1..=LONGEST).contains(&text.len()) && text.bytes().all(|b| (32..=126).contains(&b))
}
