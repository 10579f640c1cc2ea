//! What the Board is to print of any text: 11, the first refusal that applies, or the line of the Rust's estimate.
use super::asked;
use super::plan::tied;
use super::read::read;
use super::refusal::refusal;

/// The line; none where the Rust's own answer hangs on the order of a map.
pub fn told(text: &[u8]) -> Option<String> {
    let Some(read) = read(text, false) else {
        return Some("(refused 11)".into());
    };
    let number = refusal(&read);
    if number != 0 {
        return Some(format!("(refused {number})"));
    }
    (!tied(&read.case)).then(|| asked::board(&read.case, &asked::epoch(&read.case)))
}
