//! Texts for the program `sheet`, laid out rightly or not.

use super::rng::Rng;
use crate::record::Record;

fn words(numbers: &[f64]) -> String {
    let words: Vec<String> = numbers.iter().map(|x| format!("{:016x}", x.to_bits())).collect();
    words.join(" ")
}

/// The text of a move.
pub fn of_move(case: &Record) -> Vec<u8> {
    let short = |key| case.n(key) % 10_000;
    let head = format!("n={}\nfrom={}\nto={}\n", short("n"), short("from"), short("to"));
    format!("{head}t={}\nu={}\n", words(case.l("t")), words(case.l("u"))).into_bytes()
}

/// Breaks the layout in one place, or nearly.
pub fn broken(rng: &mut Rng, text: Vec<u8>) -> Vec<u8> {
    let swapped = |from: &str, to: &str| String::from_utf8_lossy(&text).replacen(from, to, 1).into_bytes();
    let at = rng.below(text.len());
    match rng.below(16) {
        0 => text[..at].to_vec(),
        1 => text[..text.len() - 1].to_vec(),
        2 => [&text[..], b"\n"].concat(),
        3 => swapped("n=", "n=0"),
        4 => swapped("from=", "from=+"),
        5 => swapped("to=", "to=00000"),
        6 => swapped("t=", "t= "),
        7 => swapped("\nu=", " \nu="),
        8 => swapped(" ", "  "),
        9 => swapped("\n", "\r\n"),
        10 => swapped("from=", "From="),
        11 => swapped("n=", "n=99999"),
        12 => text.to_ascii_uppercase(),
        13 => Vec::new(),
        14 => filled(rng, &text),
        _ => {
            let mut text = text.clone();
            text[at] = rng.pick(b"0189afgAF =\n\r\t\0-\xff");
            text
        }
    }
}

/// A text of 40,000 bytes or a few more or fewer: too many words, and the last cut to length.
fn filled(rng: &mut Rng, text: &[u8]) -> Vec<u8> {
    let len = 39_998 + rng.below(5);
    let mut text = text[..text.len() - 1].to_vec();
    while text.len() < len {
        text.extend_from_slice(b" 0000000000000000");
    }
    text.truncate(len - 1);
    text.push(b'\n');
    text
}
