//! The program `sheet` of document 01: its text, and the move behind it.

use crate::calls::run_move;
use crate::record::settle;
use crate::refuse;

const MOST_BYTES: usize = 40_000;
/// A request has no more rows.
pub const MOST_ROWS: usize = 32;

/// What the five lines say.
struct Sheet {
    n: usize,
    from: usize,
    to: usize,
    t: Vec<f64>,
    u: Vec<f64>,
}

/// The program's output for its input.
pub fn run(text: &[u8]) -> Vec<u8> {
    match read(text).ok_or(1).and_then(answer) {
        Ok(lines) => lines.into_bytes(),
        Err(line) => format!("answer={line}\n").into_bytes(),
    }
}

fn answer(sheet: Sheet) -> Result<String, usize> {
    let Sheet { n, from, to, mut t, mut u } = sheet;
    refuse::reorder(MOST_ROWS, n, &t, &u, from, to)?;
    let notes = run_move(n, &mut t, &mut u, from, to);
    Ok(of_move([notes.here, notes.swaps, notes.declined], &t, &u))
}

/// The six lines of an accepted move: landed, swaps and declined, its form and its factor.
pub fn of_move([landed, swaps, declined]: [usize; 3], t: &[f64], u: &[f64]) -> String {
    format!("answer=0\nlanded={landed}\nswaps={swaps}\ndeclined={declined}\n{}", squares(t, u))
}

/// The two lines of a form and a factor, the same in a request and in a sheet.
pub fn squares(t: &[f64], u: &[f64]) -> String {
    format!("t={}\nu={}\n", words(t), words(u))
}

fn words(numbers: &[f64]) -> String {
    let words: Vec<String> = numbers.iter().map(|x| format!("{:016x}", settle(*x).to_bits())).collect();
    words.join(" ")
}

/// The five lines, or `None` where the text is not laid out so.
fn read(text: &[u8]) -> Option<Sheet> {
    if text.len() > MOST_BYTES {
        return None;
    }
    let mut rest = text;
    let n = number(line(&mut rest, b"n=")?)?;
    let from = number(line(&mut rest, b"from=")?)?;
    let to = number(line(&mut rest, b"to=")?)?;
    let t = numbers(line(&mut rest, b"t=")?)?;
    let u = numbers(line(&mut rest, b"u=")?)?;
    if rest.is_empty() { Some(Sheet { n, from, to, t, u }) } else { None }
}

/// Takes the next line off, which must begin with `name`, and hands back what follows the name.
fn line<'a>(rest: &mut &'a [u8], name: &[u8]) -> Option<&'a [u8]> {
    let end = rest.iter().position(|b| *b == b'\n')?;
    let (line, after) = (&rest[..end], &rest[end + 1..]);
    *rest = after;
    line.strip_prefix(name)
}

/// 1 to 4 decimal digits, no leading zero but in 0.
fn number(digits: &[u8]) -> Option<usize> {
    let plain = matches!(digits.len(), 1..=4) && digits.iter().all(u8::is_ascii_digit);
    if !plain || (digits[0] == b'0' && digits.len() > 1) {
        return None;
    }
    Some(digits.iter().fold(0, |n, d| 10 * n + usize::from(d - b'0')))
}

/// Words of 16 digits with one space between, or none at all.
fn numbers(text: &[u8]) -> Option<Vec<f64>> {
    if text.is_empty() { Some(Vec::new()) } else { text.split(|b| *b == b' ').map(word).collect() }
}

fn word(digits: &[u8]) -> Option<f64> {
    if digits.len() != 16 {
        return None;
    }
    let bits = digits.iter().try_fold(0, |bits: u64, d| Some(bits << 4 | u64::from(digit(*d)?)))?;
    Some(f64::from_bits(bits))
}

fn digit(d: u8) -> Option<u8> {
    match d {
        b'0'..=b'9' => Some(d - b'0'),
        b'a'..=b'f' => Some(d - b'a' + 10),
        _ => None,
    }
}
