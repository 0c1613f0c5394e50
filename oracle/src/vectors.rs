//! Stored vectors for programs that replay them without the Rust: `NAME INDEX WORD ...`, every
//! number a word of 16 hexadecimal digits, single spaces between, the given numbers first and the
//! expected ones after them. README.md lists the words.

use crate::calls;
use crate::fault;
use crate::generate::floats::{EDGES, PATTERNS};
use crate::generate::{self, USUAL};
use crate::picked::{later, picked};
use crate::record::{Kind, Record, Value, find};
use crate::stride;
use std::io::{self, Write};

/// The calls that have stored vectors, and how many random cases follow the patterns.
const STORED: &[(&str, u64)] = &[
    ("abs", 35),
    ("abs1", 35),
    ("abs2", 35),
    ("recip", 35),
    ("mul_pow2", 0),
    ("fmax", 0),
    ("fmin", 0),
    ("sqrt", 375),
    ("hypot", 200),
    ("norm_l2", 200),
    ("rotg", 200),
    ("adjoint", 75),
    ("apply", 200),
    ("make_householder_in_place", 300),
    ("lahqr_schur22", 400),
    ("lasy2", 400),
    ("schur_swap", 60),
    ("reorder_schur", 60),
    ("block_values", 60),
    ("evd_from_real_schur", 60),
    ("column", 60),
    ("schur_swap_ld", 60),
    ("reorder_schur_ld", 60),
    ("block_values_ld", 60),
    ("evd_from_real_schur_ld", 60),
    ("column_ld", 60),
    ("standardised_values", 60),
    ("standardised_values_ld", 60),
    ("reorder_schur_stopping", 60),
    ("reorder_schur_stopping_ld", 60),
    ("reorder_schur_list", 20),
    ("reorder_schur_list_ld", 16),
];

const SEED: u64 = 1;
const NORM_PLACES: usize = 6;
const TAIL_PLACES: usize = 5;
const LONGEST: usize = (USUAL.most + 1) * (USUAL.most + 1);
const LONGEST_WITH_STRIDE: usize = 72;

/// How many vectors to write.
pub struct Extent {
    /// The patterns that stand against each other in calls of two numbers.
    pairs: &'static [u64],
    /// The most random cases of a call.
    random: u64,
}

pub const WHOLE: Extent = Extent { pairs: PATTERNS, random: u64::MAX };

impl Extent {
    /// One pattern of each class and sign against each other.
    pub fn of_classes(self) -> Extent {
        Extent { pairs: EDGES, ..self }
    }

    pub fn of_random(self, random: u64) -> Extent {
        Extent { random, ..self }
    }
}

/// Writes the vectors of the named calls, or of all that have them.
pub fn write(names: &[&str], extent: &Extent, out: &mut impl Write) -> io::Result<()> {
    let unknown = names.iter().find(|name| **name != "all" && !STORED.iter().any(|s| s.0 == **name));
    if let Some(name) = unknown {
        return Err(fault(format!("`{name}` has no stored vectors")));
    }
    for (name, random) in STORED.iter().filter(|s| names.contains(&s.0) || names.contains(&"all")) {
        for (index, case) in cases(name, *random, extent).iter().enumerate() {
            let words: Vec<String> = words(case).iter().map(|w| format!("{w:016x}")).collect();
            writeln!(out, "{name} {index:016x} {}", words.join(" "))?;
        }
    }
    Ok(())
}

/// Every pattern, or every pattern against every pattern, lists of every length, or cases chosen one
/// by one; then random cases, and those that came later.
fn cases(name: &str, random: u64, extent: &Extent) -> Vec<Record> {
    let call = find(name).expect("a stored call");
    let mut cases = match call.given {
        [(x, Kind::Float)] => PATTERNS.iter().map(|p| Record::new(call.name).float(x, f64::from_bits(*p))).collect(),
        [(p, Kind::Float), (q, Kind::Float)] => pairs(call.name, extent, |case, x, y| case.float(p, x).float(q, y)),
        [(head, Kind::Float), (tail, Kind::List)] => {
            let mut cases = pairs(call.name, extent, |case, x, y| case.float(head, x).list(tail, vec![y]));
            cases.extend(
                (0..=TAIL_PLACES).map(|len| Record::new(call.name).float(head, 49.0).list(tail, vec![3.0; len])),
            );
            cases
        }
        [(x, Kind::List)] => {
            let single = PATTERNS.iter().map(|p| vec![f64::from_bits(*p)]);
            let lists = single.chain((0..=NORM_PLACES).map(|len| vec![3.0; len]));
            lists.map(|list| Record::new(call.name).list(x, list)).collect()
        }
        [(c, Kind::Float), (s, Kind::Float), (x, Kind::Float), (y, Kind::Float)] if name == "apply" => {
            pairs(call.name, extent, |case, p, q| case.float(c, p).float(s, q).float(x, q).float(y, p))
        }
        _ => picked(call.name),
    };
    let drawn = (0..).filter_map(|index| generate::stored(call.name, SEED, index, USUAL));
    cases.extend(drawn.filter(storable).take(random.min(extent.random) as usize));
    cases.extend(later(call.name));
    cases
}

/// No list of a random line is longer than one row more than the usual makes it; with a stride, than
/// six rows of twelve.
fn storable(case: &Record) -> bool {
    let most = if stride::taken_by(case.call) { LONGEST_WITH_STRIDE } else { LONGEST };
    lengths(case).all(|len| len <= most)
}

fn pairs(name: &'static str, extent: &Extent, case: impl Fn(Record, f64, f64) -> Record) -> Vec<Record> {
    let each = |x: u64| extent.pairs.iter().map(move |y| (f64::from_bits(x), f64::from_bits(*y)));
    extent.pairs.iter().flat_map(|x| each(*x)).map(|(x, y)| case(Record::new(name), x, y)).collect()
}

/// The words of a case and of its answer.
fn words(case: &Record) -> Vec<u64> {
    let (answer, _) = calls::answer(case);
    match case.call {
        "norm_l2" => {
            [vec![case.l("x").len() as u64], padded(case.l("x"), NORM_PLACES), vec![answer.f("r").to_bits()]].concat()
        }
        "make_householder_in_place" => reflection(case, &answer),
        "lasy2" => lists(case).flat_map(bits).chain(floats(&answer)).collect(),
        _ if case.find("n").is_some() => on_buffers(case, &answer),
        _ => floats(case).chain(floats(&answer)).collect(),
    }
}

fn floats(record: &Record) -> impl Iterator<Item = u64> + '_ {
    record.fields.iter().filter_map(|(_, value)| if let Value::Float(x) = value { Some(x.to_bits()) } else { None })
}

fn numbers(record: &Record) -> impl Iterator<Item = u64> + '_ {
    record.fields.iter().filter_map(|(_, value)| if let Value::Num(x) = value { Some(*x as u64) } else { None })
}

fn lists(record: &Record) -> impl Iterator<Item = &[f64]> {
    record.fields.iter().filter_map(|(_, value)| if let Value::List(list) = value { Some(&list[..]) } else { None })
}

/// Of the lists of floats, then of those of whole numbers.
fn lengths(record: &Record) -> impl Iterator<Item = usize> + '_ {
    let nums = |value: &Value| if let Value::Nums(list) = value { Some(list.len()) } else { None };
    lists(record).map(<[f64]>::len).chain(record.fields.iter().filter_map(move |(_, value)| nums(value)))
}

/// The words of all lists, in the order of the fields.
fn listed(record: &Record) -> impl Iterator<Item = u64> + '_ {
    record.fields.iter().flat_map(|(_, value)| match value {
        Value::List(list) => bits(list).collect(),
        Value::Nums(list) => list.iter().map(|x| *x as u64).collect(),
        _ => Vec::new(),
    })
}

fn bits(list: &[f64]) -> impl Iterator<Item = u64> + '_ {
    list.iter().map(|x| x.to_bits())
}

fn padded(list: &[f64], places: usize) -> Vec<u64> {
    let mut words: Vec<u64> = list.iter().map(|x| x.to_bits()).collect();
    words.resize(places, 0);
    words
}

/// The lengths of the buffers, the numbers and the buffers, a list of moves before them; then the
/// answer, its counts (zero words if it is turned away) and those buffers that the call may change, or
/// the part that it hands back.
fn on_buffers(case: &Record, answer: &Record) -> Vec<u64> {
    let mut words: Vec<u64> = lengths(case).map(|len| len as u64).collect();
    for record in [case, answer] {
        words.extend(numbers(record));
        words.extend(listed(record));
    }
    words
}

/// A longer tail has as many places as numbers. Turned away, the four results are zero words.
fn reflection(case: &Record, answer: &Record) -> Vec<u64> {
    let tail = case.l("tail");
    let places = tail.len().max(TAIL_PLACES);
    let given = [vec![tail.len() as u64, case.f("head").to_bits()], padded(tail, places)].concat();
    let results: Vec<u64> = floats(answer).collect();
    [given, vec![answer.n("answer") as u64], results, padded(answer.l("tail"), places)].concat()
}
