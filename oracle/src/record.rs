//! Cases and answers: a call's name and named fields, and their text, one line each.
//! `CALL key=value ...`, floats as 16 hexadecimal digits, lists joined by commas, whole numbers decimal.

use std::fmt;

#[derive(Clone, Debug, PartialEq)]
pub enum Value {
    Num(usize),
    Float(f64),
    List(Vec<f64>),
    Nums(Vec<usize>),
    Bytes(Vec<u8>),
}

#[derive(Clone, Copy)]
pub enum Kind {
    Num,
    Float,
    List,
    Nums,
    Bytes,
}

pub struct Call {
    pub name: &'static str,
    pub given: &'static [(&'static str, Kind)],
}

const fn call(name: &'static str, given: &'static [(&'static str, Kind)]) -> Call {
    Call { name, given }
}

const X: &[(&str, Kind)] = &[("x", Kind::Float)];
const PQ: &[(&str, Kind)] = &[("p", Kind::Float), ("q", Kind::Float)];
const MOVE: &[(&str, Kind)] =
    &[("n", Kind::Num), ("t", Kind::List), ("u", Kind::List), ("from", Kind::Num), ("to", Kind::Num)];
const MOVE_LD: &[(&str, Kind)] = &[
    ("n", Kind::Num),
    ("ld", Kind::Num),
    ("t", Kind::List),
    ("u", Kind::List),
    ("from", Kind::Num),
    ("to", Kind::Num),
];
// The moves before the buffers, as a stored line has them.
const MOVES: &[(&str, Kind)] =
    &[("n", Kind::Num), ("moves", Kind::Nums), ("t", Kind::List), ("u", Kind::List), ("results", Kind::Nums)];
const MOVES_LD: &[(&str, Kind)] = &[
    ("n", Kind::Num),
    ("ld", Kind::Num),
    ("moves", Kind::Nums),
    ("t", Kind::List),
    ("u", Kind::List),
    ("results", Kind::Nums),
];
const VALUES: &[(&str, Kind)] = &[("n", Kind::Num), ("t", Kind::List), ("re", Kind::List), ("im", Kind::List)];
const VALUES_LD: &[(&str, Kind)] =
    &[("n", Kind::Num), ("ld", Kind::Num), ("t", Kind::List), ("re", Kind::List), ("im", Kind::List)];

pub const CALLS: &[Call] = &[
    call("abs", X),
    call("abs1", X),
    call("abs2", X),
    call("recip", X),
    call("mul_pow2", &[("x", Kind::Float), ("p", Kind::Float)]),
    call("fmax", PQ),
    call("fmin", PQ),
    call("sqrt", X),
    call("hypot", PQ),
    call("norm_l2", &[("x", Kind::List)]),
    call("inner_prod", &[("x", Kind::List), ("y", Kind::List)]),
    call("rotg", PQ),
    call("adjoint", &[("c", Kind::Float), ("s", Kind::Float)]),
    call("apply", &[("c", Kind::Float), ("s", Kind::Float), ("x", Kind::Float), ("y", Kind::Float)]),
    call("make_householder_in_place", &[("head", Kind::Float), ("tail", Kind::List)]),
    call("lahqr_schur22", &[("a", Kind::Float), ("b", Kind::Float), ("c", Kind::Float), ("d", Kind::Float)]),
    call("lasy2", &[("tl", Kind::List), ("tr", Kind::List), ("b", Kind::List)]),
    call(
        "schur_swap",
        &[
            ("n", Kind::Num),
            ("t", Kind::List),
            ("u", Kind::List),
            ("j0", Kind::Num),
            ("n1", Kind::Num),
            ("n2", Kind::Num),
        ],
    ),
    call("reorder_schur", MOVE),
    call("reorder_schur_stopping", MOVE),
    call("reorder_schur_list", MOVES),
    call("block_values", VALUES),
    call("standardised_values", VALUES),
    call("evd_from_real_schur", &[("n", Kind::Num), ("t", Kind::List), ("v", Kind::List)]),
    call("column", &[("n", Kind::Num), ("v", Kind::List), ("col", Kind::Num)]),
    call("sheet", &[("text", Kind::Bytes)]),
    call(
        "schur_swap_ld",
        &[
            ("n", Kind::Num),
            ("ld", Kind::Num),
            ("t", Kind::List),
            ("u", Kind::List),
            ("j0", Kind::Num),
            ("n1", Kind::Num),
            ("n2", Kind::Num),
        ],
    ),
    call("reorder_schur_ld", MOVE_LD),
    call("reorder_schur_stopping_ld", MOVE_LD),
    call("reorder_schur_list_ld", MOVES_LD),
    call("block_values_ld", VALUES_LD),
    call("standardised_values_ld", VALUES_LD),
    call("evd_from_real_schur_ld", &[("n", Kind::Num), ("ld", Kind::Num), ("t", Kind::List), ("v", Kind::List)]),
    call("column_ld", &[("n", Kind::Num), ("ld", Kind::Num), ("v", Kind::List), ("col", Kind::Num)]),
];

pub fn find(name: &str) -> Option<&'static Call> {
    CALLS.iter().find(|c| c.name == name)
}

/// A case or an answer.
#[derive(Clone, Debug)]
pub struct Record {
    pub call: &'static str,
    pub fields: Vec<(&'static str, Value)>,
}

impl Record {
    pub fn new(call: &'static str) -> Record {
        Record { call, fields: Vec::new() }
    }

    pub fn with(mut self, key: &'static str, value: Value) -> Record {
        self.fields.push((key, value));
        self
    }

    pub fn float(self, key: &'static str, x: f64) -> Record {
        self.with(key, Value::Float(x))
    }

    pub fn num(self, key: &'static str, x: usize) -> Record {
        self.with(key, Value::Num(x))
    }

    pub fn list(self, key: &'static str, x: Vec<f64>) -> Record {
        self.with(key, Value::List(x))
    }

    pub fn nums(self, key: &'static str, x: Vec<usize>) -> Record {
        self.with(key, Value::Nums(x))
    }

    pub fn find(&self, key: &str) -> Option<&Value> {
        self.fields.iter().find(|f| f.0 == key).map(|f| &f.1)
    }

    pub fn find_mut(&mut self, key: &str) -> Option<&mut Value> {
        self.fields.iter_mut().find(|f| f.0 == key).map(|f| &mut f.1)
    }

    /// The record with a field changed, if it has it.
    fn set(mut self, key: &str, to: Value) -> Record {
        if let Some(value) = self.find_mut(key) {
            *value = to;
        }
        self
    }

    pub fn num_set(self, key: &str, to: usize) -> Record {
        self.set(key, Value::Num(to))
    }

    pub fn list_set(self, key: &str, to: Vec<f64>) -> Record {
        self.set(key, Value::List(to))
    }

    pub fn nums_set(self, key: &str, to: Vec<usize>) -> Record {
        self.set(key, Value::Nums(to))
    }

    pub fn f(&self, key: &str) -> f64 {
        match self.find(key) {
            Some(Value::Float(x)) => *x,
            other => panic!("{}: {key} is {other:?}, not a float", self.call),
        }
    }

    pub fn n(&self, key: &str) -> usize {
        match self.find(key) {
            Some(Value::Num(x)) => *x,
            other => panic!("{}: {key} is {other:?}, not a number", self.call),
        }
    }

    pub fn l(&self, key: &str) -> &[f64] {
        match self.find(key) {
            Some(Value::List(x)) => x,
            other => panic!("{}: {key} is {other:?}, not a list", self.call),
        }
    }

    pub fn ns(&self, key: &str) -> &[usize] {
        match self.find(key) {
            Some(Value::Nums(x)) => x,
            other => panic!("{}: {key} is {other:?}, not a list of whole numbers", self.call),
        }
    }

    /// A list, if the case has it.
    pub fn lent(&self, key: &str) -> Option<&[f64]> {
        self.find(key).map(|_| self.l(key))
    }

    pub fn bytes(&self, key: &str) -> &[u8] {
        match self.find(key) {
            Some(Value::Bytes(x)) => x,
            other => panic!("{}: {key} is {other:?}, not bytes", self.call),
        }
    }

    /// Every NaN made the one that is printed.
    pub fn settled(mut self) -> Record {
        for (_, value) in &mut self.fields {
            match value {
                Value::Float(x) => *x = settle(*x),
                Value::List(xs) => xs.iter_mut().for_each(|x| *x = settle(*x)),
                _ => {}
            }
        }
        self
    }

    /// Where two answers first differ in a bit, if they do.
    pub fn difference(&self, other: &Record) -> Option<String> {
        if self.fields.len() != other.fields.len() {
            return Some("the fields".to_string());
        }
        self.fields.iter().zip(&other.fields).find_map(|((key, x), (other_key, y))| {
            if key != other_key {
                Some(format!("{key} and {other_key}"))
            } else {
                unlike(x, y).map(|at| format!("{key}{at}"))
            }
        })
    }

    /// Reads a line that `Display` wrote.
    pub fn parse(line: &str) -> Result<Record, String> {
        let mut words = line.split(' ');
        let name = words.next().unwrap_or("");
        let call = find(name).ok_or(format!("no call `{name}`"))?;
        let mut record = Record::new(call.name);
        for word in words {
            let (key, text) = word.split_once('=').ok_or(format!("`{word}` is not key=value"))?;
            let (key, kind) = *call.given.iter().find(|g| g.0 == key).ok_or(format!("no field `{key}`"))?;
            let value = parse_value(kind, text).ok_or(format!("`{word}` cannot be read"))?;
            record = record.with(key, value);
        }
        match call.given.iter().find(|g| record.find(g.0).is_none()) {
            Some((key, _)) => Err(format!("`{key}` is missing")),
            None => Ok(record),
        }
    }
}

pub fn settle(x: f64) -> f64 {
    if x.is_nan() { f64::from_bits(0x7ff8_0000_0000_0000) } else { x }
}

/// The place of the first difference: empty for a single value.
fn unlike(a: &Value, b: &Value) -> Option<String> {
    let same = match (a, b) {
        (Value::Float(x), Value::Float(y)) => x.to_bits() == y.to_bits(),
        (Value::List(x), Value::List(y)) if x.len() == y.len() => {
            let at = x.iter().zip(y).position(|(x, y)| x.to_bits() != y.to_bits())?;
            return Some(format!("[{at}]"));
        }
        (Value::Nums(x), Value::Nums(y)) if x.len() == y.len() => {
            let at = x.iter().zip(y).position(|(x, y)| x != y)?;
            return Some(format!("[{at}]"));
        }
        _ => a == b,
    };
    if same { None } else { Some(String::new()) }
}

fn parse_value(kind: Kind, text: &str) -> Option<Value> {
    Some(match kind {
        Kind::Num => Value::Num(text.parse().ok()?),
        Kind::Float => Value::Float(parse_float(text)?),
        Kind::List if text.is_empty() => Value::List(Vec::new()),
        Kind::List => Value::List(text.split(',').map(parse_float).collect::<Option<_>>()?),
        Kind::Nums if text.is_empty() => Value::Nums(Vec::new()),
        Kind::Nums => Value::Nums(text.split(',').map(|x| x.parse().ok()).collect::<Option<_>>()?),
        Kind::Bytes => Value::Bytes(parse_bytes(text)?),
    })
}

fn parse_float(text: &str) -> Option<f64> {
    let exact = text.len() == 16 && text.bytes().all(|b| matches!(b, b'0'..=b'9' | b'a'..=b'f'));
    if exact { u64::from_str_radix(text, 16).ok().map(f64::from_bits) } else { None }
}

fn parse_bytes(text: &str) -> Option<Vec<u8>> {
    let pairs = text.as_bytes().chunks(2);
    pairs.map(|p| u8::from_str_radix(std::str::from_utf8(p).ok()?, 16).ok()).collect()
}

impl fmt::Display for Record {
    fn fmt(&self, f: &mut fmt::Formatter<'_>) -> fmt::Result {
        write!(f, "{}", self.call)?;
        for (key, value) in &self.fields {
            write!(f, " {key}=")?;
            match value {
                Value::Num(x) => write!(f, "{x}")?,
                Value::Float(x) => write!(f, "{:016x}", x.to_bits())?,
                Value::Bytes(bytes) => bytes.iter().try_for_each(|b| write!(f, "{b:02x}"))?,
                Value::List(xs) => joined(f, xs.iter().map(|x| format!("{:016x}", x.to_bits())))?,
                Value::Nums(xs) => joined(f, xs.iter().map(usize::to_string))?,
            }
        }
        Ok(())
    }
}

fn joined(f: &mut fmt::Formatter<'_>, words: impl Iterator<Item = String>) -> fmt::Result {
    f.write_str(&words.collect::<Vec<_>>().join(","))
}
