//! Why a call was turned away.

use std::fmt;

/// Why a call was turned away: the first line of the list that applies. No buffer has changed then.
/// Later versions may have more lines, so a `match` needs an arm for the rest.
///
/// ```
/// use volmeixi::Refusal;
///
/// let refusal = volmeixi::reorder_schur(2, &mut [1.0, 0.0, 0.0, 2.0], None, 0, 2).unwrap_err();
/// assert_eq!(refusal, Refusal::Position);
/// assert_eq!(refusal.number(), 7);
/// assert_eq!(refusal.to_string(), "a position or column number is not below n");
/// match refusal {
///     Refusal::Rows => panic!("too many rows"),
///     other => println!("{}: {}", other.number(), other),
/// }
/// ```
#[derive(Clone, Copy, Debug, PartialEq, Eq, Hash)]
#[non_exhaustive]
pub enum Refusal {
    /// 12: the list of moves has more than 64 pairs. (In C also: it has an odd length, or the results
    /// lack four places a pair.)
    MoveList,
    /// 2: n is 0 or above 64.
    Rows,
    /// 17: the stride is below n or above 128.
    Stride,
    /// 3: the form's length is not stride × n.
    FormLength,
    /// 4: a further buffer's length is wrong.
    BufferLength,
    /// 5: an entry more than one row below the diagonal is not zero.
    DeepEntry,
    /// 6: two neighbouring entries just below the diagonal are both not zero.
    Touching,
    /// 7: a position or column number is not below n.
    Position,
    /// 8: n1 or n2 of an exchange is not 1 or 2.
    BlockSize,
    /// 9: the rows of an exchange run past n.
    PastEnd,
    /// 10: a 2-block lies across an edge of an exchange.
    Across,
    /// 11: a reflection's tail has not 1 to 64 numbers.
    TailLength,
    /// Any other number: the archive is newer than this crate.
    Unknown(usize),
}

use Refusal::*;

/// The number of each line, in the order in which they are tested.
const KNOWN: [(usize, Refusal); 12] = [
    (12, MoveList),
    (2, Rows),
    (17, Stride),
    (3, FormLength),
    (4, BufferLength),
    (5, DeepEntry),
    (6, Touching),
    (7, Position),
    (8, BlockSize),
    (9, PastEnd),
    (10, Across),
    (11, TailLength),
];

impl Refusal {
    /// The line's number, as the calls for C give it.
    pub fn number(self) -> usize {
        match self {
            Unknown(number) => number,
            known => KNOWN.iter().find(|(_, line)| *line == known).map_or(0, |(number, _)| *number),
        }
    }

    /// `Ok` for 0.
    pub(crate) fn of(number: usize) -> Result<(), Refusal> {
        match number {
            0 => Ok(()),
            _ => Err(KNOWN.iter().find(|(k, _)| *k == number).map_or(Unknown(number), |(_, line)| *line)),
        }
    }
}

impl fmt::Display for Refusal {
    fn fmt(&self, f: &mut fmt::Formatter<'_>) -> fmt::Result {
        f.write_str(match self {
            MoveList => {
                "the list of moves has an odd length or more than 64 pairs, or the results lack four places a pair"
            }
            Rows => "the number of rows n is 0 or above 64",
            Stride => "the stride is below n or above 128",
            FormLength => "the form's length is not the stride times n",
            BufferLength => {
                "the length of a further buffer is wrong: a factor needs the stride times n numbers or none, \
                 vectors the stride times n, each part of block values n"
            }
            DeepEntry => "the form has an entry more than one row below the diagonal that is not zero",
            Touching => "the form has two neighbouring entries just below the diagonal that are both not zero",
            Position => "a position or column number is not below n",
            BlockSize => "a block size of the exchange is not 1 or 2",
            PastEnd => "the rows of the exchange run past the last row of the form",
            Across => "a 2-block lies across the upper edge, the middle or the lower edge of the exchange",
            TailLength => "the tail of a reflection has not 1 to 64 numbers",
            Unknown(number) => return write!(f, "turned away with number {}, which is not known here", number),
        })
    }
}

impl std::error::Error for Refusal {}

#[cfg(test)]
mod tests {
    use super::*;

    #[test]
    fn every_number_has_a_refusal() {
        assert_eq!(Refusal::of(0), Ok(()));
        for number in (1..20).chain(vec![usize::MAX]) {
            let refusal = Refusal::of(number).unwrap_err();
            assert_eq!(refusal.number(), number);
            assert_eq!(matches!(refusal, Unknown(_)), !matches!(number, 2..=12 | 17));
        }
        assert_eq!(Unknown(13).to_string(), "turned away with number 13, which is not known here");
    }
}
