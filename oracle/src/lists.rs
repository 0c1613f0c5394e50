//! A list of moves at once, from Note 1 of document 02: turned away by line 12, or each pair worked by
//! the single move in turn, whose four numbers are written.

use crate::calls;
use crate::note::{self, Notes};
use crate::record::Record;
use crate::refuse;
use crate::stride;

pub const CALL: &str = "reorder_schur_list";

/// By the Rust's single moves.
pub fn reorder(case: &Record) -> Record {
    let mut met: Vec<Notes> = Vec::new();
    let answer = in_turn(case, |single| {
        let (answer, notes) = calls::unsettled(single);
        met.push(notes);
        Some(answer)
    });
    note::in_turn(&met);
    answer.expect("the Rust's move")
}

/// The answer to a list by single calls in turn, each on the form and the factor as the one before left
/// them; none if a single call has none.
pub fn in_turn(case: &Record, mut single: impl FnMut(&Record) -> Option<Record>) -> Option<Record> {
    let moves = case.ns("moves");
    let (mut t, mut u, mut results) = (case.l("t").to_vec(), case.l("u").to_vec(), case.ns("results").to_vec());
    let passed = refuse::list(moves, &results);
    if passed.is_ok() {
        for (pair, four) in moves.chunks(2).zip(results.chunks_mut(4)) {
            let answer = single(&a_single(case, t, u, pair))?;
            four.copy_from_slice(&match answer.n("answer") {
                0 => [0, answer.n("landed"), answer.n("swaps"), answer.n("declined")],
                number => [number, 0, 0, 0],
            });
            (t, u) = (answer.l("t").to_vec(), answer.l("u").to_vec());
        }
    }
    let number = passed.err().unwrap_or(0);
    Some(Record::new(case.call).num("answer", number).list("t", t).list("u", u).nums("results", results))
}

/// The single call of a pair, with the stride of the list's call if it has one.
fn a_single(case: &Record, t: Vec<f64>, u: Vec<f64>, pair: &[usize]) -> Record {
    let with_stride = stride::taken_by(case.call);
    let single = Record::new(if with_stride { "reorder_schur_ld" } else { "reorder_schur" }).num("n", case.n("n"));
    let single = if with_stride { single.num("ld", case.n("ld")) } else { single };
    single.list("t", t).list("u", u).num("from", pair[0]).num("to", pair[1])
}

/// The four numbers of each pair of a list, unless line 12 turned it away.
pub fn fours<'a>(case: &'a Record, answer: &'a Record) -> impl Iterator<Item = &'a [usize]> {
    let pairs = if answer.n("answer") == 0 { case.ns("moves").len() / 2 } else { 0 };
    answer.ns("results").chunks(4).take(pairs)
}

/// The sentences of the note, one by one.
#[cfg(test)]
mod tests {
    use super::*;
    use crate::generate::{self, USUAL};
    use crate::record::Value;

    const OLD: usize = 77;
    /// The 2-block of rows (0, 1) and (-1, 0), column after column.
    const TURN: [f64; 4] = [0.0, -1.0, 1.0, 0.0];

    fn a_list(n: usize, t: &[f64], moves: &[usize], places: usize) -> Record {
        let case = Record::new(CALL).num("n", n).nums("moves", moves.to_vec()).list("t", t.to_vec());
        case.list("u", Vec::new()).nums("results", vec![OLD; places])
    }

    /// On the diagonal 1, 2, 3.
    fn on_three(moves: &[usize], places: usize) -> Record {
        let t: Vec<f64> = (0..9).map(|k| if k % 4 == 0 { (k / 4 + 1) as f64 } else { 0.0 }).collect();
        a_list(3, &t, moves, places)
    }

    fn answer(case: &Record) -> Record {
        calls::answer(case).0
    }

    fn diagonal(n: usize, t: &[f64]) -> Vec<u64> {
        (0..n).map(|i| t[i + n * i].to_bits()).collect()
    }

    fn same_buffers(case: &Record, answer: &Record) {
        let bits = |record: &Record, key: &str| record.l(key).iter().map(|x| x.to_bits()).collect::<Vec<_>>();
        ["t", "u"].iter().for_each(|key| assert_eq!(bits(case, key), bits(answer, key), "{case}"));
        assert_eq!(case.ns("results"), answer.ns("results"), "{case}");
    }

    /// "writes the four results of each pair": number, landed, swaps, declined, of the call before in
    /// the list first.
    #[test]
    fn four_numbers_of_each_pair() {
        let listed = answer(&on_three(&[0, 2, 2, 1, 1, 1], 12));
        assert_eq!(listed.n("answer"), 0);
        assert_eq!(listed.ns("results"), [0, 2, 2, 0, 0, 1, 1, 0, 0, 1, 0, 0]);
        let [two, one, three] = [2.0, 1.0, 3.0].map(f64::to_bits);
        assert_eq!(diagonal(3, listed.l("t")), [two, one, three]);
    }

    /// "places beyond the last pair's are not written", and a list without a pair writes nothing,
    /// whatever would turn its pairs away.
    #[test]
    fn further_places_stay() {
        assert_eq!(answer(&on_three(&[0, 1], 7)).ns("results"), [0, 1, 1, 0, OLD, OLD, OLD]);
        for case in
            [on_three(&[], 0), on_three(&[], 6), on_three(&[], 1).num_set("n", 65), on_three(&[], 1).num_set("n", 0)]
        {
            let none = answer(&case);
            assert_eq!(none.n("answer"), 0);
            same_buffers(&case, &none);
        }
    }

    /// "12 when the list has an odd length or more than 64 pairs, or the result buffer lacks four places
    /// a pair, tested before 2": nothing is written.
    #[test]
    fn line_12() {
        let turned_away = |moves: usize, places: usize| {
            let case = on_three(&vec![1; moves], places);
            let told = answer(&case);
            if told.n("answer") != 0 {
                same_buffers(&case, &told);
                assert_eq!(answer(&case.num_set("n", 65)).n("answer"), 12);
            }
            told.n("answer")
        };
        assert_eq!([(1, 0), (1, 4), (3, 8), (129, 260)].map(|(moves, places)| turned_away(moves, places)), [12; 4]);
        assert_eq!([turned_away(128, 256), turned_away(130, 260), turned_away(130, 1000)], [0, 12, 12]);
        assert_eq!([turned_away(2, 0), turned_away(2, 3), turned_away(2, 4)], [12, 12, 0]);
        assert_eq!([turned_away(128, 255), turned_away(6, 11), turned_away(6, 12)], [12, 12, 0]);
    }

    /// "a pair that is turned away … writes its number and three zeros, changes nothing else, and the
    /// next pair goes on. The call itself then gives 0".
    #[test]
    fn a_pair_turned_away_between_two() {
        for outside in [3, 4, usize::MAX] {
            for pair in [[outside, 0], [0, outside], [outside, outside]] {
                let listed = answer(&on_three(&[&[0, 2], &pair[..], &[0, 1]].concat(), 12));
                assert_eq!(listed.n("answer"), 0);
                assert_eq!(listed.ns("results"), [0, 2, 2, 0, 7, 0, 0, 0, 0, 1, 1, 0]);
                let without = answer(&on_three(&[0, 2, 0, 1], 8));
                assert_eq!(diagonal(3, listed.l("t")), diagonal(3, without.l("t")));
            }
        }
    }

    /// "for the form's sake too": 2-blocks that touch, a deep entry, lengths, rows and strides turn away
    /// every pair, those out of range too.
    #[test]
    fn every_pair_turned_away() {
        let all = |case: Record, number: usize| {
            let listed = answer(&case);
            assert_eq!(listed.n("answer"), 0, "{case}");
            assert_eq!(listed.ns("results"), [number, 0, 0, 0, number, 0, 0, 0, OLD], "{case}");
            same_buffers(&case.nums_set("results", listed.ns("results").to_vec()), &listed);
        };
        let case = on_three(&[0, 2, 9, 0], 9);
        let with = |places: &[usize]| {
            let mut t = case.l("t").to_vec();
            places.iter().for_each(|k| t[*k] = 1.0);
            case.clone().list_set("t", t)
        };
        all(with(&[1, 5]), 6);
        all(with(&[2]), 5);
        all(with(&[1, 2, 5]), 5);
        all(case.clone().list_set("u", vec![0.0; 8]), 4);
        all(case.clone().list_set("t", vec![0.0; 8]).list_set("u", vec![0.0; 8]), 3);
        all(case.clone().num_set("n", 0), 2);
        all(case.clone().num_set("n", 65), 2);
        let strided = |ld: usize| stride::spread(&case, 4, |_, _, _| 5.0).num_set("ld", ld);
        [0, 2, 129, usize::MAX].into_iter().for_each(|ld| all(strided(ld), 17));
        all(strided(5), 3);
        all(strided(129).num_set("n", 65), 2);
        assert_eq!(answer(&strided(4)).ns("results"), [0, 2, 2, 0, 7, 0, 0, 0, OLD]);
        let turn = answer(&a_list(2, &TURN, &[1, 0, 2, 0], 8));
        assert_eq!(turn.ns("results"), [0, 0, 0, 0, 7, 0, 0, 0]);
    }

    /// "It must equal the single calls made in turn": by the text of each single call, and its answer's.
    #[test]
    fn equal_to_single_calls() {
        for (call, single) in [(CALL, "reorder_schur"), ("reorder_schur_list_ld", "reorder_schur_ld")] {
            for index in 0..2000 {
                let case = generate::case(call, 7, index, USUAL);
                let listed = answer(&case);
                if listed.n("answer") != 0 {
                    continue;
                }
                let mut last = case.clone();
                for (pair, four) in case.ns("moves").chunks(2).zip(listed.ns("results").chunks(4)) {
                    let given = last.fields.iter().filter(|(_, value)| !matches!(value, Value::Nums(_)));
                    let given = Record { call: single, fields: given.cloned().collect() };
                    let line = format!("{given} from={} to={}", pair[0], pair[1]);
                    let one = answer(&Record::parse(&line).unwrap());
                    let numbers = ["answer", "landed", "swaps", "declined"].map(|key| one.n(key));
                    assert_eq!(numbers, four, "{case}");
                    last = last.list_set("t", one.l("t").to_vec()).list_set("u", one.l("u").to_vec());
                }
                let written = 2 * case.ns("moves").len();
                let results = [&listed.ns("results")[..written], &case.ns("results")[written..]].concat();
                same_buffers(&last.nums_set("results", results).settled(), &listed);
            }
        }
    }

    /// Without the pairs that are turned away a list gives the rest of its fours, the same form and factor.
    #[test]
    fn pairs_turned_away_change_nothing() {
        let mut left_out = 0;
        for index in 0..3000 {
            let case = generate::case("reorder_schur_list_ld", 8, index, USUAL);
            let listed = answer(&case);
            let goes_on: Vec<bool> = fours(&case, &listed).map(|four| four[0] == 0).collect();
            let kept = |list: &[usize], size: usize| -> Vec<usize> {
                let chunks = list.chunks(size).zip(&goes_on);
                chunks.filter(|chunk| *chunk.1).flat_map(|chunk| chunk.0.to_vec()).collect()
            };
            left_out += goes_on.iter().filter(|goes_on| !**goes_on).count();
            let results = kept(listed.ns("results"), 4);
            let fewer = case.clone().nums_set("moves", kept(case.ns("moves"), 2));
            let fewer = answer(&fewer.nums_set("results", vec![OLD; results.len()]));
            if listed.n("answer") == 0 {
                same_buffers(&listed.clone().nums_set("results", results), &fewer);
            }
        }
        assert!(left_out > 3000, "{left_out}");
    }

    /// "The rule on lists of moves covers it": on a triangular form each accepted pair lands where it was
    /// sent by so many swaps, and the diagonal's numbers move as in a list.
    #[test]
    fn triangular_forms_move_as_lists() {
        let mut moved = 0;
        for index in 0..4000 {
            let case = generate::case(CALL, 9, index, USUAL);
            let (n, listed) = (case.n("n"), answer(&case));
            let accepted = fours(&case, &listed).any(|four| four[0] == 0);
            if !accepted || (1..n).any(|i| case.l("t")[i + n * (i - 1)] != 0.0) {
                continue;
            }
            let mut rows = diagonal(n, case.clone().settled().l("t"));
            for (pair, four) in case.ns("moves").chunks(2).zip(fours(&case, &listed)) {
                if pair.iter().all(|position| *position < n) {
                    assert_eq!(four, [0, pair[1], pair[0].max(pair[1]) - pair[0].min(pair[1]), 0], "{case}");
                    let row = rows.remove(pair[0]);
                    rows.insert(pair[1], row);
                    moved += 1;
                } else {
                    assert_eq!(four, [7, 0, 0, 0], "{case}");
                }
            }
            assert_eq!(rows, diagonal(n, listed.l("t")), "{case}");
        }
        assert!(moved > 3000, "{moved}");
    }
}
