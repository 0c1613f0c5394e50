//! Chains of moves, moves that stop, exchanges and lists of moves, each on the form as the call before
//! left it: the Rust beside the archive, and what Note 13 of document 02 says of the Rust itself. And
//! chains of sheets: each request has the lines of the form and the factor as the sheet before printed
//! them.

use crate::compare::{self, Plan, SHOWN};
use crate::generate::{self, Sizes, rng::Rng};
use crate::progress::Progress;
use crate::record::Record;
use crate::tally::Tally;
use crate::{archive, calls, lists, refuse, sheet, stride};
use std::collections::BTreeMap;
use std::{fmt, io};

/// The calls, or the sheets, of a chain.
const LENGTH: u64 = 50;

/// What was met, by call.
type Met = BTreeMap<&'static str, Tally>;

/// True if nothing differed: of the calls on the archive, or of the sheets of a program.
pub fn run(plan: &Plan) -> io::Result<bool> {
    match &plan.sheet {
        Some(program) => {
            let mut met = Sheets::default();
            let (differing, seconds) = each(plan, |index| {
                sheets(plan.seed, index, plan.sizes, |text| compare::printed(program, text), &mut met)
            })?;
            println!("{} chains, {met} in {seconds} s, differences: {differing}", plan.count);
            Ok(differing == 0)
        }
        None => {
            archive::linked()?;
            let mut met = Met::default();
            let one = |index| chain(plan.seed, index, plan.sizes, archive::unsettled, &mut met);
            let (differing, seconds) = each(plan, one)?;
            met.iter().for_each(|(name, tally)| println!("{name}: {tally}"));
            let calls: u64 = met.values().map(|tally| tally.cases).sum();
            println!("{} chains, {calls} calls in {seconds} s, differences: {differing}", plan.count);
            Ok(differing == 0)
        }
    }
}

/// Each chain of the plan: how many had something wrong, of which the first are shown, and the seconds.
fn each(plan: &Plan, mut chain: impl FnMut(u64) -> io::Result<Option<String>>) -> io::Result<(u64, u64)> {
    let mut differing = 0;
    let mut progress = Progress::new(plan.count);
    for index in 0..plan.count {
        if let Some(found) = chain(index)? {
            differing += 1;
            if differing <= SHOWN {
                progress.wipe();
                println!("{found}");
            }
        }
        progress.step(|| format!("chains: {} of {}, {differing} differ", index + 1, plan.count));
    }
    progress.wipe();
    Ok((differing, progress.seconds()))
}

/// A chain up to its end, or to the first call at which something is wrong: then this call, and what.
/// Either side goes on with its own form. A list of moves must give what the archive's single moves in
/// turn give on the same form.
fn chain(
    seed: u64,
    index: u64,
    sizes: Sizes,
    archive: impl Fn(&Record) -> Option<Record>,
    met: &mut Met,
) -> io::Result<Option<String>> {
    let rng = &mut Rng::new(seed, "chain", index);
    let mut last = generate::chain(rng, sizes);
    let mut form = last.l("t").to_vec();
    for _ in 0..LENGTH {
        let case = generate::further(rng, &last);
        let (rust, notes) = calls::unsettled(&case);
        let given = case.clone().list_set("t", form);
        let ours = archive(&given).ok_or_else(|| compare::absent(&case))?;
        let tally = met.entry(case.call).or_default();
        tally.add(&case, &rust, &notes);
        seen(&case).for_each(|class| *tally.classes.entry(class).or_default() += 1);
        let wrong = wrong(&case, &rust, &ours).or(not_in_turn(&given, &ours, &archive)?);
        if wrong.is_some() {
            return Ok(wrong);
        }
        form = ours.l("t").to_vec();
        last = case.list_set("t", rust.l("t").to_vec());
    }
    Ok(None)
}

/// What chains of sheets met.
#[derive(Default)]
struct Sheets {
    sheets: u64,
    accepted: u64,
    with_nan: u64,
    with_factor: u64,
    declined: u64,
}

impl fmt::Display for Sheets {
    fn fmt(&self, out: &mut fmt::Formatter) -> fmt::Result {
        let Sheets { sheets, accepted, with_nan, with_factor, declined } = self;
        write!(out, "{sheets} sheets, {accepted} of them accepted, {with_nan} with a NaN, ")?;
        write!(out, "{with_factor} with a factor, {declined} with a decline,")
    }
}

/// A chain of sheets up to its end, or to the first that is not what the Rust's move of the numbers
/// themselves gives: then its request, and both. One request in eight names a row that is not there.
fn sheets(
    seed: u64,
    index: u64,
    sizes: Sizes,
    program: impl Fn(&[u8]) -> io::Result<Vec<u8>>,
    met: &mut Sheets,
) -> io::Result<Option<String>> {
    let rng = &mut Rng::new(seed, "sheets", index);
    let (least, most) = (sizes.least.min(sheet::MOST_ROWS), sizes.most.min(sheet::MOST_ROWS));
    let mut last = generate::sheets(rng, Sizes { least, most });
    let n = last.n("n");
    let mut squares = sheet::squares(last.l("t"), last.l("u"));
    for _ in 0..LENGTH {
        let from = if rng.one_in(8) { n + rng.below(10_000 - n) } else { rng.below(n) };
        let case = last.num("from", from).num("to", rng.below(n));
        let text = format!("n={n}\nfrom={from}\nto={}\n{squares}", case.n("to"));
        let (rust, _) = calls::unsettled(&case);
        let (t, u) = (rust.l("t"), rust.l("u"));
        let wanted = match rust.n("answer") {
            0 => sheet::of_move([rust.n("landed"), rust.n("swaps"), rust.n("declined")], t, u),
            line => format!("answer={line}\n"),
        };
        let printed = program(text.as_bytes())?;
        if printed != wanted.as_bytes() {
            let printed = String::from_utf8_lossy(&printed);
            return Ok(Some(format!("{text}  prints\n{printed}  and not\n{wanted}")));
        }
        met.sheets += 1;
        if rust.n("answer") == 0 {
            met.accepted += 1;
            met.with_nan += u64::from(t.iter().any(|x| x.is_nan()));
            met.with_factor += u64::from(!u.is_empty());
            met.declined += u64::from(rust.n("declined") > 0);
            squares = wanted[wanted.find("t=").expect("a form")..].to_string();
        } else if rust.n("answer") != 7 {
            return Ok(Some(format!("{text}  is turned away by line {}", rust.n("answer"))));
        }
        last = Record::new("reorder_schur").num("n", n).list("t", t.to_vec()).list("u", u.to_vec());
    }
    Ok(None)
}

/// What the form holds that a call is given.
fn seen(case: &Record) -> impl Iterator<Item = &'static str> {
    let (n, t) = (case.n("n"), stride::form(case));
    let classes = [
        (t.iter().any(|x| x.is_nan()), "a NaN in the form"),
        (t.iter().any(|x| x.is_infinite()), "an infinity in the form"),
        ((1..n).any(|i| t[i + n * (i - 1)] != 0.0), "a 2-block in the form"),
    ];
    classes.into_iter().filter(|class| class.0).map(|class| class.1)
}

/// What is wrong with a call, if anything: the archive's answer is another; it is turned away for its
/// form; it leaves a form that would be; or without a factor it gives something else.
fn wrong(case: &Record, rust: &Record, ours: &Record) -> Option<String> {
    let (rust, ours) = (rust.clone().settled(), ours.clone().settled());
    if let Some(place) = rust.difference(&ours) {
        return Some(compare::told(case, &rust, &ours, &place));
    }
    let numbers = numbers(case, &rust);
    if let Some(number) = numbers.iter().find(|number| matches!(number, 2 | 3 | 5 | 6 | 17)) {
        return Some(format!("{case}\n  is turned away by line {number}"));
    }
    let left = case.clone().list_set("t", rust.l("t").to_vec());
    if let Err(line) = refuse::form(case.n("n"), &stride::form(&left)) {
        return Some(format!("{case}\n  leaves a form that line {line} turns away\n  the Rust:    {rust}"));
    }
    if numbers.contains(&4) || case.l("u").is_empty() {
        return None;
    }
    let (without, _) = calls::answer(&case.clone().list_set("u", Vec::new()));
    let place = rust.clone().list_set("u", Vec::new()).difference(&without)?;
    Some(format!("{case}\n  without a factor differs first in {place}\n  with:    {rust}\n  without: {without}"))
}

/// The call's number, and those of its pairs.
fn numbers(case: &Record, answer: &Record) -> Vec<usize> {
    let number = std::iter::once(answer.n("answer"));
    if case.find("moves").is_none() {
        return number.collect();
    }
    number.chain(lists::fours(case, answer).map(|four| four[0])).collect()
}

/// Where a list of moves differs from single moves in turn, by one side alone.
fn not_in_turn(case: &Record, answer: &Record, side: impl Fn(&Record) -> Option<Record>) -> io::Result<Option<String>> {
    if case.find("moves").is_none() {
        return Ok(None);
    }
    let in_turn = lists::in_turn(case, side).ok_or_else(|| compare::absent(case))?.settled();
    let answer = answer.clone().settled();
    let told = |place| format!("{case}\n  in turn differs first in {place}\n  at once: {answer}\n  in turn: {in_turn}");
    Ok(answer.difference(&in_turn).map(told))
}

#[cfg(test)]
mod tests {
    use super::*;
    use crate::generate::USUAL;
    use crate::record::Value;

    fn rust(case: &Record) -> Option<Record> {
        Some(calls::unsettled(case).0)
    }

    /// The Rust alone: nothing is wrong, and all that a chain may meet is met.
    #[test]
    fn the_rust_takes_back_what_it_left() {
        let mut met = Met::default();
        for index in 0..600 {
            assert_eq!(chain(5, index, USUAL, rust, &mut met).unwrap(), None);
        }
        assert_eq!(met.values().map(|tally| tally.cases).sum::<u64>(), 600 * LENGTH);
        assert_eq!(met.len(), 8);
        for (call, tally) in &met {
            let lines = match stride::base_of(call) {
                "schur_swap" => &[0, 4, 7, 8, 9, 10][..],
                lists::CALL => &[0, 12],
                _ => &[0, 4, 7],
            };
            assert_eq!(tally.answers.keys().copied().collect::<Vec<_>>(), lines, "{call}");
            let pairs = if call.contains("list") { &[0, 4, 7][..] } else { &[] };
            assert_eq!(tally.numbers.keys().copied().collect::<Vec<_>>(), pairs, "{call}");
            assert!(tally.split > 0 && tally.declined > 0, "{call}: {tally}");
            let stops = ["stopped at 1-2", "stopped at 2-1", "stopped at 2-2"];
            let forms = ["a NaN in the form", "an infinity in the form", "a 2-block in the form"];
            let stops = if call.contains("stopping") { &stops[..] } else { &[] };
            let met = |class: &&str| tally.classes.contains_key(*class);
            stops.iter().chain(&forms).for_each(|class| assert!(met(class), "{class}: {call}: {tally}"));
        }
    }

    fn by_rust(text: &[u8]) -> Vec<u8> {
        let case = Record::new("sheet").with("text", Value::Bytes(text.to_vec()));
        calls::answer(&case).0.bytes("text").to_vec()
    }

    /// The Rust's sheets alone: nothing is wrong, and all that a chain of sheets may meet is met.
    #[test]
    fn the_rust_takes_back_its_sheets() {
        let mut met = Sheets::default();
        for index in 0..100 {
            assert_eq!(sheets(5, index, USUAL, |text| Ok(by_rust(text)), &mut met).unwrap(), None);
        }
        assert_eq!(met.sheets, 100 * LENGTH);
        let Sheets { accepted, with_nan, with_factor, declined, .. } = met;
        assert!([accepted, with_nan, with_factor, declined].iter().all(|count| *count > 0), "{met}");
        assert!(accepted < met.sheets && with_nan < accepted && with_factor < accepted, "{met}");
    }

    /// A program that forgets a zero's sign, or gives another number, is found.
    #[test]
    fn a_wrong_sheet_is_told() {
        let without_signs = |text: &[u8]| {
            let right = String::from_utf8(by_rust(text)).unwrap();
            Ok(right.replace("8000000000000000", "0000000000000000").into_bytes())
        };
        let always_2 = |_: &[u8]| Ok(b"answer=2\n".to_vec());
        let found = |index| sheets(5, index, USUAL, without_signs, &mut Sheets::default()).unwrap();
        assert!((0..20).any(|index| found(index).is_some()));
        let told = sheets(5, 0, USUAL, always_2, &mut Sheets::default()).unwrap().unwrap();
        assert!(told.contains("prints\nanswer=2\n"), "{told}");
    }

    /// Each check finds what it is for, and a chain ends there.
    #[test]
    fn what_is_wrong_is_told() {
        let diagonal = |numbers: [f64; 3]| (0..9).map(|k| if k % 4 == 0 { numbers[k / 4] } else { 0.0 }).collect();
        let case = Record::new("reorder_schur").num("n", 3).list("t", diagonal([1.0, 2.0, 3.0]));
        let case = case.list("u", diagonal([1.0; 3])).num("from", 0).num("to", 2);
        let right = rust(&case).unwrap();
        let left = |places: &[usize]| {
            let mut t = right.l("t").to_vec();
            places.iter().for_each(|k| t[*k] = f64::NAN);
            right.clone().list_set("t", t)
        };
        let told = |answer: Record, part: &str| {
            let told = wrong(&case, &answer, &answer).unwrap();
            assert!(told.contains(part), "{told}");
        };
        assert_eq!(wrong(&case, &right, &right), None);
        assert!(wrong(&case, &right, &right.clone().num_set("swaps", 7)).unwrap().contains("differs first in swaps"));
        told(right.clone().num_set("answer", 5), "is turned away by line 5");
        told(left(&[2]), "leaves a form that line 5 turns away");
        told(left(&[1, 5]), "leaves a form that line 6 turns away");
        told(left(&[3]), "without a factor differs first in t[3]");
        told(right.clone().num_set("landed", 0), "without a factor differs first in landed");

        let list = Record::new("reorder_schur_list").num("n", 3).nums("moves", vec![0, 2, 2, 1]);
        let list = list.list("t", case.l("t").to_vec()).list("u", Vec::new()).nums("results", vec![9; 9]);
        let listed = rust(&list).unwrap();
        let with = |place: usize, x: usize| {
            let mut results = listed.ns("results").to_vec();
            results[place] = x;
            listed.clone().nums_set("results", results)
        };
        let wrong_of = |answer: &Record| wrong(&list, answer, answer);
        assert_eq!(wrong_of(&listed), None);
        assert!(wrong(&list, &listed, &with(8, 0)).unwrap().contains("differs first in results[8]"));
        assert!(wrong_of(&with(4, 6)).unwrap().contains("is turned away by line 6"));
        let in_turn = |answer: &Record| not_in_turn(&list, answer, rust).unwrap();
        assert_eq!(in_turn(&listed), None);
        assert!(in_turn(&with(6, 2)).unwrap().contains("in turn differs first in results[6]"));

        let mut met = Met::default();
        let another = |case: &Record| rust(case).map(|answer| answer.num_set("declined", 99));
        assert!(chain(5, 0, USUAL, another, &mut met).unwrap().is_some());
        assert_eq!(met.values().map(|tally| tally.cases).sum::<u64>(), 1);
    }
}
