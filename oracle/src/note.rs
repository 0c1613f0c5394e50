//! What a run of the Rust leaves behind beside its buffers: swaps, declines, splits, the row, how
//! 2-blocks were read, what a move that stops met; of a list of moves, the sums.

use std::cell::Cell;

#[derive(Clone, Copy, Default)]
pub struct Notes {
    /// Runs of the four swap routines.
    pub swaps: usize,
    /// Runs of schur_swap_22 that returned 1.
    pub declined: usize,
    /// Blocks that came apart on the way, or exchanges of a size 2 with a zero inside.
    pub splits: usize,
    /// Where the moved block stands.
    pub here: usize,
    /// 2-blocks whose copies came out of standardising with c zero, with c not zero, and with c a NaN.
    pub real: usize,
    pub complex: usize,
    pub odd: usize,
    /// The sizes of the exchange that a move stopped at, and which of its step it was, from 1.
    pub stop: Option<(usize, usize, usize)>,
    /// 2-blocks that standardising left with b zero and c not, and that were then exchanged.
    pub zero_b: usize,
    /// The pairs of a list of moves with a split.
    pub split_pairs: usize,
}

thread_local! {
    static NOTES: Cell<Notes> = const {
        Cell::new(Notes {
            swaps: 0,
            declined: 0,
            splits: 0,
            here: 0,
            real: 0,
            complex: 0,
            odd: 0,
            stop: None,
            zero_b: 0,
            split_pairs: 0,
        })
    };
}

fn change(f: impl Fn(&mut Notes)) {
    NOTES.with(|cell| {
        let mut notes = cell.get();
        f(&mut notes);
        cell.set(notes);
    });
}

/// Hands out the notes taken so far and starts afresh.
pub fn take() -> Notes {
    NOTES.with(Cell::take)
}

/// Takes down what the single moves of a list left behind: the sums of what moves count.
pub fn in_turn(moves: &[Notes]) {
    let sum = |count: fn(&Notes) -> usize| moves.iter().map(count).sum::<usize>();
    change(|n| {
        n.swaps += sum(|notes| notes.swaps);
        n.declined += sum(|notes| notes.declined);
        n.splits += sum(|notes| notes.splits);
        n.split_pairs += sum(|notes| usize::from(notes.splits > 0));
    });
}

/// The notes taken so far.
pub fn seen() -> Notes {
    NOTES.with(Cell::get)
}

pub fn swap() {
    change(|n| n.swaps += 1);
}

pub fn decline() {
    change(|n| n.declined += 1);
}

pub fn split() {
    change(|n| n.splits += 1);
}

pub fn here(row: usize) {
    change(|n| n.here = row);
}

/// A failed test of an exchange of these sizes, which is a decline too.
pub fn stop(n1: usize, n2: usize, of_step: usize) {
    decline();
    change(|n| n.stop = Some((n1, n2, of_step)));
}

pub fn zero_b() {
    change(|n| n.zero_b += 1);
}

/// A 2-block's copy standardised, by its c.
pub fn pair(c: f64) {
    change(|n| match c {
        _ if c.is_nan() => n.odd += 1,
        _ if c == 0.0 => n.real += 1,
        _ => n.complex += 1,
    });
}
