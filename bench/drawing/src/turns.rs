//! Programs take turns on a case.
use crate::cases::Case;
use crate::{clock, Drawn};
use std::hint::black_box;

#[derive(Clone, Copy)]
pub enum Call {
    Answer(fn(&Case, &mut [u8]) -> Drawn),
    Check(fn(&Case) -> u32),
}

/// How long the turns go on: at least so many rounds and for so many seconds; then until the later half of the rounds has brought nothing
/// better, or the most seconds are over.
pub struct Span {
    pub rounds: usize,
    pub seconds: f64,
    pub most_seconds: f64,
}

/// A time is better if it is less by more than this part of it.
const BETTER: f64 = 0.002;

/// A turn of a short call is several calls, for so many seconds: the clock can be some microseconds off where other work comes between,
/// and all calls but the first find the processor as the same call left it.
const TURN_SECONDS: f64 = 0.002;

/// A call that takes longer than this has one turn.
const LONG_SECONDS: f64 = 1.0;

fn run(call: Call, case: &Case, list: &mut [u8]) {
    match call {
        Call::Answer(answer) => {
            black_box(answer(black_box(case), black_box(list)));
        }
        Call::Check(check) => {
            black_box(check(black_box(case)));
        }
    }
}

/// Seconds for a call, the mean of a turn.
fn turn(call: Call, case: &Case, list: &mut [u8]) -> f64 {
    let start = clock::seconds();
    let mut calls = 0.0;
    loop {
        run(call, case, list);
        calls += 1.0;
        let spent = clock::seconds() - start;
        if spent >= TURN_SECONDS {
            return spent / calls;
        }
    }
}

/// The seconds of each call's best turn: round after round until the span is over.
pub fn take<const N: usize>(calls: [Call; N], case: &Case, span: &Span) -> [f64; N] {
    let mut list = vec![0; case.list];
    let mut best = [f64::INFINITY; N];
    let (mut rounds, mut last_better) = (0, 0);
    let begin = clock::seconds();
    loop {
        let round = calls.map(|call| turn(call, case, &mut list));
        rounds += 1;
        if (0..N).any(|i| round[i] < best[i] * (1.0 - BETTER)) {
            last_better = rounds;
        }
        best = std::array::from_fn(|i| best[i].min(round[i]));
        let spent = clock::seconds() - begin;
        let settled = spent >= span.most_seconds || 2 * last_better <= rounds;
        let long = best.iter().any(|&seconds| seconds > LONG_SECONDS);
        if long || rounds >= span.rounds && spent >= span.seconds && settled {
            return best;
        }
    }
}
