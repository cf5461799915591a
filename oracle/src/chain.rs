//! The calls one after the other on a fresh block, as an encoder makes them: analysis, assignment, error figure, update.

use crate::analysis::Analyze;
use crate::assign::{Assign, Figure};
use crate::blocks::{drawn, Input, Lent, Op, MOST_ENTRIES};
use crate::draw::{input, one_of};
use crate::report::{Random, Report};
use crate::update::Update;

/// All four, up to the first that refuses.
pub struct Chain;

impl Op for Chain {
    const NAME: &'static str = "chain";

    fn source(input: &mut Input) -> u8 {
        first_refusal(input, [Analyze::source, Assign::source, Figure::source, Update::source])
    }

    fn port(input: &mut Input) -> u8 {
        first_refusal(input, [Analyze::port, Assign::port, Figure::port, Update::port])
    }
}

fn first_refusal(input: &mut Input, calls: [fn(&mut Input) -> u8; 4]) -> u8 {
    calls.into_iter().map(|call| call(input)).find(|&number| number != 0).unwrap_or(0)
}

/// A picture's next block: the predictor and the counter are those that the one before left, or another picture's first.
fn next(random: &mut Random, before: &mut Option<Input>) -> Input {
    let mut next = input(random);
    next.limit = one_of(random, &[MOST_ENTRIES, MOST_ENTRIES, 64, 31, 1, 0]);
    if let Some(last) = before.take() {
        if last.config[..4] == next.config[..4] {
            next.lent.predictor = last.lent.predictor;
        }
        (next.lent.keys, next.lent.entry, next.lent.stamp) = (last.lent.keys, last.lent.entry, last.lent.stamp);
    }
    next.lent.block = Lent::default().block;
    let mut after = next.clone();
    Chain::source(&mut after);
    *before = Some(after);
    next
}

pub fn compare(report: &mut Report) {
    let mut before = None;
    drawn::<Chain>(report, "chain", |random| next(random, &mut before));
}
