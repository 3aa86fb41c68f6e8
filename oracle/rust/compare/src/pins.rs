//! Calls on a driver table, and the graph check.

use crate::case::{narrow, Case, Given, Takes};
use crate::lent::Lent;
use crate::library;
use crate::random::Random;
use crate::tally::Tally;
use indexmap::IndexSet;
use text::Driver;

/// What the model says of drivers: 0 or 12.
fn drivers_number(case: &Case) -> u32 {
    crate::stages::traverse(&case.graph, Some(&[]), &[]).err().unwrap_or(0) as u32
}

pub fn check_graph(tally: &mut Tally, random: &mut Random, case: &Case) {
    let model = match crate::stages::stages(&case.graph, &[]) {
        Err(number @ (1 | 12)) => number as u32,
        _ => 0,
    };
    let given = Given::new(random, case, Takes::Graph);
    let expected = given.number(model, given.worked(case, case.endpoints()), true);
    let mut work = Lent::new(random, given.work);
    let answered = library::check_graph(&given.words, &mut work);
    tally.judge("check_graph", expected, answered, &[("work", &work, &[])]);
}

pub fn traverse(tally: &mut Tally, random: &mut Random, case: &Case) {
    let pins = case.pins() + 1;
    let mut list = |share: usize, past: usize| -> Vec<usize> {
        let past = random.one_in(32) as usize * past;
        (0..random.below(share)).map(|_| random.below(pins + past)).collect()
    };
    let (roots, mut handed) = (list(8, 2), list(5, 2));
    if !random.one_in(16) {
        handed = handed.into_iter().collect::<IndexSet<usize>>().into_iter().collect();
    }
    // Roots that are not given are lent all the same, and must not matter.
    let from = (!random.one_in(3)).then_some(&roots);
    let model = crate::stages::traverse(&case.graph, from.map(|list| &list[..]), &handed);
    let order = model.as_ref().map_or_else(
        |_| Default::default(),
        |_| {
            let set: IndexSet<usize> = handed.iter().copied().collect();
            narrow(&case.aig.topo_traverse_generic(from, Some(&set)))
        },
    );
    let given = Given::new(random, case, Takes::Drivers);
    let ([room], fits) = given.rooms(random, [order.len()]);
    let lengths = given.counted() && given.worked(case, 0);
    let expected = given.number(model.err().unwrap_or(0) as u32, lengths, fits);
    let mut lent = |length: usize| Lent::new(random, length);
    let (mut o, mut n, mut w) = (lent(room), lent(given.counts), lent(given.work));
    let to = (&mut o, &mut n, &mut w);
    let answered =
        library::traverse(&given.words, from.is_some(), &narrow(&roots), &narrow(&handed), to);
    tally.judge(
        "traverse",
        expected,
        answered,
        &[("order", &o, &order), ("counts", &n, &[order.len() as u32]), ("work", &w, &[])],
    );
}

/// The Rust's, where it built the graph; else the model's.
fn expected_fanouts(case: &Case) -> (Vec<u32>, Vec<u32>) {
    if case.aig.fanouts_start.is_empty() {
        let (starts, lists) = crate::build::fanouts(&case.graph.drivers);
        (narrow(&starts), narrow(&lists))
    } else {
        (narrow(&case.aig.fanouts_start), narrow(&case.aig.fanouts))
    }
}

pub fn fanouts(tally: &mut Tally, random: &mut Random, case: &Case) {
    let model = drivers_number(case);
    let (starts, lists) = if model == 0 { expected_fanouts(case) } else { Default::default() };
    let given = Given::new(random, case, Takes::Drivers);
    let ([room], fits) = given.rooms(random, [lists.len()]);
    let odd = random.one_in(24) as usize;
    let expected = given.number(model, odd == 0, fits);
    let mut lent = |length: usize| Lent::new(random, length);
    let (mut s, mut l) = (lent(case.pins() + 2 + odd), lent(room));
    let answered = library::fanouts(&given.words, &mut s, &mut l);
    tally.judge("fanouts", expected, answered, &[("starts", &s, &starts), ("lists", &l, &lists)]);
}

/// The bit of each pin, upward: document 01's meaning of a gate.
fn bits(drivers: &[Driver], sources: &[u32]) -> Vec<u32> {
    let mut bits: Vec<u32> = Vec::new();
    for (driver, &source) in drivers.iter().zip(sources) {
        let literal = |literal: usize| bits[literal / 2] ^ (literal % 2) as u32;
        bits.push(match *driver {
            Driver::Constant => 0,
            Driver::And(a, b) => literal(a) & literal(b),
            _ => (source != 0) as u32,
        });
    }
    bits
}

pub fn evaluate(tally: &mut Tally, random: &mut Random, case: &Case) {
    let model = drivers_number(case);
    let given = Given::new(random, case, Takes::Drivers);
    let odd = [random.one_in(24) as usize, random.one_in(24) as usize];
    let sources: Vec<u32> =
        (0..=case.pins() + odd[0]).map(|_| random.pick(&[0, 0, 0, 1, 1, 2, u32::MAX])).collect();
    let bits = if model == 0 { bits(&case.graph.drivers, &sources) } else { vec![] };
    let expected = given.number(model, odd == [0, 0], true);
    let mut lent = Lent::new(random, case.pins() + 1 + odd[1]);
    let answered = library::evaluate(&given.words, &sources, &mut lent);
    tally.judge("evaluate", expected, answered, &[("bits", &lent, &bits)]);
}
