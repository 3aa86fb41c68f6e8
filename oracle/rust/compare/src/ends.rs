//! Endpoints by number and by place, and each of their inputs.

use crate::aig::EndpointGroup;
use crate::case::{narrow, Case, Given, Takes, Words};
use crate::lent::Lent;
use crate::library;
use crate::random::Random;
use crate::staging::StagedAIG;
use crate::tally::Tally;

/// An endpoint by the Rust: its case, its place in its table or its pin, and the pins that it reads.
fn described(case: &Case, group: EndpointGroup, endpoint: usize) -> ([u32; 2], Vec<u32>) {
    let (outputs, dffs) = (case.graph.outputs.len(), case.graph.dffs.len());
    let found = match group {
        EndpointGroup::PrimaryOutput(_) => [0, endpoint],
        EndpointGroup::DFF(_) => [1, endpoint - outputs],
        EndpointGroup::RAMBlock(_) => [2, endpoint - outputs - dffs],
        EndpointGroup::StagedIOPin(pin) => [3, pin],
    };
    let mut inputs = Vec::new();
    group.for_each_input(|pin| inputs.push(pin));
    (found.map(|word| word as u32), narrow(&inputs))
}

/// Each input that is there, and one that is not.
fn inputs(
    tally: &mut Tally,
    random: &mut Random,
    case: &Case,
    (call, pins): (&'static str, &[u32]),
    ask: impl Fn(&Words, u32, &mut Lent) -> u32,
) {
    for number in 0..=pins.len() {
        let given = Given::new(random, case, Takes::Records);
        let mut counts = Lent::new(random, given.counts);
        let answered = ask(&given.words, number as u32, &mut counts);
        let pin: Vec<u32> = pins.get(number).copied().into_iter().collect();
        let expected = given.number(if pin.is_empty() { 15 } else { 0 }, given.counted(), true);
        tally.judge(call, expected, answered, &[("counts", &counts, &pin)]);
    }
}

pub fn endpoint(tally: &mut Tally, random: &mut Random, case: &Case) {
    if !case.whole() {
        return;
    }
    let endpoint = random.below(case.endpoints() + 1);
    let there = endpoint < case.endpoints();
    let (found, pins) = if there {
        described(case, case.aig.get_endpoint_group(endpoint), endpoint)
    } else {
        Default::default()
    };
    let given = Given::new(random, case, Takes::Counts);
    let expected = given.number(if there { 0 } else { 15 }, given.counted(), true);
    let mut counts = Lent::new(random, given.counts);
    let endpoint = endpoint as u32;
    let answered = library::endpoint(&given.words, endpoint, &mut counts);
    tally.judge("endpoint", expected, answered, &[("counts", &counts, &found)]);
    inputs(tally, random, case, ("input", &pins), |words, number, counts| {
        library::input(words, endpoint, number, counts)
    });
}

pub fn staged_endpoint(tally: &mut Tally, random: &mut Random, case: &Case) {
    if !case.whole() {
        return;
    }
    let mut list = |bound: usize| -> Vec<usize> {
        (0..random.below(5).min(bound)).map(|_| random.below(bound)).collect()
    };
    let (hand, ends) = (list(case.pins() + 1), list(case.endpoints()));
    let (h, t) = (narrow(&hand), narrow(&ends));
    let place = random.below(hand.len() + ends.len() + 1);
    let there = place < hand.len() + ends.len();
    let (found, pins) = if there {
        let endpoint = place.checked_sub(hand.len()).map_or(0, |place| ends[place]);
        let stage = StagedAIG { primary_inputs: None, primary_output_pins: hand, endpoints: ends };
        described(case, stage.get_endpoint_group(&case.aig, place), endpoint)
    } else {
        Default::default()
    };
    let given = Given::new(random, case, Takes::Counts);
    let expected = given.number(if there { 0 } else { 15 }, given.counted(), true);
    let mut counts = Lent::new(random, given.counts);
    let place = place as u32;
    let answered = library::staged_endpoint(&given.words, &h, &t, place, &mut counts);
    tally.judge("staged_endpoint", expected, answered, &[("counts", &counts, &found)]);
    inputs(tally, random, case, ("staged_input", &pins), |words, number, counts| {
        library::staged_input(words, &h, &t, place, number, counts)
    });
}
