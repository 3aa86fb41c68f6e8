//! Stages: all of a list of levels, one split asked alone, the whole graph, a part of a stage.

use crate::case::{narrow, Case, Given, Takes, MOST_PINS};
use crate::lent::Lent;
use crate::library::{self, Stage};
use crate::random::Random;
use crate::staging::{build_staged_aigs, StagedAIG};
use crate::tally::Tally;
use indexmap::IndexSet;

const MOST_STAGES: usize = 65;

/// 0, or the model's refusal.
fn refusal<Value>(model: &Result<Value, usize>) -> u32 {
    model.as_ref().err().map_or(0, |&number| number as u32)
}

/// What all stages are by the Rust: rows, pins handed on, endpoints.
fn rust_stages(case: &Case) -> [Vec<u32>; 3] {
    let [mut rows, mut handed, mut taken] = [vec![], vec![], vec![]];
    for (lower, upper, stage) in build_staged_aigs(&case.aig, &case.levels) {
        let [hand, ends] = lists(&stage);
        rows.extend([lower as u32, upper as u32, hand.len() as u32, ends.len() as u32]);
        handed.extend(hand);
        taken.extend(ends);
    }
    [rows, handed, taken]
}

fn lists(stage: &StagedAIG) -> [Vec<u32>; 2] {
    [narrow(&stage.primary_output_pins), narrow(&stage.endpoints)]
}

pub fn stages(tally: &mut Tally, random: &mut Random, case: &Case) {
    let model = crate::stages::stages(&case.graph, &case.levels);
    let [rows, handed, taken] = if model.is_ok() { rust_stages(case) } else { Default::default() };
    let mut given = Given::new(random, case, Takes::Graph);
    let needed = [rows.len() / 4, handed.len(), taken.len()];
    let ([row_room, hand_room, take_room], fits) = given.rooms(random, needed);
    if row_room > MOST_STAGES {
        given.fault = 1;
    }
    let odd = random.one_in(48) as usize;
    let lengths = given.counted() && given.worked(case, case.endpoints()) && odd == 0;
    let expected = given.number(refusal(&model), lengths, fits);
    let mut lent = |length: usize| Lent::new(random, length);
    let (mut l, mut h, mut t) = (lent(4 * row_room + odd), lent(hand_room), lent(take_room));
    let (mut n, mut w) = (lent(given.counts), lent(given.work));
    let to = Stage { handed: &mut h, taken: &mut t, counts: &mut n, work: &mut w };
    let levels = narrow(&case.levels);
    let answered = library::stages(&given.words, &levels, row_room as u32, &mut l, to);
    let call = match (expected, needed[0]) {
        (0, 1) => "stages, one",
        (0, _) => "stages, several",
        _ => "stages",
    };
    let (results, counts) = ([("rows", &l, &rows[..]), ("handed", &h, &handed)], narrow(&needed));
    let others = [("taken", &t, &taken[..]), ("counts", &n, &counts), ("work", &w, &[])];
    tally.judge(call, expected, answered, &[&results[..], &others].concat());
}

/// Numbers below a bound, none twice, in any order; now and then one that repeats or is out of range.
fn set(random: &mut Random, bound: usize, share: usize) -> Vec<usize> {
    let mut set = random.order(bound);
    set.truncate(random.below(bound / share + 2));
    match random.below(32) {
        0 => set.push(bound + random.pick(&[0, 1, 1 << 24])),
        1 if !set.is_empty() => set.push(random.pick(&set)),
        _ => {}
    }
    set
}

fn rust_split(case: &Case, chosen: &[usize], before: &[usize], level: usize) -> [Vec<u32>; 2] {
    let sets: [IndexSet<usize>; 2] = [chosen, before].map(|list| list.iter().copied().collect());
    lists(&StagedAIG::from_split(&case.aig, &sets[0], Some(&sets[1]), level))
}

pub fn split(tally: &mut Tally, random: &mut Random, case: &Case) {
    let chosen = set(random, case.endpoints(), 1);
    let before = if random.one_in(3) { vec![] } else { set(random, case.pins() + 1, 3) };
    let level =
        if random.one_in(32) { random.between(MOST_PINS, MOST_PINS + 1) } else { random.below(8) };
    let model = crate::stages::split_alone(&case.graph, level, Some(&chosen), &before);
    let [handed, taken] =
        model.as_ref().map_or(Default::default(), |_| rust_split(case, &chosen, &before, level));
    let given = Given::new(random, case, Takes::Graph);
    let ([hand_room, take_room], fits) = given.rooms(random, [handed.len(), taken.len()]);
    let lengths = given.counted() && given.worked(case, case.endpoints());
    let expected = given.number(refusal(&model), lengths, fits);
    let mut lent = |length: usize| Lent::new(random, length);
    let (mut h, mut t) = (lent(hand_room), lent(take_room));
    let (mut n, mut w) = (lent(given.counts), lent(given.work));
    let to = Stage { handed: &mut h, taken: &mut t, counts: &mut n, work: &mut w };
    let (chosen, before) = (narrow(&chosen), narrow(&before));
    let answered = library::split(&given.words, &chosen, &before, level as u32, to);
    let call = match (expected, handed.len()) {
        (0, 0) => "split, last",
        (0, _) => "split, hands on",
        _ => "split",
    };
    let counts = narrow(&[handed.len(), taken.len()]);
    let results = [("handed", &h, &handed[..]), ("taken", &t, &taken), ("counts", &n, &counts)];
    tally.judge(call, expected, answered, &[&results[..], &[("work", &w, &[])]].concat());
}

pub fn full(tally: &mut Tally, random: &mut Random, case: &Case) {
    if !case.whole() {
        return;
    }
    let [_, taken] = lists(&StagedAIG::from_full_aig(&case.aig));
    let given = Given::new(random, case, Takes::Counts);
    let ([room], fits) = given.rooms(random, [taken.len()]);
    let expected = given.number(0, given.counted(), fits);
    let (mut t, mut n) = (Lent::new(random, room), Lent::new(random, given.counts));
    let answered = library::full(&given.words, &mut t, &mut n);
    let counts = narrow(&[0, taken.len()]);
    tally.judge("full", expected, answered, &[("taken", &t, &taken), ("counts", &n, &counts)]);
}

fn rust_subset(hand: &[usize], ends: &[usize], take: &[usize]) -> [Vec<u32>; 2] {
    let stage = StagedAIG {
        primary_inputs: None,
        primary_output_pins: hand.to_vec(),
        endpoints: ends.to_vec(),
    };
    lists(&stage.to_endpoint_subset(take))
}

pub fn subset(tally: &mut Tally, random: &mut Random, case: &Case) {
    let past = random.one_in(8) as usize;
    let mut list = |bound: usize| -> Vec<usize> {
        (0..random.below(7)).map(|_| random.below(bound)).collect()
    };
    let (hand, ends) = (list(case.pins() + 1), list(case.endpoints()));
    let mut take = list(hand.len() + ends.len() + past);
    if !random.one_in(4) {
        take.sort_by_key(|&place| place >= hand.len());
    }
    let model = crate::stages::subset(&hand, &ends, &take);
    let [handed, taken] =
        model.as_ref().map_or(Default::default(), |_| rust_subset(&hand, &ends, &take));
    let mut given = Given::new(random, case, Takes::Counts);
    given.fault = 0; // no counts of a graph are given
    let ([hand_room, take_room], fits) = given.rooms(random, [handed.len(), taken.len()]);
    let expected = given.number(refusal(&model), given.counted(), fits);
    let mut lent = |length: usize| Lent::new(random, length);
    let (mut h, mut t, mut n) = (lent(hand_room), lent(take_room), lent(given.counts));
    let (hand, ends, take) = (narrow(&hand), narrow(&ends), narrow(&take));
    let answered = library::subset(&hand, &ends, &take, &mut h, &mut t, &mut n);
    let counts = narrow(&[handed.len(), taken.len()]);
    let results = [("handed", &h, &handed[..]), ("taken", &t, &taken), ("counts", &n, &counts)];
    tally.judge("subset", expected, answered, &results);
}
