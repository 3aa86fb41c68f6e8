//! Endpoints, traversal, splits, stages and subsets of a graph, with refusals 1 and 12 to 15.

use crate::check::refuse;
use std::collections::HashSet;
use text::*;

const MOST_PINS: usize = 16_777_215;
const MOST_RECORDS: usize = 1_048_576;
const MOST_LEVELS: usize = 64;

pub fn stages(graph: &Graph, levels: &[usize]) -> Result<Vec<Stage>, usize> {
    refuse(
        1,
        !bounded(graph) || levels.len() > MOST_LEVELS || levels.iter().any(|&l| l > MOST_PINS),
    )?;
    refuse(12, !(drivers_fit(&graph.drivers) && records_fit(graph)))?;
    refuse(13, levels.windows(2).any(|pair| pair[0] >= pair[1]))?;
    let mut left = Members::all(endpoints(graph));
    refuse(14, reads_nothing(graph, &left.list))?;

    let mut rows = Vec::new();
    let mut handed = Vec::new();
    let mut lower = 0;
    for &upper in levels {
        let (hand, ends) = split(graph, upper - lower, &left.list, &handed);
        for &endpoint in &ends {
            left.remove(endpoint);
        }
        handed.extend_from_slice(&hand);
        let last = hand.is_empty();
        rows.push(Stage { lower, upper: if last { END } else { upper }, hand, ends });
        if last {
            return Ok(rows);
        }
        lower = upper;
    }
    let (hand, ends) = split(graph, END, &left.list, &handed);
    rows.push(Stage { lower, upper: END, hand, ends });
    Ok(rows)
}

/// A split asked alone: of the given endpoints, or of all.
pub fn split_alone(
    graph: &Graph,
    level: usize,
    ends: Option<&[usize]>,
    handed: &[usize],
) -> Result<(Vec<usize>, Vec<usize>), usize> {
    refuse(1, !bounded(graph) || level > MOST_PINS)?;
    refuse(12, !(drivers_fit(&graph.drivers) && records_fit(graph)))?;
    let all: Vec<usize> = (0..endpoints(graph)).collect();
    let ends = ends.unwrap_or(&all);
    refuse(
        15,
        !is_set_below(ends, endpoints(graph)) || !is_set_below(handed, graph.drivers.len()),
    )?;
    refuse(14, reads_nothing(graph, ends))?;
    Ok(split(graph, level, ends, handed))
}

/// Traversal asked alone: from the given pins, or from all.
pub fn traverse(
    graph: &Graph,
    from: Option<&[usize]>,
    handed: &[usize],
) -> Result<Vec<usize>, usize> {
    let pins = graph.drivers.len();
    refuse(1, pins - 1 > MOST_PINS)?;
    refuse(12, !drivers_fit(&graph.drivers))?;
    let all: Vec<usize> = (1..pins).collect();
    let from = from.unwrap_or(&all);
    refuse(15, from.iter().any(|&pin| pin >= pins) || !is_set_below(handed, pins))?;
    Ok(order(graph, from, &handed.iter().copied().collect()))
}

pub fn subset(
    hand: &[usize],
    ends: &[usize],
    take: &[usize],
) -> Result<(Vec<usize>, Vec<usize>), usize> {
    refuse(15, take.iter().any(|&index| index >= hand.len() + ends.len()))?;
    let is_hand = |index: &usize| *index < hand.len();
    refuse(15, !take.is_sorted_by_key(|index| !is_hand(index)))?;
    let (first, second): (Vec<usize>, Vec<usize>) = take.iter().partition(|index| is_hand(index));
    Ok((
        first.iter().map(|&index| hand[index]).collect(),
        second.iter().map(|&index| ends[index - hand.len()]).collect(),
    ))
}

pub fn endpoint(graph: &Graph, endpoint: usize) -> Result<(&'static str, Vec<usize>), usize> {
    refuse(15, endpoint >= endpoints(graph))?;
    let case = if endpoint < graph.outputs.len() {
        "output"
    } else if endpoint < graph.outputs.len() + graph.dffs.len() {
        "dff"
    } else {
        "ram"
    };
    Ok((case, inputs(graph, endpoint)))
}

fn bounded(graph: &Graph) -> bool {
    graph.drivers.len() - 1 <= MOST_PINS
        && graph.outputs.len() <= MOST_RECORDS
        && graph.dffs.len() <= MOST_RECORDS
        && graph.rams.len() <= MOST_RECORDS
}

fn drivers_fit(drivers: &[Driver]) -> bool {
    drivers.iter().enumerate().all(|(pin, driver)| match *driver {
        Driver::Constant => pin == 0,
        Driver::And(a, b) => pin != 0 && 2 <= a && a <= b && b / 2 < pin,
        _ => pin != 0,
    })
}

fn records_fit(graph: &Graph) -> bool {
    let literals = graph
        .outputs
        .iter()
        .chain(graph.dffs.iter().flat_map(|dff| [&dff.next, &dff.enable]))
        .chain(
            graph.rams.iter().flat_map(|ram| ram[..READ_DATA].iter().chain(&ram[WRITE_ADDRESS..])),
        );
    let driven = |of: fn(&Driver) -> bool| -> Vec<usize> {
        (0..graph.drivers.len()).filter(|&pin| of(&graph.drivers[pin])).collect()
    };
    let mut dff_pins: Vec<usize> = graph.dffs.iter().map(|dff| dff.pin).collect();
    let mut ram_pins: Vec<usize> =
        graph.rams.iter().flat_map(|ram| &ram[READ_DATA..WRITE_ADDRESS]).copied().collect();
    ram_pins.retain(|&pin| pin != 0);
    dff_pins.sort();
    ram_pins.sort();
    dff_pins == driven(|driver| matches!(driver, Driver::Dff(_)))
        && ram_pins == driven(|driver| matches!(driver, Driver::Ram(_)))
        && literals.copied().all(|literal| literal / 2 < graph.drivers.len())
        && graph.outputs.iter().collect::<HashSet<_>>().len() == graph.outputs.len()
}

fn is_set_below(list: &[usize], bound: usize) -> bool {
    list.iter().all(|&index| index < bound)
        && list.iter().collect::<HashSet<_>>().len() == list.len()
}

fn endpoints(graph: &Graph) -> usize {
    graph.outputs.len() + graph.dffs.len() + graph.rams.len()
}

/// The pins that an endpoint reads, pin 0 not counted.
fn inputs(graph: &Graph, endpoint: usize) -> Vec<usize> {
    let (outputs, dffs) = (graph.outputs.len(), graph.dffs.len());
    let mut literals = Vec::new();
    if endpoint < outputs {
        literals.push(graph.outputs[endpoint]);
    } else if endpoint < outputs + dffs {
        let dff = graph.dffs[endpoint - outputs];
        literals.extend([dff.enable, dff.next]);
    } else {
        let ram = &graph.rams[endpoint - outputs - dffs];
        literals.push(ram[0]);
        for bit in 0..13 {
            literals.extend([ram[READ_ADDRESS + bit], ram[WRITE_ADDRESS + bit]]);
        }
        for bit in 0..32 {
            literals.extend([ram[WRITE_ENABLE + bit], ram[WRITE_DATA + bit]]);
        }
    }
    literals.iter().map(|literal| literal / 2).filter(|&pin| pin != 0).collect()
}

fn reads_nothing(graph: &Graph, ends: &[usize]) -> bool {
    ends.iter().all(|&endpoint| inputs(graph, endpoint).is_empty())
}

/// The operand pins of a gate that is not handed on; none for any other pin.
fn operands(graph: &Graph, handed: &HashSet<usize>, pin: usize) -> Vec<usize> {
    match graph.drivers[pin] {
        Driver::And(a, b) if !handed.contains(&pin) => vec![a / 2, b / 2],
        _ => vec![],
    }
}

/// The visit order: operands before their gate, the first before the second, none twice.
fn order(graph: &Graph, from: &[usize], handed: &HashSet<usize>) -> Vec<usize> {
    let mut listed = Vec::new();
    let mut met = vec![false; graph.drivers.len()];
    let mut waiting: Vec<(usize, bool)> = from.iter().rev().map(|&pin| (pin, false)).collect();
    while let Some((pin, operands_done)) = waiting.pop() {
        if operands_done {
            listed.push(pin);
        } else if !met[pin] {
            met[pin] = true;
            waiting.push((pin, true));
            waiting.extend(operands(graph, handed, pin).iter().rev().map(|&pin| (pin, false)));
        }
    }
    listed
}

/// One split: the pins handed on and the endpoints taken.
fn split(graph: &Graph, most: usize, left: &[usize], handed: &[usize]) -> (Vec<usize>, Vec<usize>) {
    let handed: HashSet<usize> = handed.iter().copied().collect();
    let read: Vec<usize> = left.iter().flat_map(|&endpoint| inputs(graph, endpoint)).collect();
    let visited = order(graph, &read, &handed);

    let mut level = vec![0; graph.drivers.len()];
    let mut readings = vec![0; graph.drivers.len()];
    for &pin in &visited {
        for operand in operands(graph, &handed, pin) {
            level[pin] = level[pin].max(1 + level[operand]);
            readings[operand] += 1;
        }
    }
    for &pin in &read {
        readings[pin] += 1;
    }

    let mut joined = Members::none(graph.drivers.len());
    let mut done_reading = |joined: &mut Members, pin: usize| {
        readings[pin] -= 1;
        if readings[pin] == 0 {
            joined.remove(pin);
        }
    };
    for &pin in visited.iter().filter(|&&pin| level[pin] <= most) {
        joined.join(pin);
        for operand in operands(graph, &handed, pin) {
            done_reading(&mut joined, operand);
        }
    }
    let mut taken = Vec::new();
    for &endpoint in left {
        let pins = inputs(graph, endpoint);
        if pins.iter().all(|&pin| level[pin] <= most) {
            taken.push(endpoint);
            for pin in pins {
                done_reading(&mut joined, pin);
            }
        }
    }
    joined.list.retain(|pin| !handed.contains(pin));
    (joined.list, taken)
}

/// A set in insertion order whose last member takes the place of one that is removed.
struct Members {
    list: Vec<usize>,
    place: Vec<usize>,
}

impl Members {
    fn none(bound: usize) -> Members {
        Members { list: Vec::new(), place: vec![usize::MAX; bound] }
    }

    fn all(bound: usize) -> Members {
        Members { list: (0..bound).collect(), place: (0..bound).collect() }
    }

    fn join(&mut self, pin: usize) {
        self.place[pin] = self.list.len();
        self.list.push(pin);
    }

    fn remove(&mut self, pin: usize) {
        let place = self.place[pin];
        self.list.swap_remove(place);
        if let Some(&moved) = self.list.get(place) {
            self.place[moved] = place;
        }
    }
}
