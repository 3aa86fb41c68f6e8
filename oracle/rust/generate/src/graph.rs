//! Graphs that document 01 admits, and faults in them: for staging without a netlist.

use crate::random::Random;
use text::*;

pub fn graph(random: &mut Random, size: usize) -> Graph {
    let window = random.pick(&[2, 4, 16, usize::MAX]);
    let source_one_in = random.pick(&[2, 4, 16]);
    let mut graph = Graph { drivers: vec![Driver::Constant], ..Graph::default() };
    let mut rams = Vec::new();
    for pin in 1..=random.between(1, size.max(1)) {
        let driver = if pin == 1 || random.one_in(source_one_in) {
            source(random, pin, &mut rams)
        } else {
            let operand = |random: &mut Random| {
                2 * (pin - 1 - random.below(window.min(pin - 1))) + random.below(2)
            };
            let (a, b) = (operand(random), operand(random));
            Driver::And(a.min(b), a.max(b))
        };
        graph.drivers.push(driver);
        if let Driver::Dff(_) = driver {
            graph.dffs.push(Dff { next: 0, enable: 0, pin });
        }
    }
    random.shuffle(&mut graph.dffs);
    graph.rams = rams;

    let most = graph.drivers.len() - 1;
    for _ in 0..random.below(2 + size / 4) {
        let output = literal(random, most, window);
        if !graph.outputs.contains(&output) {
            graph.outputs.push(output);
        }
    }
    for dff in &mut graph.dffs {
        (dff.next, dff.enable) = (literal(random, most, window), literal(random, most, window));
    }
    for ram in &mut graph.rams {
        let tied = random.pick(&[4, 32]);
        for place in (0..READ_DATA).chain(WRITE_ADDRESS..RAM_WORDS) {
            if random.below(tied) < 2 {
                ram[place] = literal(random, most, window);
            }
        }
    }
    graph
}

/// A source; a RAM's pin is put into its record, a new one or the last.
fn source(random: &mut Random, pin: usize, rams: &mut Vec<Ram>) -> Driver {
    match random.below(8) {
        0 => Driver::Flag(pin, random.one_in(2)),
        1..=3 => Driver::Dff(pin),
        4 => {
            if rams.is_empty() || random.one_in(4) {
                rams.push([0; RAM_WORDS]);
            }
            let cell = rams.len() - 1;
            let data = &mut rams[cell][READ_DATA..WRITE_ADDRESS];
            match data.iter().position(|&word| word == 0) {
                Some(bit) => {
                    data[bit] = pin;
                    Driver::Ram(cell)
                }
                None => Driver::Port(pin),
            }
        }
        _ => Driver::Port(pin),
    }
}

/// A literal of any pin, a constant included, mostly of one of the last.
fn literal(random: &mut Random, most: usize, window: usize) -> usize {
    let pin = if random.one_in(4) {
        random.below(most + 1)
    } else {
        most - random.below(window.min(most))
    };
    2 * pin + random.below(2)
}

pub fn break_one(random: &mut Random, graph: &mut Graph) {
    let pins = graph.drivers.len();
    let pin = random.below(pins);
    let any = |random: &mut Random| random.below(2 * pins + 2);
    match random.below(6) {
        0 => graph.drivers[pin] = Driver::And(any(random), any(random)),
        1 => graph.drivers[pin] = random.pick(&[Driver::Constant, Driver::Dff(0), Driver::Ram(0)]),
        2 => graph.outputs.push(any(random)),
        3 => graph.dffs.push(Dff { next: any(random), enable: any(random), pin }),
        4 if !graph.dffs.is_empty() => {
            let place = random.below(graph.dffs.len());
            graph.dffs[place].pin = any(random) / 2;
        }
        5 if !graph.rams.is_empty() => {
            let place = random.below(graph.rams.len());
            graph.rams[place][random.below(RAM_WORDS)] = any(random);
        }
        _ => {}
    }
}
