//! Makes netlist texts by chance: text `number` of a seed is always the same one.
//!
//! `generate [--seed N] [--first N] [--count N] [--size N] [--graphs] [--broken] [--requests]`
//! `generate --chain CELLS`

mod broken;
mod draft;
mod graph;
mod random;

use random::Random;
use std::io::Write;
use text::*;

const USAGE: &str = "generate [--seed N] [--first N] [--count N] [--size N] [--graphs] [--broken] \
                     [--requests], or generate --chain CELLS";

/// What is to be made.
#[derive(Default)]
struct Wanted {
    size: usize,
    graphs: bool,
    broken: bool,
    requests: bool,
}

fn main() {
    let (mut seed, mut first, mut count) = (1, 0, 1);
    let mut wanted = Wanted { size: 20, ..Wanted::default() };
    let mut arguments = std::env::args().skip(1);
    while let Some(argument) = arguments.next() {
        let mut number =
            || -> usize { arguments.next().and_then(|word| word.parse().ok()).expect(USAGE) };
        match argument.as_str() {
            "--seed" => seed = number(),
            "--first" => first = number(),
            "--count" => count = number(),
            "--size" => wanted.size = number(),
            "--graphs" => wanted.graphs = true,
            "--broken" => wanted.broken = true,
            "--requests" => wanted.requests = true,
            "--chain" => return chain(number()),
            _ => panic!("{USAGE}"),
        }
    }
    let mut output = std::io::BufWriter::new(std::io::stdout().lock());
    for number in first..first + count {
        let mut random = Random::new(seed, number);
        let part = if number == first { "" } else { "---\n" };
        let text = text(&mut random, &wanted);
        write!(output, "{part}{text}").expect("output");
    }
}

/// A chain of AND2_00_0 from two input ports to an output port, which is visited first: the deepest
/// netlist and graph for its size.
fn chain(cells: usize) {
    let port = |direction, net| Pin { cell: 0, name: 0, bit: 0, direction, net };
    let mut netlist = Netlist {
        cells: vec![Cell { kind: 0, list: vec![0, 1, 2] }],
        pins: vec![port(0, cells + 1), port(1, 0), port(1, 1)],
        nets: vec![Net::Driven(1), Net::Driven(2)],
    };
    for cell in 1..=cells {
        let first = netlist.pins.len();
        netlist.cells.push(Cell { kind: 1, list: vec![first, first + 1, first + 2] });
        for (name, direction, net) in [(1, 0, cell), (2, 0, 0), (3, 1, cell + 1)] {
            netlist.pins.push(Pin { cell, name, bit: 0, direction, net });
        }
        netlist.nets.push(Net::Driven(first + 2));
    }
    let mut out = String::new();
    write_netlist(&mut out, &netlist);
    print!("{out}");
}

fn text(random: &mut Random, wanted: &Wanted) -> String {
    let mut out = String::new();
    let mut splits = splits(random);
    let faults = if wanted.broken { random.between(1, 2) } else { 0 };
    let graph_pins = if wanted.graphs {
        let mut graph = graph::graph(random, wanted.size);
        for _ in 0..faults {
            graph::break_one(random, &mut graph);
        }
        write_graph(&mut out, &graph);
        graph.drivers.len() - 1
    } else {
        let mut netlist = draft::netlist(random, wanted.size);
        for _ in 0..faults {
            broken::break_one(random, &mut netlist, &mut splits);
        }
        write_netlist(&mut out, &netlist);
        netlist.pins.len() / 4
    };
    for level in splits {
        write_words(&mut out, "split", [level]);
    }
    if wanted.requests {
        for _ in 0..random.between(1, 6) {
            request(random, &mut out, graph_pins);
        }
    }
    out
}

/// Levels that strictly increase: mostly few and near the sources, now and then many or far.
fn splits(random: &mut Random) -> Vec<usize> {
    let count = if random.one_in(20) { random.below(65) } else { random.below(6) };
    let step = random.pick(&[1, 1, 2, 4, 30]);
    let mut level = random.below(3);
    let mut levels = Vec::new();
    for _ in 0..count {
        levels.push(level);
        level += random.between(1, step);
    }
    levels
}

/// A request whose numbers mostly fit a graph with so many pins.
fn request(random: &mut Random, out: &mut String, pins: usize) {
    let line = match random.below(6) {
        0 => "traverse".to_string(),
        1 => format!("traverse\tfrom{}\thanded{}", list(random, pins), set(random, pins)),
        2 => format!("fromsplit\t{}\thanded{}", random.below(6), set(random, pins)),
        3 => format!(
            "fromsplit\t{}\tends{}\thanded{}",
            random.below(6),
            set(random, 3),
            set(random, pins)
        ),
        4 => {
            let (hand, ends) = (list(random, pins), list(random, 9));
            let room = hand.matches('\t').count() + ends.matches('\t').count();
            let mut take: Vec<usize> =
                (0..random.below(8)).map(|_| random.below(room + 1)).collect();
            if random.one_in(2) {
                take.sort();
            }
            let take: String = take.iter().map(|index| format!("\t{index}")).collect();
            format!("subset\thand{hand}\tends{ends}\ttake{take}")
        }
        _ => format!("endpoint\t{}", random.below(8)),
    };
    out.push_str(&line);
    out.push('\n');
}

fn list(random: &mut Random, most: usize) -> String {
    (0..random.below(6)).map(|_| format!("\t{}", random.below(most + 1))).collect()
}

/// As a list, but none twice.
fn set(random: &mut Random, most: usize) -> String {
    let length = random.below(6);
    random.order(most + 1).iter().take(length).map(|index| format!("\t{index}")).collect()
}
