//! One graph with its levels, as the Rust, the model and the library take it; and faults on purpose.

use crate::aig::AIG;
use crate::random::Random;
use crate::tables::{aig_of, graph_of};
use crate::{draft, graph, netlist};
use text::*;

pub const MOST_PINS: usize = 16_777_215;
pub const MOST_RECORDS: usize = 1_048_576;

/// The four tables of a graph as words, and its counts.
#[derive(Clone, Default)]
pub struct Words {
    pub pins: u32,
    pub output_count: u32,
    pub dff_count: u32,
    pub ram_count: u32,
    pub drivers: Vec<u32>,
    pub outputs: Vec<u32>,
    pub dffs: Vec<u32>,
    pub rams: Vec<u32>,
}

pub struct Case {
    pub origin: &'static str,
    pub graph: Graph,
    pub aig: AIG,
    pub words: Words,
    pub levels: Vec<usize>,
}

impl Case {
    /// A graph that the Rust builds of a netlist, one made directly, or one with a fault or two.
    pub fn new(random: &mut Random, size: usize) -> Case {
        let size = 1 + random.below(size);
        let (origin, graph, aig) = match random.below(8) {
            0..=2 => {
                let db = netlist::netlistdb(&draft::netlist(random, size));
                let aig = AIG::from_netlistdb(&db);
                ("graphs that the Rust built of a netlist", graph_of(&aig), aig)
            }
            3..=6 => {
                let graph = graph::graph(random, size);
                let aig = aig_of(&graph);
                ("graphs made directly", graph, aig)
            }
            _ => {
                let mut graph = graph::graph(random, size);
                for _ in 0..random.between(1, 2) {
                    graph::break_one(random, &mut graph);
                }
                let aig = aig_of(&graph);
                ("graphs with one or two faults", graph, aig)
            }
        };
        let levels = levels(random);
        Case { origin, words: words(&graph), graph, aig, levels }
    }

    pub fn pins(&self) -> usize {
        self.graph.drivers.len() - 1
    }

    pub fn endpoints(&self) -> usize {
        self.graph.outputs.len() + self.graph.dffs.len() + self.graph.rams.len()
    }

    /// Whether the Rust keeps all endpoints: it drops an output literal that repeats.
    pub fn whole(&self) -> bool {
        self.aig.num_endpoint_groups() == self.endpoints()
    }
}

/// Mostly levels that strictly increase; now and then equal, falling, too large or too many.
pub fn levels(random: &mut Random) -> Vec<usize> {
    let count = if random.one_in(20) { random.below(65) } else { random.below(6) };
    let step = random.pick(&[1, 1, 2, 4, 30]);
    let mut level = random.below(3);
    let mut levels = Vec::new();
    for _ in 0..count {
        levels.push(level);
        level += random.between(1, step);
    }
    match random.below(24) {
        0 => levels.push(level.saturating_sub(random.between(1, 3))),
        1 => random.shuffle(&mut levels),
        2 => levels.push(random.between(MOST_PINS - 1, MOST_PINS + 1)),
        3 => levels.extend(level..level + random.between(60, 66)),
        _ => {}
    }
    levels
}

pub fn narrow(list: &[usize]) -> Vec<u32> {
    list.iter().map(|&word| word as u32).collect()
}

pub fn words(graph: &Graph) -> Words {
    let driver = |driver: &Driver| match *driver {
        Driver::Constant => [0, 0, 0],
        Driver::And(a, b) => [1, a, b],
        Driver::Port(port) => [2, port, 0],
        Driver::Flag(port, falling) => [3, port, falling as usize],
        Driver::Dff(cell) => [4, cell, 0],
        Driver::Ram(cell) => [5, cell, 0],
    };
    let drivers: Vec<usize> = graph.drivers.iter().flat_map(driver).collect();
    let dffs: Vec<usize> =
        graph.dffs.iter().flat_map(|dff| [dff.next, dff.enable, dff.pin]).collect();
    Words {
        pins: graph.drivers.len() as u32 - 1,
        output_count: graph.outputs.len() as u32,
        dff_count: graph.dffs.len() as u32,
        ram_count: graph.rams.len() as u32,
        drivers: narrow(&drivers),
        outputs: narrow(&graph.outputs),
        dffs: narrow(&dffs),
        rams: narrow(&graph.rams.concat()),
    }
}

/// What a call gets: the words, perhaps with a fault, how many words of work and of counts, whether a
/// room is one short, and the refusal that follows from the fault: 0, 1, 2 or 12.
pub struct Given {
    pub words: Words,
    pub work: usize,
    pub counts: usize,
    pub short: bool,
    pub fault: u32,
}

/// Which of a graph's tables a call takes.
#[derive(Clone, Copy, PartialEq)]
pub enum Takes {
    Drivers,
    Records,
    Graph,
    Counts,
}

impl Given {
    /// Three times in four without a fault.
    pub fn new(random: &mut Random, case: &Case, takes: Takes) -> Given {
        let ends = if takes == Takes::Drivers { 0 } else { case.endpoints() };
        let mut given = Given {
            words: case.words.clone(),
            work: 12 * case.pins() + 4 * ends + 64 + random.pick(&[0, 0, 1, 7]),
            counts: 3 + random.pick(&[0, 0, 1]),
            short: false,
            fault: 0,
        };
        match random.below(24) {
            0 => given.pass_bound(random, takes),
            1 => given.change_length(random, takes),
            2 => given.spoil_driver(random, takes),
            3 => given.counts = random.below(3),
            4 => given.work = (12 * case.pins() + 4 * ends + 64) - 1 - random.pick(&[0, 0, 9]),
            5 => given.short = true,
            _ => {}
        }
        given
    }

    fn pass_bound(&mut self, random: &mut Random, takes: Takes) {
        let past = random.pick(&[1, 2, 1 << 20]);
        let words = &mut self.words;
        match random.below(if takes == Takes::Drivers { 1 } else { 4 }) {
            0 => words.pins = MOST_PINS as u32 + past,
            1 => words.output_count = MOST_RECORDS as u32 + past,
            2 => words.dff_count = MOST_RECORDS as u32 + past,
            _ => words.ram_count = MOST_RECORDS as u32 + past,
        }
        self.fault = 1;
    }

    /// One word more or less in one of the tables.
    fn change_length(&mut self, random: &mut Random, takes: Takes) {
        let words = &mut self.words;
        let table = match (takes, random.below(4)) {
            (Takes::Counts, _) => return,
            (Takes::Drivers, _) | (Takes::Graph, 0) => &mut words.drivers,
            (_, 0 | 1) => &mut words.outputs,
            (_, 2) => &mut words.dffs,
            _ => &mut words.rams,
        };
        if random.one_in(2) || table.pop().is_none() {
            table.push(0);
        }
        self.fault = 2;
    }

    /// One driver is none of the cases.
    fn spoil_driver(&mut self, random: &mut Random, takes: Takes) {
        if !matches!(takes, Takes::Drivers | Takes::Graph) {
            return;
        }
        let pin = random.below(self.words.drivers.len() / 3);
        let row = &mut self.words.drivers[3 * pin..3 * pin + 3];
        match (row[0], random.one_in(2)) {
            (1, _) | (_, true) => row[0] = 6 + random.below(5) as u32,
            (3, _) => row[2] = 2,
            (_, _) => row[2] = 1,
        }
        self.fault = 12;
    }

    /// The answer in document 01's order, from the model's refusal (0: none), whether the call has
    /// work words and counts, and whether the result fits.
    pub fn number(&self, model: u32, lengths: bool, fits: bool) -> u32 {
        match (self.fault, model) {
            (1, _) | (_, 1) => 1,
            (2, _) => 2,
            _ if !lengths => 2,
            (12, _) => 12,
            (_, 0) if !fits => 11,
            (_, number) => number,
        }
    }

    pub fn counted(&self) -> bool {
        self.counts >= 3
    }

    pub fn worked(&self, case: &Case, ends: usize) -> bool {
        self.work >= 12 * case.pins() + 4 * ends + 64
    }

    /// Rooms for results of so many words: enough, or where one is short one too few in one of them;
    /// and whether all fits.
    pub fn rooms<const COUNT: usize>(
        &self,
        random: &mut Random,
        needed: [usize; COUNT],
    ) -> ([usize; COUNT], bool) {
        let mut rooms = needed.map(|words| words + random.pick(&[0, 0, 1, 5]));
        if self.short {
            let tight = random.below(COUNT);
            rooms[tight] = needed[tight].saturating_sub(1);
        }
        (rooms, rooms.iter().zip(needed).all(|(&room, words)| room >= words))
    }
}
