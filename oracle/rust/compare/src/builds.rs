//! Building: netlists made by chance, admitted or with a fault or two, and then the stages of what was built.

use crate::aig::AIG;
use crate::case::{levels, narrow, words, Case, Words, MOST_PINS, MOST_RECORDS};
use crate::lent::Lent;
use crate::random::Random;
use crate::tables::{graph_of, word};
use crate::tally::Tally;
use crate::{broken, check, draft, library, netlist, splits};
use text::*;

const MOST_FANOUTS: usize = 33_554_430;

/// The five tables of a netlist as words, and its counts.
pub struct NetlistWords {
    pub cell_count: u32,
    pub pin_count: u32,
    pub net_count: u32,
    pub kinds: Vec<u32>,
    pub starts: Vec<u32>,
    pub list: Vec<u32>,
    pub pins: Vec<u32>,
    pub nets: Vec<u32>,
}

impl NetlistWords {
    pub fn new(netlist: &Netlist) -> NetlistWords {
        let mut starts = vec![0];
        for cell in &netlist.cells {
            starts.push(starts.last().unwrap() + cell.list.len() as u32);
        }
        let pin = |pin: &Pin| narrow(&[pin.cell, pin.name, pin.bit, pin.direction, pin.net]);
        let net = |net: &Net| match *net {
            Net::Zero => 0,
            Net::One => 1,
            Net::Driven(pin) => 2 + pin as u32,
        };
        NetlistWords {
            cell_count: netlist.cells.len() as u32,
            pin_count: netlist.pins.len() as u32,
            net_count: netlist.nets.len() as u32,
            kinds: netlist.cells.iter().map(|cell| cell.kind as u32).collect(),
            starts,
            list: netlist.cells.iter().flat_map(|cell| narrow(&cell.list)).collect(),
            pins: netlist.pins.iter().flat_map(pin).collect(),
            nets: netlist.nets.iter().map(net).collect(),
        }
    }
}

/// Where the graph goes: rooms for pins, outputs, flip-flops, RAMs and fanouts, and the lent tables.
pub struct Built {
    pub rooms: [u32; 5],
    pub drivers: Lent,
    pub outputs: Lent,
    pub dffs: Lent,
    pub rams: Lent,
    pub literals: Lent,
    pub starts: Lent,
    pub fanouts: Lent,
    pub counts: Lent,
    pub work: Lent,
}

impl Built {
    /// With a fault now and then: fewer words of work or counts than needed, or one table a word too
    /// long or too short. And whether there is none.
    fn new(
        random: &mut Random,
        [pins, outputs, dffs, rams, fanouts]: [usize; 5],
        netlist_pins: usize,
    ) -> (Built, bool) {
        let mut work = 8 * netlist_pins + 8 * pins + 1024;
        let mut counts = 5 + random.pick(&[0, 0, 1]);
        let exact =
            [3 * (pins + 1), outputs, 3 * dffs, 123 * rams, netlist_pins, pins + 2, fanouts];
        let mut lengths = exact;
        match random.below(40) {
            0 => work -= random.pick(&[1, 1, 9]),
            1 => counts = random.below(5),
            2 => {
                let length = &mut lengths[random.below(7)];
                *length = if random.one_in(2) { length.saturating_sub(1) } else { *length + 1 };
            }
            _ => work += random.pick(&[0, 0, 1, 9]),
        }
        let long = work >= 8 * netlist_pins + 8 * pins + 1024;
        let fits = counts >= 5 && long && lengths == exact;
        let [drivers, outputs_table, dffs_table, rams_table, literals, starts, fanouts_table] =
            lengths.map(|length| Lent::new(random, length));
        let built = Built {
            rooms: [pins, outputs, dffs, rams, fanouts].map(|room| room as u32),
            drivers,
            outputs: outputs_table,
            dffs: dffs_table,
            rams: rams_table,
            literals,
            starts,
            fanouts: fanouts_table,
            counts: Lent::new(random, counts),
            work: Lent::new(random, work),
        };
        (built, fits)
    }
}

/// What the Rust builds.
struct Made {
    aig: AIG,
    graph: Graph,
    words: Words,
    /// Pins, gates, outputs, flip-flops, RAMs.
    tally: [usize; 5],
}

impl Made {
    fn new(netlist: &Netlist) -> Made {
        let aig = AIG::from_netlistdb(&netlist::netlistdb(netlist));
        let graph = graph_of(&aig);
        let gates = graph.drivers.iter().filter(|driver| matches!(driver, Driver::And(..))).count();
        let (pins, outputs) = (graph.drivers.len() - 1, graph.outputs.len());
        Made {
            words: words(&graph),
            tally: [pins, gates, outputs, graph.dffs.len(), graph.rams.len()],
            graph,
            aig,
        }
    }

    /// Literals, starts, fanouts and tallies.
    fn lists(&self) -> [Vec<u32>; 4] {
        let literals: Vec<usize> =
            self.aig.pin2aigpin_iv.iter().map(|&literal| word(literal)).collect();
        [&literals, &self.aig.fanouts_start, &self.aig.fanouts, &self.tally[..]].map(narrow)
    }

    fn needed(&self) -> [usize; 5] {
        let [pins, gates, outputs, dffs, rams] = self.tally;
        [pins, outputs, dffs, rams, 2 * gates]
    }
}

/// A fault in the tables of the netlist that no text has. The refusal that follows: 0, 1, 2 or 5.
fn spoil(random: &mut Random, given: &mut NetlistWords) -> u32 {
    match random.below(60) {
        0 => {
            let count = match random.below(3) {
                0 => &mut given.cell_count,
                1 => &mut given.pin_count,
                _ => &mut given.net_count,
            };
            *count = MOST_RECORDS as u32 + random.pick(&[1, 2, 1 << 20]);
            1
        }
        1 => {
            let table = match random.below(5) {
                0 => &mut given.kinds,
                1 => &mut given.starts,
                // Lists that are too long or too short by themselves stay so.
                2 if given.list.len() == given.pin_count as usize => &mut given.list,
                3 => &mut given.pins,
                _ => &mut given.nets,
            };
            if random.one_in(2) || table.pop().is_none() {
                table.push(0);
            }
            2
        }
        2 => {
            let place = random.below(given.starts.len());
            let old = given.starts[place];
            let (before, after) = (
                place.checked_sub(1).map(|i| given.starts[i]),
                given.starts.get(place + 1).copied(),
            );
            let new = match (before, after) {
                (None, _) => random.pick(&[1, 7, u32::MAX]),
                (_, None) => random.pick(&[old + 1, old + 9, u32::MAX]),
                (Some(before), Some(_)) if before > 0 && random.one_in(2) => before - 1,
                (_, Some(after)) => random.pick(&[after + 1, u32::MAX]),
            };
            given.starts[place] = new;
            5
        }
        _ => 0,
    }
}

/// The calls that have one room too few, by what does not fit.
const TIGHT: [&str; 5] =
    ["build, pins", "build, outputs", "build, dffs", "build, rams", "build, fanouts"];

/// Rooms, mostly enough, now and then one too few in one of them; and the place of that, if it is so.
fn rooms(random: &mut Random, needed: [usize; 5]) -> ([usize; 5], Option<usize>) {
    let mut rooms = needed.map(|room| room + random.pick(&[0, 0, 1, 5]));
    if random.one_in(8) {
        let tight = random.below(5);
        rooms[tight] = needed[tight].saturating_sub(1);
    }
    (rooms, (0..5).find(|&place| rooms[place] < needed[place]))
}

pub fn build(tally: &mut Tally, random: &mut Random, number: usize, size: usize) {
    let size = 1 + random.below(size);
    let mut netlist = draft::netlist(random, size);
    let faulty = random.one_in(3);
    tally.begin(number, if faulty { "netlists with one or two faults" } else { "netlists" });
    for _ in 0..if faulty { random.between(1, 2) } else { 0 } {
        broken::break_one(random, &mut netlist, &mut vec![]);
    }
    let model = check::netlist(&netlist).err().unwrap_or(0) as u32;
    let made = (model == 0).then(|| Made::new(&netlist));

    let mut given = NetlistWords::new(&netlist);
    let lists = given.list.len() == netlist.pins.len();
    let spoilt = spoil(random, &mut given);
    let any = [0; 5].map(|_| random.below(2 * netlist.pins.len() + 2));
    let (rooms, tight) = rooms(random, made.as_ref().map_or(any, Made::needed));
    let (mut to, long) = Built::new(random, rooms, netlist.pins.len());
    // A room past its bound is refused before its table is looked at.
    let past = random.one_in(60);
    if past {
        let most = [MOST_PINS, MOST_RECORDS, MOST_RECORDS, MOST_RECORDS, MOST_FANOUTS];
        let place = random.below(5);
        to.rooms[place] = most[place] as u32 + random.pick(&[1, 2, 1 << 20]);
    }
    let expected = match (spoilt, model) {
        (1, _) | (_, 1) => 1,
        _ if past => 1,
        (2, _) => 2,
        _ if !long || !lists => 2,
        (5, 0 | 5..) => 5,
        (_, 0) if tight.is_some() => 11,
        (_, model) => model,
    };
    let answered = library::build(&given, &mut to);

    let made = made.filter(|_| expected == 0);
    let none = Default::default();
    let held = made.as_ref().map_or(&none, |made| &made.words);
    let [literals, starts, fanouts, counts] =
        made.as_ref().map_or_else(Default::default, Made::lists);
    let results = [
        ("drivers", &to.drivers, &held.drivers[..]),
        ("outputs", &to.outputs, &held.outputs),
        ("dffs", &to.dffs, &held.dffs),
        ("rams", &to.rams, &held.rams),
        ("literals", &to.literals, &literals),
        ("fanout_starts", &to.starts, &starts),
        ("fanouts", &to.fanouts, &fanouts),
        ("counts", &to.counts, &counts),
        ("work", &to.work, &[]),
    ];
    let call = tight.filter(|_| expected == 11).map_or("build", |place| TIGHT[place]);
    tally.judge(call, expected, answered, &results);

    // The stages of the tables that the library built, against those of the Rust's graph.
    if let (Some(made), true) = (made, answered == 0) {
        let [pins, _, outputs, dffs, rams] = made.tally;
        let part = |table: &Lent, length: usize| table.words()[..length].to_vec();
        let words = Words {
            drivers: part(&to.drivers, 3 * (pins + 1)),
            outputs: part(&to.outputs, outputs),
            dffs: part(&to.dffs, 3 * dffs),
            rams: part(&to.rams, 123 * rams),
            ..made.words
        };
        let levels = levels(random);
        let case = Case { origin: "", graph: made.graph, aig: made.aig, words, levels };
        splits::stages(tally, random, &case);
        splits::split(tally, random, &case);
    }
}
