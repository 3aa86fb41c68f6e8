//! Building and staging by `include/trazzughes.h`, on tables that are lent.

use text::*;

#[rustfmt::skip]
mod c {
    extern "C" {
        pub fn trazz_build(
            cells: u32, pins: u32, nets: u32,
            pin_room: u32, output_room: u32, dff_room: u32, ram_room: u32, fanout_room: u32,
            _: *const u32, _: usize, _: *const u32, _: usize, _: *const u32, _: usize, _: *const u32, _: usize, _: *const u32, _: usize,
            _: *mut u32, _: usize, _: *mut u32, _: usize, _: *mut u32, _: usize, _: *mut u32, _: usize,
            _: *mut u32, _: usize, _: *mut u32, _: usize, _: *mut u32, _: usize,
            counts: *mut u32, _: usize, work: *mut u32, _: usize,
        ) -> u32;
        pub fn trazz_stages(
            pins: u32, outputs: u32, dffs: u32, rams: u32,
            _: *const u32, _: usize, _: *const u32, _: usize, _: *const u32, _: usize, _: *const u32, _: usize,
            splits: *const u32, _: usize,
            room: u32,
            _: *mut u32, _: usize, _: *mut u32, _: usize, _: *mut u32, _: usize,
            counts: *mut u32, _: usize, work: *mut u32, _: usize,
        ) -> u32;
    }
}

pub fn narrow(list: &[usize]) -> Vec<u32> {
    list.iter().map(|&word| word as u32).collect()
}

/// The tables of a netlist: kinds, starts, list, pins, nets.
pub struct Netlists(pub [Vec<u32>; 5]);

impl Netlists {
    pub fn new(netlist: &Netlist) -> Netlists {
        let mut starts = vec![0];
        for cell in &netlist.cells {
            starts.push(starts.last().unwrap() + cell.list.len() as u32);
        }
        let pin = |pin: &Pin| narrow(&[pin.cell, pin.name, pin.bit, pin.direction, pin.net]);
        let net = |net: &Net| match *net {
            Net::Zero => 0,
            Net::One => 1,
            Net::Driven(pin) => 2 + pin as u32,
        };
        Netlists([
            netlist.cells.iter().map(|cell| cell.kind as u32).collect(),
            starts,
            netlist.cells.iter().flat_map(|cell| narrow(&cell.list)).collect(),
            netlist.pins.iter().flat_map(pin).collect(),
            netlist.nets.iter().map(net).collect(),
        ])
    }
}

/// How many pins, gates, output literals, flip-flops and RAMs a graph has.
pub type Counts = [usize; 5];

/// The tables of a graph, each just long enough: drivers, outputs, dffs, rams, literals, starts, fanouts; and the work.
pub struct Graphs {
    pub tables: [Vec<u32>; 7],
    pub work: Vec<u32>,
}

impl Graphs {
    pub fn new([pins, gates, outputs, dffs, rams]: Counts, netlist_pins: usize) -> Graphs {
        let lengths =
            [3 * (pins + 1), outputs, 3 * dffs, 123 * rams, netlist_pins, pins + 2, 2 * gates];
        Graphs {
            tables: lengths.map(|length| vec![0; length]),
            work: vec![0; 8 * netlist_pins + 8 * pins + 1024],
        }
    }
}

/// The stages of a graph: rows, pins handed on, endpoints; and the work.
pub struct Stages {
    pub tables: [Vec<u32>; 3],
    pub counts: [u32; 3],
    pub work: Vec<u32>,
}

impl Stages {
    pub fn new([pins, _, outputs, dffs, rams]: Counts, splits: usize) -> Stages {
        let endpoints = outputs + dffs + rams;
        Stages {
            tables: [4 * (splits + 1), pins, endpoints].map(|length| vec![0; length]),
            counts: [0; 3],
            work: vec![0; 12 * pins + 4 * endpoints + 64],
        }
    }
}

pub fn build(n: &Netlists, counts: Counts, to: &mut Graphs) {
    let [kinds, starts, list, pins, nets] = &n.0;
    let [drivers, outputs, dffs, rams, literals, fanout_starts, fanouts] = &mut to.tables;
    let rooms = counts.map(|count| count as u32);
    let mut told = [0; 5];
    #[rustfmt::skip]
    let number = unsafe {
        c::trazz_build(
            kinds.len() as u32, list.len() as u32, nets.len() as u32,
            rooms[0], rooms[2], rooms[3], rooms[4], 2 * rooms[1],
            kinds.as_ptr(), kinds.len(), starts.as_ptr(), starts.len(), list.as_ptr(), list.len(),
            pins.as_ptr(), pins.len(), nets.as_ptr(), nets.len(),
            drivers.as_mut_ptr(), drivers.len(), outputs.as_mut_ptr(), outputs.len(),
            dffs.as_mut_ptr(), dffs.len(), rams.as_mut_ptr(), rams.len(),
            literals.as_mut_ptr(), literals.len(), fanout_starts.as_mut_ptr(), fanout_starts.len(),
            fanouts.as_mut_ptr(), fanouts.len(), told.as_mut_ptr(), told.len(), to.work.as_mut_ptr(), to.work.len(),
        )
    };
    assert_eq!((number, told), (0, rooms), "building");
}

pub fn stages(graph: &Graphs, counts: Counts, splits: &[u32], to: &mut Stages) {
    let [drivers, outputs, dffs, rams, ..] = &graph.tables;
    let [rows, handed, taken] = &mut to.tables;
    let counts = counts.map(|count| count as u32);
    #[rustfmt::skip]
    let number = unsafe {
        c::trazz_stages(
            counts[0], counts[2], counts[3], counts[4],
            drivers.as_ptr(), drivers.len(), outputs.as_ptr(), outputs.len(),
            dffs.as_ptr(), dffs.len(), rams.as_ptr(), rams.len(),
            splits.as_ptr(), splits.len(), splits.len() as u32 + 1,
            rows.as_mut_ptr(), rows.len(), handed.as_mut_ptr(), handed.len(), taken.as_mut_ptr(), taken.len(),
            to.counts.as_mut_ptr(), 3, to.work.as_mut_ptr(), to.work.len(),
        )
    };
    assert_eq!(number, 0, "staging");
}
