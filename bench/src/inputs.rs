//! Netlists of a given number of pins, always the same ones.

use crate::random::Random;
use text::*;

// Kinds.
const AND2: usize = 1;
const INV: usize = 6;
const BUF: usize = 7;
const DFF: usize = 8;
const DFFSR: usize = 9;
const CKLNQD: usize = 10;
const RAM: usize = 11;

pub const NAMES: [&str; 4] = ["mixed", "shuffled", "deep", "flip-flops"];

/// The netlist of one of the names.
pub fn netlist(name: &str, pins: usize) -> Netlist {
    let random = &mut Random::new(1, pins);
    match name {
        "mixed" => mixed(random, pins),
        "shuffled" => {
            let drafted = mixed(random, pins);
            shuffled(random, drafted)
        }
        "deep" => deep(pins),
        _ => flip_flops(random, pins),
    }
}

/// A netlist in the making: every net is driven by a pin.
struct Draft(Netlist);

impl Draft {
    /// The top with so many input ports, which drive the nets from 0.
    fn new(ports: usize) -> Draft {
        let top = Cell { kind: 0, list: vec![] };
        let mut draft = Draft(Netlist { cells: vec![top], pins: vec![], nets: vec![] });
        for _ in 0..ports {
            draft.out(0, 0, 0);
        }
        draft
    }

    fn pin(&mut self, cell: usize, name: usize, bit: usize, direction: usize, net: usize) {
        self.0.cells[cell].list.push(self.0.pins.len());
        self.0.pins.push(Pin { cell, name, bit, direction, net });
    }

    /// An out pin, and the net that it drives.
    fn out(&mut self, cell: usize, name: usize, bit: usize) -> usize {
        let net = self.0.nets.len();
        self.0.nets.push(Net::Driven(self.0.pins.len()));
        self.pin(cell, name, bit, 1, net);
        net
    }

    /// A cell with inputs by name and net, and its output: the output's net.
    fn cell(&mut self, kind: usize, inputs: &[(usize, usize)]) -> usize {
        let cell = self.0.cells.len();
        self.0.cells.push(Cell { kind, list: vec![] });
        for &(name, net) in inputs {
            self.pin(cell, name, 0, 0, net);
        }
        self.out(cell, 3, 0)
    }

    /// A RAM of which all is used: 32 nets of read data.
    fn ram(&mut self, random: &mut Random, logic: &[usize], clock: usize) -> Vec<usize> {
        let cell = self.0.cells.len();
        self.0.cells.push(Cell { kind: RAM, list: vec![] });
        for (name, bits) in [(10, 13), (13, 13), (15, 32), (16, 32)] {
            for bit in 0..bits {
                self.pin(cell, name, bit, 0, near(random, logic));
            }
        }
        for name in [11, 14] {
            self.pin(cell, name, 0, 0, clock);
        }
        (0..32).map(|bit| self.out(cell, 12, bit)).collect()
    }

    fn outputs(mut self, random: &mut Random, logic: &[usize], count: usize) -> Netlist {
        for _ in 0..count {
            let net = random.pick(logic);
            self.pin(0, 0, 0, 0, net);
        }
        self.0
    }
}

/// Mostly one of the last thousand.
fn near(random: &mut Random, nets: &[usize]) -> usize {
    let last = if random.one_in(8) { nets.len() } else { nets.len().min(1000) };
    nets[nets.len() - 1 - random.below(last)]
}

/// Of a hundred cells some 70 are AND2, 12 INV or BUF, 15 flip-flops, 1 a clock gate; one of a thousand is a RAM.
fn mixed(random: &mut Random, pins: usize) -> Netlist {
    let ports = 2 + pins / 100;
    let mut draft = Draft::new(ports);
    let mut logic: Vec<usize> = (2..ports).collect();
    let mut clocks = vec![0, 0, 0, 0, 1];
    while draft.0.pins.len() < pins - pins / 50 {
        let a = near(random, &logic);
        let b = near(random, &logic);
        let clock = random.pick(&clocks);
        let net = match random.below(1000) {
            0..=699 => draft.cell(AND2 + random.below(5), &[(1, a), (2, b)]),
            700..=779 => draft.cell(INV, &[(1, a)]),
            780..=829 => draft.cell(BUF, &[(1, a)]),
            830..=939 => draft.cell(DFF, &[(4, a), (5, clock)]),
            940..=989 => {
                let (s, r) = (near(random, &logic), near(random, &logic));
                draft.cell(DFFSR, &[(4, a), (5, clock), (6, s), (7, r)])
            }
            990..=998 => {
                let gated = draft.cell(CKLNQD, &[(8, 0), (9, a)]);
                clocks.push(gated);
                continue;
            }
            _ => {
                let data = draft.ram(random, &logic, clock);
                logic.extend(data);
                continue;
            }
        };
        logic.push(net);
    }
    draft.outputs(random, &logic, pins / 50)
}

/// The same netlist with cells, pins, nets and lists numbered by chance.
fn shuffled(random: &mut Random, netlist: Netlist) -> Netlist {
    let mut cell_order = random.order(netlist.cells.len() - 1);
    cell_order.iter_mut().for_each(|cell| *cell += 1);
    cell_order.insert(0, 0);
    let (pins, nets) = (random.order(netlist.pins.len()), random.order(netlist.nets.len()));
    let mut new = Netlist {
        cells: netlist.cells.iter().map(|_| Cell { kind: 0, list: vec![] }).collect(),
        pins: netlist.pins.clone(),
        nets: netlist.nets.clone(),
    };
    for (old, cell) in netlist.cells.iter().enumerate() {
        let mut list: Vec<usize> = cell.list.iter().map(|&pin| pins[pin]).collect();
        random.shuffle(&mut list);
        new.cells[cell_order[old]] = Cell { kind: cell.kind, list };
    }
    for (old, pin) in netlist.pins.iter().enumerate() {
        new.pins[pins[old]] = Pin { cell: cell_order[pin.cell], net: nets[pin.net], ..*pin };
    }
    for (old, net) in netlist.nets.iter().enumerate() {
        new.nets[nets[old]] = match *net {
            Net::Driven(pin) => Net::Driven(pins[pin]),
            constant => constant,
        };
    }
    new
}

/// One chain of AND2 from two ports to an output port, whose pin has number 0 and so is visited first.
fn deep(pins: usize) -> Netlist {
    let mut draft = Draft::new(0);
    draft.pin(0, 0, 0, 0, 0);
    let (first, second) = (draft.out(0, 0, 0), draft.out(0, 0, 0));
    let mut net = first;
    while draft.0.pins.len() < pins {
        net = draft.cell(AND2, &[(1, net), (2, second)]);
    }
    draft.0.pins[0].net = net;
    draft.0
}

/// Flip-flops that read each other, half of them with set and reset.
fn flip_flops(random: &mut Random, pins: usize) -> Netlist {
    let mut draft = Draft::new(18);
    let mut logic: Vec<usize> = (2..18).collect();
    while draft.0.pins.len() < pins - pins / 50 {
        let data = near(random, &logic);
        let clock = random.below(2);
        let (s, r) = (2 + random.below(16), 2 + random.below(16));
        let net = if random.one_in(2) {
            draft.cell(DFF, &[(4, data), (5, clock)])
        } else {
            draft.cell(DFFSR, &[(4, data), (5, clock), (6, s), (7, r)])
        };
        logic.push(net);
    }
    draft.outputs(random, &logic, pins / 50)
}
