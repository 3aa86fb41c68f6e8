//! The graph of an accepted netlist: document 01's three steps, records and fanouts.

use crate::check::*;
use std::collections::{HashMap, HashSet};
use text::*;

pub struct Built {
    pub graph: Graph,
    pub literals: Vec<usize>,
}

pub fn build(netlist: &Netlist) -> Built {
    let mut making = Making {
        netlist,
        graph: Graph { drivers: vec![Driver::Constant], ..Graph::default() },
        literals: vec![MARKER; netlist.pins.len()],
        gates: HashMap::new(),
        flags: HashMap::new(),
        output_literals: HashSet::new(),
        dff_of: HashMap::new(),
        ram_of: HashMap::new(),
    };
    for pin in clock_pins(netlist) {
        making.walk(pin);
    }
    making.visit_all();
    making.records();
    Built { graph: making.graph, literals: making.literals }
}

/// Starts and fanouts: each pin's gates in falling order.
pub fn fanouts(drivers: &[Driver]) -> (Vec<usize>, Vec<usize>) {
    let mut readers = vec![Vec::new(); drivers.len()];
    for (gate, driver) in drivers.iter().enumerate().rev() {
        if let Driver::And(a, b) = driver {
            readers[a / 2].push(gate);
            readers[b / 2].push(gate);
        }
    }
    let mut starts = vec![0];
    for list in &readers {
        starts.push(starts.last().unwrap() + list.len());
    }
    (starts, readers.concat())
}

struct Making<'n> {
    netlist: &'n Netlist,
    graph: Graph,
    literals: Vec<usize>,
    gates: HashMap<(usize, usize), usize>,
    flags: HashMap<(usize, bool), usize>,
    output_literals: HashSet<usize>,
    dff_of: HashMap<usize, usize>,
    ram_of: HashMap<usize, usize>,
}

fn opposite(literal: usize) -> usize {
    literal ^ 1
}

impl Making<'_> {
    fn new_pin(&mut self, driver: Driver) -> usize {
        self.graph.drivers.push(driver);
        self.graph.drivers.len() - 1
    }

    fn and(&mut self, first: usize, second: usize) -> usize {
        match (first, second) {
            (0, _) | (_, 0) => 0,
            (1, second) => second,
            (first, 1) => first,
            _ => {
                let pair = (first.min(second), first.max(second));
                let known = self.gates.get(&pair).copied();
                let gate = known.unwrap_or_else(|| self.new_pin(Driver::And(pair.0, pair.1)));
                self.gates.insert(pair, gate);
                2 * gate
            }
        }
    }

    /// v or not w.
    fn or_not(&mut self, v: usize, w: usize) -> usize {
        opposite(self.and(opposite(v), w))
    }

    /// The walk from a clock pin, which makes the flag at its end if that is new: the flag's literal
    /// (0 at a constant) and the E pins of the clock gates on it, the one nearest the port first.
    fn walk(&mut self, clock: usize) -> (usize, Vec<usize>) {
        let n = self.netlist;
        let mut pin = clock;
        let mut falling = false;
        let mut enables = Vec::new();
        while let Net::Driven(driver) = n.nets[n.pins[pin].net] {
            let cell = n.pins[driver].cell;
            let kind = n.cells[cell].kind;
            if kind == TOP {
                let known = self.flags.get(&(driver, falling)).copied();
                let flag = known.unwrap_or_else(|| self.new_pin(Driver::Flag(driver, falling)));
                self.flags.insert((driver, falling), flag);
                enables.reverse();
                return (2 * flag, enables);
            }
            if kind == CKLNQD {
                enables.push(pin_named(n, cell, E).unwrap());
            }
            falling ^= kind == INV;
            pin = pin_named(n, cell, if kind == CKLNQD { CP } else { A }).unwrap();
        }
        (0, vec![])
    }

    /// The literal of a clock pin's activity, with an AND for each clock gate.
    fn activity(&mut self, clock: usize) -> usize {
        let (mut active, enables) = self.walk(clock);
        for enable in enables {
            active = self.and(active, self.literals[enable]);
        }
        active
    }

    /// Step 2: every pin is entered once, then what it visits, then left.
    fn visit_all(&mut self) {
        let mut entered = vec![false; self.netlist.pins.len()];
        for first in 0..self.netlist.pins.len() {
            let mut path: Vec<(usize, std::vec::IntoIter<usize>)> = Vec::new();
            let mut next = Some(first);
            loop {
                match next {
                    Some(pin) if !entered[pin] => {
                        entered[pin] = true;
                        self.enter(pin);
                        path.push((pin, visits(self.netlist, pin).into_iter()));
                    }
                    _ => {}
                }
                let Some((pin, waiting)) = path.last_mut() else { break };
                next = waiting.next();
                if next.is_none() {
                    let pin = *pin;
                    self.leave(pin);
                    path.pop();
                }
            }
        }
    }

    /// A flip-flop's output makes its own pin before anything that it visits.
    fn enter(&mut self, pin: usize) {
        let entry = self.netlist.pins[pin];
        if entry.direction == 1 && FLIP_FLOPS.contains(&self.netlist.cells[entry.cell].kind) {
            let own = self.new_pin(Driver::Dff(entry.cell));
            self.dff_of.insert(entry.cell, self.graph.dffs.len());
            self.graph.dffs.push(Dff { next: 0, enable: 0, pin: own });
        }
    }

    fn leave(&mut self, pin: usize) {
        let n = self.netlist;
        let entry = n.pins[pin];
        let cell = entry.cell;
        let kind = n.cells[cell].kind;
        self.literals[pin] = if entry.direction == 0 {
            match n.nets[entry.net] {
                Net::Zero => 0,
                Net::One => 1,
                Net::Driven(driver) => {
                    let literal = self.literals[driver];
                    if kind == TOP && self.output_literals.insert(literal) {
                        self.graph.outputs.push(literal);
                    }
                    literal
                }
            }
        } else if kind == TOP {
            2 * self.new_pin(Driver::Port(pin))
        } else if AND2.contains(&kind) {
            let (x, y, z) = [(0, 0, 0), (0, 1, 0), (1, 0, 0), (1, 1, 0), (1, 1, 1)][kind - 1];
            let a = self.literals[pin_named(n, cell, A).unwrap()];
            let b = self.literals[pin_named(n, cell, B).unwrap()];
            self.and(a ^ x, b ^ y) ^ z
        } else if kind == INV {
            opposite(self.literals[pin_named(n, cell, A).unwrap()])
        } else if kind == BUF {
            self.literals[pin_named(n, cell, A).unwrap()]
        } else if kind == CKLNQD {
            MARKER
        } else if kind == RAM {
            let own = self.new_pin(Driver::Ram(cell));
            let record = self.ram(cell);
            self.graph.rams[record][READ_DATA + entry.bit] = own;
            2 * own
        } else {
            let own = 2 * self.graph.dffs[self.dff_of[&cell]].pin;
            let set = self.literal_or(cell, S, 1);
            let reset = self.literal_or(cell, R, 1);
            let output = self.or_not(own, set);
            self.and(output, reset)
        };
    }

    fn literal_or(&self, cell: usize, name: usize, absent: usize) -> usize {
        pin_named(self.netlist, cell, name).map_or(absent, |pin| self.literals[pin])
    }

    /// The place of a RAM's record, made now if it is not yet there.
    fn ram(&mut self, cell: usize) -> usize {
        *self.ram_of.entry(cell).or_insert_with(|| {
            self.graph.rams.push([0; RAM_WORDS]);
            self.graph.rams.len() - 1
        })
    }

    /// Step 3.
    fn records(&mut self) {
        for cell in 0..self.netlist.cells.len() {
            match self.netlist.cells[cell].kind {
                8..=9 => self.dff_record(cell),
                RAM => self.ram_record(cell),
                _ => {}
            }
        }
    }

    fn dff_record(&mut self, cell: usize) {
        let active = match pin_named(self.netlist, cell, CLK) {
            Some(clock) => self.activity(clock),
            None => 0,
        };
        let data = self.literal_or(cell, D, 0);
        let set = self.literal_or(cell, S, 1);
        let reset = self.literal_or(cell, R, 1);
        let next = self.or_not(data, set);
        let enable = self.or_not(active, set);
        let next = self.and(next, reset);
        let enable = self.or_not(enable, reset);
        let record = &mut self.graph.dffs[self.dff_of[&cell]];
        record.next = next;
        record.enable = enable;
    }

    fn ram_record(&mut self, cell: usize) {
        let record = self.ram(cell);
        let mut words = self.graph.rams[record];
        let mut write_active = 0;
        for &pin in &self.netlist.cells[cell].list {
            let entry = self.netlist.pins[pin];
            let literal = self.literals[pin];
            match entry.name {
                R_CLK => words[0] = self.activity(pin),
                W_CLK => write_active = self.activity(pin),
                R_ADDR => words[READ_ADDRESS + entry.bit] = literal,
                W_ADDR => words[WRITE_ADDRESS + entry.bit] = literal,
                W_EN => words[WRITE_ENABLE + entry.bit] = literal,
                W_DATA => words[WRITE_DATA + entry.bit] = literal,
                _ => {}
            }
        }
        for enable in &mut words[WRITE_ENABLE..WRITE_DATA] {
            *enable = self.and(*enable, write_active);
        }
        self.graph.rams[record] = words;
    }
}
