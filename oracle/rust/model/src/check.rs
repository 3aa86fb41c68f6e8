//! What is turned away before a graph is built: refusals 1 to 10.

use std::collections::HashSet;
use text::*;

// Kinds.
pub const TOP: usize = 0;
pub const AND2: std::ops::RangeInclusive<usize> = 1..=5;
pub const INV: usize = 6;
pub const BUF: usize = 7;
pub const FLIP_FLOPS: std::ops::RangeInclusive<usize> = 8..=9;
pub const CKLNQD: usize = 10;
pub const RAM: usize = 11;
const LATCH: usize = 12;

// Pin names.
const PORT: usize = 0;
pub const A: usize = 1;
pub const B: usize = 2;
const OUTPUT: usize = 3;
pub const D: usize = 4;
pub const CLK: usize = 5;
pub const S: usize = 6;
pub const R: usize = 7;
pub const CP: usize = 8;
pub const E: usize = 9;
pub const R_ADDR: usize = 10;
pub const R_CLK: usize = 11;
pub const R_DATA: usize = 12;
pub const W_ADDR: usize = 13;
pub const W_CLK: usize = 14;
pub const W_DATA: usize = 15;
pub const W_EN: usize = 16;

const IN: usize = 0;
const OUT: usize = 1;
const MOST_CELLS: usize = 1_048_576;
const MOST_ON_A_WALK: usize = 64;

/// Accepted, or the first refusal in the document's order.
pub fn netlist(n: &Netlist) -> Result<(), usize> {
    refuse(1, !bounded(n))?;
    refuse(2, n.cells.iter().map(|cell| cell.list.len()).sum::<usize>() != n.pins.len())?;
    refuse(
        3,
        n.cells.iter().enumerate().any(|(i, c)| c.kind > LATCH || (c.kind == TOP) != (i == 0)),
    )?;
    refuse(4, n.cells.iter().any(|cell| cell.kind == LATCH))?;
    refuse(5, !(pins_listed(n) && pins_fit_kinds(n)))?;
    refuse(6, !nets_driven(n))?;
    refuse(7, has_loop(n))?;
    for pin in clock_pins(n) {
        clock_walk(n, pin)?;
    }
    refuse(10, marker_misused(n))
}

pub fn refuse(number: usize, broken: bool) -> Result<(), usize> {
    if broken {
        Err(number)
    } else {
        Ok(())
    }
}

fn bounded(n: &Netlist) -> bool {
    (1..=MOST_CELLS).contains(&n.cells.len())
        && n.pins.len() <= MOST_CELLS
        && n.nets.len() <= MOST_CELLS
}

/// Every index is in range, and every pin stands in its own cell's list once.
fn pins_listed(n: &Netlist) -> bool {
    let mut listed = vec![0; n.pins.len()];
    for (index, cell) in n.cells.iter().enumerate() {
        for &pin in &cell.list {
            match n.pins.get(pin) {
                Some(entry) if entry.cell == index => listed[pin] += 1,
                _ => return false,
            }
        }
    }
    listed.iter().all(|&times| times == 1)
        && n.pins.iter().all(|pin| pin.net < n.nets.len() && pin.direction <= OUT)
}

/// What a kind's pin of some name must look like: its direction and how many bits it has; none where
/// the kind has no such pin.
fn pin_form(kind: usize, name: usize) -> Option<(usize, usize)> {
    match (kind, name) {
        (1..=5, A | B) | (INV | BUF, A) | (CKLNQD, CP | E) => Some((IN, 1)),
        (8..=9, D | CLK | S | R) => Some((IN, 1)),
        (1..=10, OUTPUT) => Some((OUT, 1)),
        (RAM, R_CLK | W_CLK) => Some((IN, 1)),
        (RAM, R_ADDR | W_ADDR) => Some((IN, 13)),
        (RAM, W_DATA | W_EN) => Some((IN, 32)),
        (RAM, R_DATA) => Some((OUT, 32)),
        _ => None,
    }
}

fn required(kind: usize) -> &'static [usize] {
    match kind {
        1..=5 => &[A, B, OUTPUT],
        INV | BUF => &[A, OUTPUT],
        CKLNQD => &[CP, E, OUTPUT],
        8..=9 => &[OUTPUT],
        _ => &[],
    }
}

fn pins_fit_kinds(n: &Netlist) -> bool {
    n.cells.iter().all(|cell| {
        let mut seen = HashSet::new();
        let each_fits = cell.list.iter().all(|&pin| {
            let pin = &n.pins[pin];
            if cell.kind == TOP {
                return pin.name == PORT && pin.bit == 0;
            }
            matches!(pin_form(cell.kind, pin.name),
                     Some((direction, bits)) if pin.direction == direction && pin.bit < bits)
                && seen.insert((pin.name, pin.bit))
        });
        each_fits && required(cell.kind).iter().all(|&name| seen.contains(&(name, 0)))
    })
}

fn nets_driven(n: &Netlist) -> bool {
    let drivers_true = n.nets.iter().enumerate().all(|(index, net)| match *net {
        Net::Driven(pin) => {
            n.pins.get(pin).is_some_and(|pin| pin.direction == OUT && pin.net == index)
        }
        _ => true,
    });
    drivers_true
        && n.pins
            .iter()
            .enumerate()
            .all(|(index, pin)| pin.direction == IN || n.nets[pin.net] == Net::Driven(index))
}

/// A cell's pin of some name and bit 0.
pub fn pin_named(n: &Netlist, cell: usize, name: usize) -> Option<usize> {
    n.cells[cell].list.iter().copied().find(|&pin| n.pins[pin].name == name)
}

/// The pins that a pin visits in step 2, in order.
pub fn visits(n: &Netlist, pin: usize) -> Vec<usize> {
    let entry = &n.pins[pin];
    if entry.direction == IN {
        return match n.nets[entry.net] {
            Net::Driven(driver) => vec![driver],
            _ => vec![],
        };
    }
    let named = |names: &[usize]| -> Vec<usize> {
        names.iter().map(|&name| pin_named(n, entry.cell, name).unwrap()).collect()
    };
    match n.cells[entry.cell].kind {
        1..=5 => named(&[A, B]),
        INV | BUF => named(&[A]),
        CKLNQD => named(&[CP, E]),
        8..=9 => {
            let list = &n.cells[entry.cell].list;
            list.iter().copied().filter(|&pin| matches!(n.pins[pin].name, S | R)).collect()
        }
        _ => vec![],
    }
}

/// A loop stays when pins that visit nothing left are taken away until none is.
fn has_loop(n: &Netlist) -> bool {
    let mut visitors = vec![Vec::new(); n.pins.len()];
    let mut open = vec![0; n.pins.len()];
    for pin in 0..n.pins.len() {
        for visited in visits(n, pin) {
            visitors[visited].push(pin);
            open[pin] += 1;
        }
    }
    let mut free: Vec<usize> = (0..n.pins.len()).filter(|&pin| open[pin] == 0).collect();
    let mut taken = 0;
    while let Some(pin) = free.pop() {
        taken += 1;
        for &visitor in &visitors[pin] {
            open[visitor] -= 1;
            if open[visitor] == 0 {
                free.push(visitor);
            }
        }
    }
    taken < n.pins.len()
}

/// All clock pins in the order of step 1.
pub fn clock_pins(n: &Netlist) -> impl Iterator<Item = usize> + '_ {
    let clocked = |kind: usize| FLIP_FLOPS.contains(&kind) || kind == RAM;
    n.cells
        .iter()
        .filter(move |cell| clocked(cell.kind))
        .flat_map(|cell| cell.list.iter().copied())
        .filter(|&pin| matches!(n.pins[pin].name, CLK | R_CLK | W_CLK))
}

/// Follows one clock pin to a port or a constant; 8 for a foreign cell, 9 for a 65th.
fn clock_walk(n: &Netlist, clock: usize) -> Result<(), usize> {
    let mut pin = clock;
    let mut cells = 0;
    while let Net::Driven(driver) = n.nets[n.pins[pin].net] {
        let cell = n.pins[driver].cell;
        if cell == 0 {
            break;
        }
        cells += 1;
        refuse(9, cells > MOST_ON_A_WALK)?;
        let name = match n.cells[cell].kind {
            INV | BUF => A,
            CKLNQD => CP,
            _ => return Err(8),
        };
        pin = pin_named(n, cell, name).unwrap();
    }
    Ok(())
}

/// Spreads from the outputs of the clock gates along nets, INVs and BUFs.
fn marker_misused(n: &Netlist) -> bool {
    let mut readers = vec![Vec::new(); n.nets.len()];
    for (pin, entry) in n.pins.iter().enumerate() {
        if entry.direction == IN {
            readers[entry.net].push(pin);
        }
    }
    let gates = (0..n.pins.len())
        .filter(|&p| n.pins[p].direction == OUT && n.cells[n.pins[p].cell].kind == CKLNQD);
    let mut marked: Vec<usize> = gates.collect();
    while let Some(out) = marked.pop() {
        for &pin in &readers[n.pins[out].net] {
            let cell = n.pins[pin].cell;
            match (n.cells[cell].kind, n.pins[pin].name) {
                (INV | BUF, _) => marked.push(pin_named(n, cell, OUTPUT).unwrap()),
                (_, CLK | CP | R_CLK | W_CLK) => {}
                _ => return true,
            }
        }
    }
    false
}
