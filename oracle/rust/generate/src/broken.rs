//! Faults put into a netlist on purpose. Which refusal follows is the model's to say.

use crate::random::Random;
use text::*;

pub fn break_one(random: &mut Random, netlist: &mut Netlist, splits: &mut Vec<usize>) {
    match random.below(20) {
        0 => change_kind(random, netlist),
        1..=3 => change_pin(random, netlist),
        4 => change_list(random, netlist),
        5 | 6 => change_net(random, netlist),
        7 => add_pin(random, netlist),
        8 => remove_pin(random, netlist),
        9 => lengthen_clock(random, netlist),
        10 => change_splits(random, splits),
        _ => reconnect(random, netlist),
    }
}

fn change_kind(random: &mut Random, netlist: &mut Netlist) {
    let cell = random.below(netlist.cells.len());
    netlist.cells[cell].kind = random.below(14);
}

/// One word of one pin, mostly within range.
fn change_pin(random: &mut Random, netlist: &mut Netlist) {
    let (cells, nets, pins) = (netlist.cells.len(), netlist.nets.len(), netlist.pins.len());
    if pins == 0 {
        return;
    }
    let pin = &mut netlist.pins[random.below(pins)];
    match random.below(5) {
        0 => pin.cell = random.below(cells + 1),
        1 => pin.name = random.below(18),
        2 => pin.bit = random.below(34),
        3 => pin.direction = (pin.direction + random.between(1, 2)) % 3,
        _ => pin.net = random.below(nets + 1),
    }
}

/// One entry of one cell's list: another pin, one more, or one less.
fn change_list(random: &mut Random, netlist: &mut Netlist) {
    let pin = random.below(netlist.pins.len() + 1);
    let cell = random.below(netlist.cells.len());
    let list = &mut netlist.cells[cell].list;
    let place = random.below(list.len());
    match random.below(4) {
        0 => list.push(pin),
        1 if !list.is_empty() => _ = list.remove(place),
        _ if !list.is_empty() => list[place] = pin,
        _ => {}
    }
}

/// What drives one net: a constant, or mostly any pin.
fn change_net(random: &mut Random, netlist: &mut Netlist) {
    let net = random.below(netlist.nets.len());
    netlist.nets[net] = match random.below(6) {
        0 => Net::Zero,
        1 => Net::One,
        _ => Net::Driven(random.below(netlist.pins.len() + 1)),
    };
}

/// One more pin like an old one; an output gets a net of its own.
fn add_pin(random: &mut Random, netlist: &mut Netlist) {
    let new = netlist.pins.len();
    if new == 0 {
        return;
    }
    let mut pin = netlist.pins[random.below(new)];
    if pin.direction == 1 {
        pin.net = netlist.nets.len();
        netlist.nets.push(Net::Driven(new));
    }
    if let Some(cell) = netlist.cells.get_mut(pin.cell) {
        cell.list.push(new);
    }
    netlist.pins.push(pin);
}

/// One pin less; the last pin takes its number.
fn remove_pin(random: &mut Random, netlist: &mut Netlist) {
    let Some(last) = netlist.pins.len().checked_sub(1) else { return };
    let gone = random.below(netlist.pins.len());
    netlist.pins.swap_remove(gone);
    for cell in &mut netlist.cells {
        cell.list.retain(|&pin| pin != gone);
        cell.list.iter_mut().filter(|pin| **pin == last).for_each(|pin| *pin = gone);
    }
    for net in &mut netlist.nets {
        if *net == Net::Driven(gone) {
            *net = Net::Zero;
        } else if *net == Net::Driven(last) {
            *net = Net::Driven(gone);
        }
    }
}

/// A chain of about 64 buffers, inverters or clock gates before a clock pin.
fn lengthen_clock(random: &mut Random, netlist: &mut Netlist) {
    let clocks: Vec<usize> = (0..netlist.pins.len())
        .filter(|&pin| matches!(netlist.pins[pin].name, 5 | 11 | 14))
        .collect();
    if clocks.is_empty() {
        return;
    }
    let clock = random.pick(&clocks);
    let kinds: &[usize] = random.pick(&[&[7], &[6, 7], &[6, 6, 6, 7, 7, 7, 10]]);
    for _ in 0..random.between(60, 66) {
        let kind = random.pick(kinds);
        let (cell, first, net) = (netlist.cells.len(), netlist.pins.len(), netlist.nets.len());
        let mut add = |name: usize, direction: usize, net: usize| {
            netlist.pins.push(Pin { cell, name, bit: 0, direction, net });
        };
        let before = random.below(net);
        if kind == 10 {
            add(8, 0, 0);
            add(9, 0, before);
        } else {
            add(1, 0, 0);
        }
        add(3, 1, net);
        let last = netlist.pins.len() - 1;
        netlist.pins[first].net = netlist.pins[clock].net;
        netlist.pins[clock].net = net;
        netlist.nets.push(Net::Driven(last));
        netlist.cells.push(Cell { kind, list: (first..=last).collect() });
    }
}

/// Equal, falling, too large or too many levels.
fn change_splits(random: &mut Random, splits: &mut Vec<usize>) {
    match random.below(5) {
        0 => splits.push(random.between(16_777_214, 16_777_216)),
        1 => splits.extend(100..100 + random.between(60, 66)),
        2 => random.shuffle(splits),
        _ => {
            let place = random.below(splits.len() + 1);
            splits.insert(place, random.below(4));
        }
    }
}

/// An in pin on another net: loops, foreign clocks and gated clocks in logic come from this.
fn reconnect(random: &mut Random, netlist: &mut Netlist) {
    let pins: Vec<usize> =
        (0..netlist.pins.len()).filter(|&pin| netlist.pins[pin].direction == 0).collect();
    if !pins.is_empty() {
        netlist.pins[random.pick(&pins)].net = random.below(netlist.nets.len());
    }
}
