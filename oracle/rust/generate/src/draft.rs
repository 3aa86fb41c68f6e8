//! Netlists that document 01 admits.
//!
//! Cells are drafted sources first, so that what a cell visits stands before it; only D, clocks and
//! RAM inputs are tied at the end, to any net. Then everything is numbered, mostly by chance.

use crate::random::Random;
use text::*;

/// Most cells on a clock walk.
const WALK: usize = 64;

struct DraftPin {
    cell: usize,
    name: usize,
    bit: usize,
    direction: usize,
    net: usize,
}

/// A net before numbering: what drives it, whether it carries a gated clock, and how many cells a
/// clock walk meets from here, if one may go here.
struct DraftNet {
    driver: Net,
    marker: bool,
    walk: Option<usize>,
}

/// What one netlist is like.
struct Style {
    weights: [usize; 12],
    window: usize,
    constant_one_in: usize,
    marker_one_in: usize,
    optional_percent: usize,
}

struct Draft<'r> {
    random: &'r mut Random,
    style: Style,
    kinds: Vec<usize>,
    pins: Vec<DraftPin>,
    nets: Vec<DraftNet>,
    constants: Vec<usize>,
    logic: Vec<usize>,
    markers: Vec<usize>,
    clocks: Vec<usize>,
}

pub fn netlist(random: &mut Random, size: usize) -> Netlist {
    let style = style(random);
    let mut draft = Draft {
        random,
        style,
        kinds: vec![0],
        pins: vec![],
        nets: vec![],
        constants: vec![],
        logic: vec![],
        markers: vec![],
        clocks: vec![],
    };
    draft.sources(size);
    for _ in 0..size {
        draft.cell();
    }
    draft.tie_ends();
    draft.outputs(size);
    draft.numbered()
}

fn style(random: &mut Random) -> Style {
    let mut weights = [0; 12];
    for weight in &mut weights[1..] {
        *weight = random.pick(&[0, 1, 1, 2, 8]);
    }
    weights[11] = random.pick(&[0, 0, 0, 1]);
    weights[random.between(1, 5)] += 2;
    Style {
        weights,
        window: random.pick(&[1, 2, 4, 16, usize::MAX, usize::MAX]),
        constant_one_in: random.pick(&[4, 20, usize::MAX]),
        marker_one_in: random.pick(&[2, 6]),
        optional_percent: random.pick(&[10, 50, 90]),
    }
}

impl Draft<'_> {
    fn net(&mut self, driver: Net, marker: bool, walk: Option<usize>) -> usize {
        let net = self.nets.len();
        if !matches!(driver, Net::Driven(_)) {
            self.constants.push(net);
        } else {
            let bits = if marker { &mut self.markers } else { &mut self.logic };
            bits.push(net);
            if walk.is_some_and(|cells| cells <= WALK) {
                self.clocks.push(net);
            }
        }
        self.nets.push(DraftNet { driver, marker, walk });
        net
    }

    fn in_pin(&mut self, cell: usize, name: usize, bit: usize, net: usize) {
        self.pins.push(DraftPin { cell, name, bit, direction: 0, net });
    }

    fn out_pin(&mut self, cell: usize, name: usize, bit: usize, marker: bool, walk: Option<usize>) {
        let net = self.net(Net::Driven(self.pins.len()), marker, walk);
        self.pins.push(DraftPin { cell, name, bit, direction: 1, net });
    }

    fn optional(&mut self) -> bool {
        self.random.below(100) < self.style.optional_percent
    }

    fn sources(&mut self, size: usize) {
        for _ in 0..self.random.between(1, 2 + size / 4) {
            self.out_pin(0, 0, 0, false, Some(0));
        }
        for _ in 0..self.random.between(1, 4) {
            let constant = self.random.pick(&[Net::Zero, Net::One]);
            self.net(constant, false, Some(0));
        }
    }

    /// One of the nets, mostly from the last few made.
    fn choose(&mut self, nets: fn(&Self) -> &[usize], window: usize) -> usize {
        let window = if self.random.one_in(8) { usize::MAX } else { window };
        let length = nets(self).len();
        let place = length - 1 - self.random.below(window.min(length));
        nets(self)[place]
    }

    /// One of the nets, or now and then a constant.
    fn choose_or_constant(&mut self, nets: fn(&Self) -> &[usize], window: usize) -> usize {
        if self.random.one_in(self.style.constant_one_in) {
            self.choose(|draft| &draft.constants, usize::MAX)
        } else {
            self.choose(nets, window)
        }
    }

    /// A net with a logic bit, made before.
    fn logic(&mut self) -> usize {
        self.choose_or_constant(|draft| &draft.logic, self.style.window)
    }

    /// A net with a logic bit for a pin that is not visited: any, a later one included.
    fn any_logic(&mut self) -> usize {
        self.choose_or_constant(|draft| &draft.logic, usize::MAX)
    }

    /// A net that a clock pin may be on.
    fn clock(&mut self) -> usize {
        let window = self.random.pick(&[self.style.window, usize::MAX]);
        self.choose_or_constant(|draft| &draft.clocks, window)
    }

    fn marker_or(&mut self, otherwise: fn(&mut Self) -> usize) -> usize {
        if self.random.one_in(self.style.marker_one_in) && !self.markers.is_empty() {
            self.choose(|draft| &draft.markers, self.style.window)
        } else {
            otherwise(self)
        }
    }

    fn cell(&mut self) {
        let mut weight = self.random.below(self.style.weights.iter().sum());
        let kind = (0..12)
            .find(|&kind| {
                let found = weight < self.style.weights[kind];
                weight = weight.saturating_sub(self.style.weights[kind]);
                found
            })
            .unwrap();
        let cell = self.kinds.len();
        self.kinds.push(kind);
        match kind {
            1..=5 => {
                let (a, b) = (self.logic(), self.logic());
                self.in_pin(cell, 1, 0, a);
                self.in_pin(cell, 2, 0, b);
                self.out_pin(cell, 3, 0, false, None);
            }
            6 | 7 => {
                let a = self.marker_or(Self::logic);
                self.in_pin(cell, 1, 0, a);
                let DraftNet { marker, walk, .. } = self.nets[a];
                self.out_pin(cell, 3, 0, marker, walk.map(|cells| cells + 1));
            }
            8 | 9 => {
                for name in [6, 7] {
                    if self.optional() {
                        let net = self.logic();
                        self.in_pin(cell, name, 0, net);
                    }
                }
                self.out_pin(cell, 3, 0, false, None);
            }
            10 => {
                let cp = self.marker_or(|draft| {
                    if draft.random.one_in(5) {
                        draft.logic()
                    } else {
                        draft.clock()
                    }
                });
                let enable = self.logic();
                self.in_pin(cell, 8, 0, cp);
                self.in_pin(cell, 9, 0, enable);
                let walk = self.nets[cp].walk.map(|cells| cells + 1);
                self.out_pin(cell, 3, 0, true, walk);
            }
            _ => {
                for bit in 0..32 {
                    if self.optional() {
                        self.out_pin(cell, 12, bit, false, None);
                    }
                }
            }
        }
    }

    /// D and CLK of flip-flops and the inputs of RAMs.
    fn tie_ends(&mut self) {
        for cell in 1..self.kinds.len() {
            match self.kinds[cell] {
                8 | 9 => {
                    if !self.random.one_in(8) {
                        let data = self.any_logic();
                        self.in_pin(cell, 4, 0, data);
                    }
                    if !self.random.one_in(8) {
                        let clock = self.clock();
                        self.in_pin(cell, 5, 0, clock);
                    }
                }
                11 => {
                    for name in [11, 14] {
                        if !self.random.one_in(4) {
                            let clock = self.clock();
                            self.in_pin(cell, name, 0, clock);
                        }
                    }
                    for (name, bits) in [(10, 13), (13, 13), (15, 32), (16, 32)] {
                        for bit in 0..bits {
                            if self.optional() {
                                let net = self.any_logic();
                                self.in_pin(cell, name, bit, net);
                            }
                        }
                    }
                }
                _ => {}
            }
        }
    }

    fn outputs(&mut self, size: usize) {
        for _ in 0..self.random.below(2 + size / 3) {
            let net = if self.random.one_in(2) { self.logic() } else { self.any_logic() };
            self.in_pin(0, 0, 0, net);
        }
    }

    /// The tables, with cells, pins, nets and list orders numbered by chance or as drafted.
    fn numbered(self) -> Netlist {
        let Draft { random, kinds, pins, nets, .. } = self;
        let as_drafted = random.one_in(4);
        let mut order = |count: usize, fixed: usize| -> Vec<usize> {
            let shuffled = random.order(count - fixed);
            let place = |old: usize| if old < fixed { old } else { fixed + shuffled[old - fixed] };
            (0..count).map(|old| if as_drafted { old } else { place(old) }).collect()
        };
        let cell_of = order(kinds.len(), 1);
        let pin_of = order(pins.len(), 0);
        let net_of = order(nets.len(), 0);

        let mut netlist = Netlist::default();
        netlist.cells.resize_with(kinds.len(), || Cell { kind: 0, list: vec![] });
        netlist.nets = vec![Net::Zero; nets.len()];
        netlist.pins = vec![Pin { cell: 0, name: 0, bit: 0, direction: 0, net: 0 }; pins.len()];
        for (old, &kind) in kinds.iter().enumerate() {
            netlist.cells[cell_of[old]].kind = kind;
        }
        for (old, net) in nets.iter().enumerate() {
            netlist.nets[net_of[old]] = match net.driver {
                Net::Driven(pin) => Net::Driven(pin_of[pin]),
                constant => constant,
            };
        }
        for (old, pin) in pins.iter().enumerate() {
            let &DraftPin { name, bit, direction, .. } = pin;
            let (cell, net) = (cell_of[pin.cell], net_of[pin.net]);
            netlist.pins[pin_of[old]] = Pin { cell, name, bit, direction, net };
            netlist.cells[cell].list.push(pin_of[old]);
        }
        if !as_drafted {
            for cell in &mut netlist.cells {
                random.shuffle(&mut cell.list);
            }
        }
        netlist
    }
}
