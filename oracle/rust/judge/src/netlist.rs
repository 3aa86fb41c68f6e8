//! From the netlist text's tables to the `NetlistDB` that the Rust reads.

use compact_str::CompactString;
use netlistdb::{Direction, HierName, NetlistDB, VecCSR};
use text::{Net, Netlist};

const KINDS: [&str; 13] = [
    "",
    "AND2_00_0",
    "AND2_01_0",
    "AND2_10_0",
    "AND2_11_0",
    "AND2_11_1",
    "INV",
    "BUF",
    "DFF",
    "DFFSR",
    "CKLNQD",
    "$__RAMGEM_SYNC_",
    "LATCH",
];

const NAMES: [&str; 17] = [
    "port",
    "A",
    "B",
    "Y",
    "D",
    "CLK",
    "S",
    "R",
    "CP",
    "E",
    "PORT_R_ADDR",
    "PORT_R_CLK",
    "PORT_R_RD_DATA",
    "PORT_W_ADDR",
    "PORT_W_CLK",
    "PORT_W_WR_DATA",
    "PORT_W_WR_EN",
];

/// The names that have a bit.
const BUSES: [usize; 5] = [10, 12, 13, 15, 16];

/// The output of flip-flops and clock gates is called Q, that of the others Y.
fn pin_name(name: usize, kind: &str) -> &'static str {
    match (name, kind) {
        (3, "DFF" | "DFFSR" | "CKLNQD" | "LATCH") => "Q",
        _ => NAMES.get(name).unwrap_or(&"unknown"),
    }
}

/// All nets of one constant become the first of them. What is out of range stays so.
pub fn netlistdb(netlist: &Netlist) -> NetlistDB {
    let celltypes: Vec<CompactString> = netlist
        .cells
        .iter()
        .map(|cell| CompactString(KINDS.get(cell.kind).unwrap_or(&"unknown")))
        .collect();
    let net_zero = netlist.nets.iter().position(|net| *net == Net::Zero);
    let net_one = netlist.nets.iter().position(|net| *net == Net::One);
    let joined = |net: usize| match netlist.nets.get(net) {
        Some(Net::Zero) => net_zero.unwrap(),
        Some(Net::One) => net_one.unwrap(),
        _ => net,
    };
    let kind_of = |cell: usize| celltypes.get(cell).map_or("unknown", |kind| kind.0);
    let driver = |net: &Net| match *net {
        Net::Driven(pin) => vec![pin],
        _ => vec![],
    };
    let pins = &netlist.pins;
    NetlistDB {
        num_cells: netlist.cells.len(),
        num_pins: pins.len(),
        cellnames: (0..netlist.cells.len()).map(HierName::Cell).collect(),
        cell2pin: csr(netlist.cells.iter().map(|cell| cell.list.clone())),
        pinnames: pins
            .iter()
            .map(|pin| {
                let name = CompactString(pin_name(pin.name, kind_of(pin.cell)));
                let bit = BUSES.contains(&pin.name).then_some(pin.bit as isize);
                (HierName::Cell(pin.cell), name, bit)
            })
            .collect(),
        pindirect: pins
            .iter()
            .map(|pin| if pin.direction == 0 { Direction::I } else { Direction::O })
            .collect(),
        pin2cell: pins.iter().map(|pin| pin.cell).collect(),
        pin2net: pins.iter().map(|pin| joined(pin.net)).collect(),
        net2pin: csr(netlist.nets.iter().map(driver)),
        net_zero,
        net_one,
        celltypes,
    }
}

fn csr(lists: impl Iterator<Item = Vec<usize>>) -> VecCSR {
    let mut start = vec![0];
    let mut items = Vec::new();
    for list in lists {
        items.extend(list);
        start.push(items.len());
    }
    VecCSR { start, items }
}

/// Whether a clock walk of the Rust's first step comes back to where it was, which no stack is deep
/// enough for. The walks are followed in the Rust's order, up to the first one that panics.
pub fn clock_walk_loops(db: &NetlistDB) -> bool {
    for cell in 1..db.num_cells {
        if !matches!(db.celltypes[cell].0, "DFF" | "DFFSR" | "$__RAMGEM_SYNC_") {
            continue;
        }
        for pin in db.cell2pin.iter_set(cell) {
            let Some(name) = db.pinnames.get(pin) else { return false };
            if !matches!(name.1 .0, "CLK" | "PORT_R_CLK" | "PORT_W_CLK") {
                continue;
            }
            match walk_ends(db, pin) {
                Walk::Ends => {}
                Walk::Panics => return false,
                Walk::Loops => return true,
            }
        }
    }
    false
}

enum Walk {
    Ends,
    Panics,
    Loops,
}

fn walk_ends(db: &NetlistDB, mut pin: usize) -> Walk {
    for _ in 0..=db.num_pins {
        if pin >= db.num_pins {
            return Walk::Panics;
        }
        let cell = db.pin2cell[pin];
        if db.pindirect[pin] == Direction::I {
            let net = db.pin2net[pin];
            if Some(net) == db.net_zero || Some(net) == db.net_one {
                return Walk::Ends;
            }
            match db.net2pin.start.get(net).and_then(|start| db.net2pin.items.get(*start)) {
                Some(&driver) => pin = driver,
                None => return Walk::Panics,
            }
        } else if cell == 0 {
            return Walk::Ends;
        } else {
            match next_pin(db, cell) {
                Some(next) => pin = next,
                None => return Walk::Panics,
            }
        }
    }
    Walk::Loops
}

/// The input of a clock cell at which the walk goes on; none where the Rust panics.
fn next_pin(db: &NetlistDB, cell: usize) -> Option<usize> {
    let kind = db.celltypes.get(cell)?.0;
    let mut on = None;
    let mut enabled = false;
    for pin in db.cell2pin.iter_set(cell) {
        if *db.pindirect.get(pin)? == Direction::I {
            match (db.pinnames[pin].1 .0, kind) {
                ("A", "INV" | "BUF") | ("CP", "CKLNQD") => on = Some(pin),
                ("E", _) => enabled = true,
                ("A" | "CP", _) => {}
                _ => return None,
            }
        }
    }
    match kind {
        "INV" | "BUF" => on,
        "CKLNQD" if enabled => on,
        _ => None,
    }
}
