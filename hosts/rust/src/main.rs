//! A register behind two gates and a clock gate: its graph, its stages, and four clock cycles of it.

use register::{Graph, Netlist, Refused, Rooms};

// Kinds of cells, as the header numbers them.
const TOP: u32 = 0;
const AND2: u32 = 1;
const DFF: u32 = 8;
const CLOCK_GATE: u32 = 10;

// Names of pins.
const PORT: u32 = 0;
const A: u32 = 1;
const B: u32 = 2;
const OUT: u32 = 3;
const D: u32 = 4;
const CLK: u32 = 5;
const CP: u32 = 8;
const E: u32 = 9;

/// One pin of a cell: its name, whether it is an out pin, and its net.
type Pin = (u32, bool, usize);

/// Cells one after the other, so that pin p stands at place p of the lists. An out pin drives its net.
fn netlist(cells: &[(u32, &[Pin])], nets: usize) -> Netlist {
    let mut n =
        Netlist { kinds: vec![], starts: vec![0], list: vec![], pins: vec![], nets: vec![0; nets] };
    for (cell, &(kind, pins)) in cells.iter().enumerate() {
        for &(name, out, net) in pins {
            let number = n.list.len() as u32;
            n.list.push(number);
            n.pins.extend([cell as u32, name, 0, out as u32, net as u32]);
            if out {
                n.nets[net] = 2 + number;
            }
        }
        n.kinds.push(kind);
        n.starts.push(n.list.len() as u32);
    }
    n
}

fn driver(row: &[u32]) -> String {
    match *row {
        [0, ..] => "constant".to_string(),
        [1, a, b] => format!("and {a} {b}"),
        [2, port, _] => format!("port {port}"),
        [3, port, edge] => format!("flag {port} {}", ["rising", "falling"][edge as usize]),
        [4, cell, _] => format!("dff {cell}"),
        _ => format!("ram {}", row[1]),
    }
}

fn main() -> Result<(), Refused> {
    // Nets: clk, a, b, c, enable, first gate, second gate, gated clock, q.
    let n = netlist(
        &[
            (
                TOP,
                &[
                    (PORT, true, 0),
                    (PORT, true, 1),
                    (PORT, true, 2),
                    (PORT, true, 3),
                    (PORT, true, 4),
                    (PORT, false, 8),
                ],
            ),
            (AND2, &[(A, false, 1), (B, false, 2), (OUT, true, 5)]),
            (AND2, &[(A, false, 5), (B, false, 3), (OUT, true, 6)]),
            (CLOCK_GATE, &[(CP, false, 0), (E, false, 4), (OUT, true, 7)]),
            (DFF, &[(D, false, 6), (CLK, false, 7), (OUT, true, 8)]),
        ],
        9,
    );
    let rooms = Rooms { pins: 32, outputs: 4, dffs: 4, rams: 0, fanouts: 64 };
    let g = Graph::build(&n, rooms)?;
    println!("{} pins, {} gates, {} endpoints", g.pins, g.gates, g.endpoints());
    for (pin, row) in g.drivers.chunks(3).enumerate() {
        println!("driver {pin} {}", driver(row));
    }
    println!("outputs {:?}, register next, enable, pin {:?}", g.outputs, g.dffs);
    for stage in g.stages(&[1])? {
        println!("{stage:?}");
    }
    println!("split at 1 and 1: {:?}", g.stages(&[1, 1]));
    println!("room for 4 pins: {:?}", Graph::build(&n, Rooms { pins: 4, ..rooms }).err());

    // Each cycle: the clock rises, with a, b, c and enable as given; the register takes its next bit where it is enabled.
    let mut q = 0;
    for [a, b, c, enable] in [[1, 1, 1, 0], [1, 1, 1, 1], [0, 1, 1, 0], [0, 1, 1, 1]] {
        let source = |row: &[u32]| match row[..2] {
            [2, port] => [1, a, b, c, enable][port as usize],
            [3, _] => 1,
            [4, _] => q,
            _ => 0,
        };
        let bits = g.evaluate(&g.drivers.chunks(3).map(source).collect::<Vec<u32>>())?;
        let literal = |literal: u32| bits[literal as usize / 2] ^ (literal % 2);
        let shown = literal(g.outputs[0]);
        if literal(g.dffs[1]) == 1 {
            q = literal(g.dffs[0]);
        }
        println!("a {a} b {b} c {c} enable {enable}: q was {shown}, is {q}");
    }
    Ok(())
}
