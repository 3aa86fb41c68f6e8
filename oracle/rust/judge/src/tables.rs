//! The Rust's graph as the texts' graph, and back.

use crate::aig::{DriverType, RAMBlock, AIG, DFF};
use text::*;

/// A word of ours for one of the Rust's: only the markers differ.
pub fn word(value: usize) -> usize {
    match value {
        usize::MAX => MARKER,
        value if value == usize::MAX - 1 => MARKER_INVERTED,
        value => value,
    }
}

pub fn graph_of(aig: &AIG) -> Graph {
    Graph {
        drivers: aig
            .drivers
            .iter()
            .map(|driver| match *driver {
                DriverType::AndGate(a, b) => Driver::And(a, b),
                DriverType::InputPort(port) => Driver::Port(port),
                DriverType::InputClockFlag(port, edge) => Driver::Flag(port, edge == 1),
                DriverType::DFF(cell) => Driver::Dff(cell),
                DriverType::SRAM(cell) => Driver::Ram(cell),
                DriverType::Tie0 => Driver::Constant,
            })
            .collect(),
        outputs: aig.primary_outputs.iter().copied().map(word).collect(),
        dffs: aig
            .dffs
            .values()
            .map(|dff| Dff { next: word(dff.d_iv), enable: word(dff.en_iv), pin: dff.q })
            .collect(),
        rams: aig.srams.values().map(ram_words).collect(),
    }
}

fn ram_words(ram: &RAMBlock) -> Ram {
    let mut words = [0; RAM_WORDS];
    words[0] = ram.port_r_en_iv;
    words[READ_ADDRESS..READ_DATA].copy_from_slice(&ram.port_r_addr_iv);
    words[READ_DATA..WRITE_ADDRESS].copy_from_slice(&ram.port_r_rd_data);
    words[WRITE_ADDRESS..WRITE_ENABLE].copy_from_slice(&ram.port_w_addr_iv);
    words[WRITE_ENABLE..WRITE_DATA].copy_from_slice(&ram.port_w_wr_en_iv);
    words[WRITE_DATA..].copy_from_slice(&ram.port_w_wr_data_iv);
    words.map(word)
}

/// A graph given directly; the Rust's staging asks for no more of it than this.
pub fn aig_of(graph: &Graph) -> AIG {
    let dff = |dff: &Dff| DFF { d_iv: dff.next, en_iv: dff.enable, q: dff.pin };
    let ram = |words: &Ram| RAMBlock {
        port_r_en_iv: words[0],
        port_r_addr_iv: words[READ_ADDRESS..READ_DATA].try_into().unwrap(),
        port_r_rd_data: words[READ_DATA..WRITE_ADDRESS].try_into().unwrap(),
        port_w_addr_iv: words[WRITE_ADDRESS..WRITE_ENABLE].try_into().unwrap(),
        port_w_wr_en_iv: words[WRITE_ENABLE..WRITE_DATA].try_into().unwrap(),
        port_w_wr_data_iv: words[WRITE_DATA..].try_into().unwrap(),
    };
    AIG {
        num_aigpins: graph.drivers.len() - 1,
        drivers: graph
            .drivers
            .iter()
            .map(|driver| match *driver {
                Driver::And(a, b) => DriverType::AndGate(a, b),
                Driver::Port(port) => DriverType::InputPort(port),
                Driver::Flag(port, falling) => DriverType::InputClockFlag(port, falling as u8),
                Driver::Dff(cell) => DriverType::DFF(cell),
                Driver::Ram(cell) => DriverType::SRAM(cell),
                Driver::Constant => DriverType::Tie0,
            })
            .collect(),
        primary_outputs: graph.outputs.iter().copied().collect(),
        dffs: graph.dffs.iter().map(dff).enumerate().collect(),
        srams: graph.rams.iter().map(ram).enumerate().collect(),
        ..Default::default()
    }
}
