//! Times building and staging by the static library and by the unchanged Rust, in one process on the same inputs.
//!
//! `bench [--repeat N] [PINS ..]`

#[allow(warnings)]
#[rustfmt::skip]
#[path = "../../oracle/target/gem/src/aig.rs"]
mod aig;
#[allow(warnings)]
#[rustfmt::skip]
#[path = "../../oracle/target/gem/src/aigpdk.rs"]
mod aigpdk;
mod inputs;
mod library;
mod memory;
#[allow(dead_code)]
#[path = "../../oracle/rust/judge/src/netlist.rs"]
mod netlist;
#[allow(dead_code)]
#[path = "../../oracle/rust/generate/src/random.rs"]
mod random;
#[allow(warnings)]
#[rustfmt::skip]
#[path = "../../oracle/target/gem/src/staging.rs"]
mod staging;
#[allow(dead_code)]
#[path = "../../oracle/rust/judge/src/tables.rs"]
mod tables;

use aig::AIG;
use library::{narrow, Counts, Graphs, Netlists, Stages};
use staging::build_staged_aigs;
use std::hint::black_box;
use std::time::{Duration, Instant};
use text::*;

#[global_allocator]
static ALLOCATOR: memory::Counting = memory::Counting;

const USAGE: &str = "bench [--repeat N] [PINS ..]";
const SPLITS: [usize; 3] = [0, 4, 64];

fn main() {
    let mut repeat = 5;
    let mut sizes = Vec::new();
    let mut arguments = std::env::args().skip(1);
    while let Some(argument) = arguments.next() {
        let word = if argument == "--repeat" { arguments.next() } else { Some(argument.clone()) };
        let number: usize = word.and_then(|word| word.parse().ok()).expect(USAGE);
        if argument == "--repeat" {
            repeat = number.max(1);
        } else {
            sizes.push(number);
        }
    }
    if sizes.is_empty() {
        sizes = vec![10_000, 100_000];
    }
    println!("The least of {repeat} runs each. Times are ns a netlist pin. `copy` copies the words that a call reads and");
    println!("writes, work left out, once. Memory is in KiB beside the inputs: ours is results and work, the Rust's is the");
    println!("heap at its peak, both with the stack that was touched. Tables of ours are lent as the run before left them,");
    println!("and are not cleared first; the call clears them.");
    println!();
    println!(
        "{:10} {:>8} {:12} {:>9} {:>9} {:>9} {:>9} {:>9} {:>9} {:>9}",
        "input",
        "pins",
        "call",
        "ours",
        "Rust",
        "Rust/ours",
        "copy",
        "ours/copy",
        "ours KiB",
        "Rust KiB"
    );
    // The Rust recurses over pins; all runs are on one deep stack, which stays warm.
    let work = move || sizes.iter().for_each(|&pins| measure_all(pins, repeat));
    let thread = std::thread::Builder::new().stack_size(memory::STACK).spawn(work);
    thread.expect("a thread").join().expect("no panic");
}

/// The least time of several runs. What a run makes is given up after its time is taken.
fn least<Value>(repeat: usize, mut work: impl FnMut() -> Value) -> Duration {
    let once = |_| {
        let start = Instant::now();
        let value = black_box(work());
        let time = start.elapsed();
        drop(value);
        time
    };
    (0..repeat).map(once).min().unwrap()
}

/// The time to copy so many words from one table to another.
fn copy(repeat: usize, words: usize) -> Duration {
    let (from, mut to) = (vec![1u32; words], vec![2u32; words]);
    least(repeat.max(5), || black_box(&mut to).copy_from_slice(black_box(&from)))
}

fn words(tables: &[Vec<u32>]) -> usize {
    tables.iter().map(Vec::len).sum()
}

struct Row<'a> {
    input: &'a str,
    pins: usize,
    call: String,
    ours: Duration,
    rust: Duration,
    copy: Duration,
    ours_memory: usize,
    rust_memory: usize,
}

impl Row<'_> {
    fn print(&self) {
        let each = |time: Duration| time.as_nanos() as f64 / self.pins as f64;
        let (ours, rust, copy) = (each(self.ours), each(self.rust), each(self.copy));
        println!(
            "{:10} {:8} {:12} {:9.1} {:9.1} {:9.2} {:9.2} {:9.1} {:9} {:9}",
            self.input,
            self.pins,
            self.call,
            ours,
            rust,
            rust / ours,
            copy,
            ours / copy,
            self.ours_memory / 1024,
            self.rust_memory / 1024
        );
    }
}

fn measure_all(pins: usize, repeat: usize) {
    for input in inputs::NAMES {
        measure(input, &inputs::netlist(input, pins), repeat);
    }
}

fn measure(input: &str, text: &Netlist, repeat: usize) {
    let (db, tables) = (netlist::netlistdb(text), Netlists::new(text));
    let pins = text.pins.len();
    let aig = AIG::from_netlistdb(&db);
    let counts = counts(&aig);
    let mut graph = Graphs::new(counts, pins);
    library::build(&tables, counts, &mut graph);
    assert!(graph.tables == built(&aig), "{input}: the graphs are the same");
    Row {
        input,
        pins,
        call: "build".to_string(),
        ours: least(repeat, || library::build(&tables, counts, &mut graph)),
        rust: least(repeat, || AIG::from_netlistdb(&db)),
        copy: copy(repeat, words(&tables.0) + words(&graph.tables)),
        ours_memory: memory::of(|| {
            let mut graph = Graphs::new(counts, pins);
            library::build(&tables, counts, &mut graph);
            graph
        }),
        rust_memory: memory::of(|| AIG::from_netlistdb(&db)),
    }
    .print();
    for splits in SPLITS {
        measure_stages(input, pins, &aig, &graph, &levels(&aig, splits), repeat);
    }
}

fn measure_stages(
    input: &str,
    pins: usize,
    aig: &AIG,
    graph: &Graphs,
    levels: &[usize],
    repeat: usize,
) {
    let (counts, splits) = (counts(aig), narrow(levels));
    let mut stages = Stages::new(counts, levels.len());
    library::stages(graph, counts, &splits, &mut stages);
    let expected = staged(aig, levels);
    let used = stages.tables.iter().zip(&expected);
    assert!(
        used.clone().all(|(table, words)| table[..words.len()] == words[..]),
        "{input}: stages"
    );
    Row {
        input,
        pins,
        call: format!("{} splits", levels.len()),
        ours: least(repeat, || library::stages(graph, counts, &splits, &mut stages)),
        rust: least(repeat, || build_staged_aigs(aig, levels)),
        copy: copy(repeat, words(&graph.tables[..4]) + words(&expected)),
        ours_memory: memory::of(|| {
            let mut stages = Stages::new(counts, levels.len());
            library::stages(graph, counts, &splits, &mut stages);
            stages
        }),
        rust_memory: memory::of(|| build_staged_aigs(aig, levels)),
    }
    .print();
}

fn counts(aig: &AIG) -> Counts {
    let gate = |driver: &&aig::DriverType| matches!(driver, aig::DriverType::AndGate(..));
    [
        aig.num_aigpins,
        aig.drivers.iter().filter(gate).count(),
        aig.primary_outputs.len(),
        aig.dffs.len(),
        aig.srams.len(),
    ]
}

/// So many levels, evenly spread over the depth of the graph, strictly increasing.
fn levels(aig: &AIG, count: usize) -> Vec<usize> {
    let mut level = vec![0; aig.num_aigpins + 1];
    for (pin, driver) in aig.drivers.iter().enumerate() {
        if let aig::DriverType::AndGate(a, b) = *driver {
            level[pin] = 1 + level[a / 2].max(level[b / 2]);
        }
    }
    let depth = level.iter().max().copied().unwrap_or(0);
    let mut levels: Vec<usize> = Vec::new();
    for place in 1..=count {
        let least = levels.last().map_or(1, |last| last + 1);
        levels.push(least.max(place * depth / (count + 1)));
    }
    levels
}

/// What the Rust built, as our tables.
fn built(aig: &AIG) -> [Vec<u32>; 7] {
    let graph = tables::graph_of(aig);
    let driver = |driver: &Driver| match *driver {
        Driver::Constant => [0, 0, 0],
        Driver::And(a, b) => [1, a, b],
        Driver::Port(port) => [2, port, 0],
        Driver::Flag(port, falling) => [3, port, falling as usize],
        Driver::Dff(cell) => [4, cell, 0],
        Driver::Ram(cell) => [5, cell, 0],
    };
    let dff = |dff: &Dff| [dff.next, dff.enable, dff.pin];
    [
        graph.drivers.iter().flat_map(driver).collect(),
        graph.outputs.clone(),
        graph.dffs.iter().flat_map(dff).collect(),
        graph.rams.concat(),
        aig.pin2aigpin_iv.iter().map(|&literal| tables::word(literal)).collect(),
        aig.fanouts_start.clone(),
        aig.fanouts.clone(),
    ]
    .map(|table: Vec<usize>| narrow(&table))
}

/// The Rust's stages, as our tables.
fn staged(aig: &AIG, levels: &[usize]) -> [Vec<u32>; 3] {
    let [mut rows, mut handed, mut taken] = [vec![], vec![], vec![]];
    for (lower, upper, stage) in build_staged_aigs(aig, levels) {
        let (hand, ends) = (stage.primary_output_pins.len(), stage.endpoints.len());
        rows.extend([lower as u32, upper as u32, hand as u32, ends as u32]);
        handed.extend(narrow(&stage.primary_output_pins));
        taken.extend(narrow(&stage.endpoints));
    }
    [rows, handed, taken]
}
