//! Compares the static library with the unchanged Rust, in one process, on graphs made by chance, or with
//! `--netlists` on netlists: building, and the stages of what was built.
//!
//! `compare [--netlists] [--seed N] [--first N] [--count N] [--size N]`
//!
//! Where document 01 accepts, every word must be the Rust's; where it refuses, the number must be the
//! model's. All tables start full of other words, with guard words around them.

#[allow(warnings)]
#[rustfmt::skip]
#[path = "../../../target/gem/src/aig.rs"]
mod aig;
#[allow(warnings)]
#[rustfmt::skip]
#[path = "../../../target/gem/src/aigpdk.rs"]
mod aigpdk;
#[path = "../../generate/src/broken.rs"]
mod broken;
#[allow(dead_code)]
#[path = "../../model/src/build.rs"]
mod build;
mod builds;
mod case;
#[allow(dead_code)]
#[path = "../../model/src/check.rs"]
mod check;
#[path = "../../generate/src/draft.rs"]
mod draft;
mod ends;
#[path = "../../generate/src/graph.rs"]
mod graph;
mod lent;
mod library;
#[allow(dead_code)]
#[path = "../../judge/src/netlist.rs"]
mod netlist;
mod pins;
#[path = "../../generate/src/random.rs"]
mod random;
mod splits;
#[allow(dead_code)]
#[path = "../../model/src/stages.rs"]
mod stages;
#[allow(warnings)]
#[rustfmt::skip]
#[path = "../../../target/gem/src/staging.rs"]
mod staging;
#[path = "../../judge/src/tables.rs"]
mod tables;
mod tally;

use case::Case;
use random::Random;
use std::process::ExitCode;
use tally::Tally;

const USAGE: &str = "compare [--netlists] [--seed N] [--first N] [--count N] [--size N]";

/// The Rust recurses over pins, so deep graphs need a deep stack; only what is used of it is taken.
const STACK: usize = 4 << 30;

fn main() -> ExitCode {
    let work = std::thread::Builder::new().stack_size(STACK).spawn(run);
    work.expect("a thread").join().expect("no panic")
}

fn run() -> ExitCode {
    let (mut seed, mut first, mut count, mut size) = (1, 0, 1000, 24);
    let mut netlists = false;
    let mut arguments = std::env::args().skip(1);
    while let Some(argument) = arguments.next() {
        if argument == "--netlists" {
            netlists = true;
            continue;
        }
        let number = arguments.next().and_then(|word| word.parse().ok()).expect(USAGE);
        match argument.as_str() {
            "--seed" => seed = number,
            "--first" => first = number,
            "--count" => count = number,
            "--size" => size = number,
            _ => panic!("{USAGE}"),
        }
    }
    let mut tally = Tally::default();
    for number in first..first + count {
        let mut random = Random::new(seed, number);
        if netlists {
            builds::build(&mut tally, &mut random, number, size);
            continue;
        }
        let case = Case::new(&mut random, size);
        tally.begin(number, case.origin);
        compare(&mut tally, &mut random, &case);
    }
    tally.print();
    ExitCode::from(tally.differ() as u8)
}

fn compare(tally: &mut Tally, random: &mut Random, case: &Case) {
    splits::stages(tally, random, case);
    splits::split(tally, random, case);
    splits::full(tally, random, case);
    splits::subset(tally, random, case);
    pins::check_graph(tally, random, case);
    pins::traverse(tally, random, case);
    pins::fanouts(tally, random, case);
    pins::evaluate(tally, random, case);
    ends::endpoint(tally, random, case);
    ends::staged_endpoint(tally, random, case);
}
