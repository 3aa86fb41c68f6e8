//! Runs the unchanged Rust on netlist and graph texts and prints what it answers.
//!
//! `judge [--stack MIB] [--unguarded] [FILE]`

#[allow(warnings)]
#[rustfmt::skip]
#[path = "../../../target/gem/src/aig.rs"]
mod aig;
#[allow(warnings)]
#[rustfmt::skip]
#[path = "../../../target/gem/src/aigpdk.rs"]
mod aigpdk;
mod netlist;
#[allow(warnings)]
#[rustfmt::skip]
#[path = "../../../target/gem/src/staging.rs"]
mod staging;
mod tables;

use aig::{EndpointGroup, AIG};
use indexmap::IndexSet;
use staging::{build_staged_aigs, StagedAIG};
use std::cell::RefCell;
use std::fmt::Write;
use std::panic::{catch_unwind, set_hook, AssertUnwindSafe};
use tables::{aig_of, graph_of, word};
use text::*;

thread_local! {
    static MESSAGE: RefCell<String> = const { RefCell::new(String::new()) };
}

/// What the work gives, or the message of its panic on one line.
fn caught<Value>(work: impl FnOnce() -> Value) -> Result<Value, String> {
    catch_unwind(AssertUnwindSafe(work)).map_err(|_| MESSAGE.take())
}

fn note_panics() {
    set_hook(Box::new(|panic| {
        let message = panic.payload_as_str().unwrap_or("without a message");
        MESSAGE.set(message.split_whitespace().collect::<Vec<_>>().join(" "));
    }));
}

fn main() {
    let mut mebibytes = 16 << 10;
    let mut guarded = true;
    let mut file = None;
    let mut arguments = std::env::args().skip(1);
    while let Some(argument) = arguments.next() {
        match argument.as_str() {
            "--stack" => {
                mebibytes =
                    arguments.next().and_then(|word| word.parse().ok()).expect("--stack MIB")
            }
            "--unguarded" => guarded = false,
            _ => file = Some(argument),
        }
    }
    note_panics();
    std::thread::Builder::new()
        .stack_size(mebibytes << 20)
        .spawn(move || answer_all(file.as_deref(), |text| answer(text, guarded)))
        .expect("a thread with that stack")
        .join()
        .expect("no panic of our own")
        .expect("files that can be read and written");
}

fn answer(text: &str, guarded: bool) -> String {
    let mut out = String::new();
    let text = match parse(text) {
        Ok(text) => text,
        Err(line) => {
            write_words(&mut out, "unreadable", [line]);
            return out;
        }
    };
    let aig = match text.design {
        Design::Netlist(netlist) => {
            let db = netlist::netlistdb(&netlist);
            let built = if guarded && netlist::clock_walk_loops(&db) {
                Err("clock walk loops".to_string())
            } else {
                caught(|| AIG::from_netlistdb(&db))
            };
            match built {
                Ok(aig) => {
                    write_aig(&mut out, &aig);
                    aig
                }
                Err(message) => return format!("panic\t{message}\n"),
            }
        }
        Design::Graph(graph) => aig_of(&graph),
    };
    match caught(|| build_staged_aigs(&aig, &text.splits)) {
        Ok(stages) => write_stages(&mut out, &stages.into_iter().map(stage).collect::<Vec<_>>()),
        Err(message) => {
            let _ = writeln!(out, "stages\tpanic\t{message}");
        }
    }
    for request in &text.requests {
        let name = request.name();
        match caught(|| answer_request(&aig, request)) {
            Ok(lines) => out.push_str(&lines),
            Err(message) => {
                let _ = writeln!(out, "{name}\tpanic\t{message}");
            }
        }
    }
    out
}

fn stage((lower, upper, staged): (usize, usize, StagedAIG)) -> Stage {
    Stage { lower, upper, hand: staged.primary_output_pins, ends: staged.endpoints }
}

fn answer_request(aig: &AIG, request: &Request) -> String {
    let mut out = String::new();
    let set = |list: &Vec<usize>| list.iter().copied().collect::<IndexSet<usize>>();
    match request {
        Request::Traverse { from, handed } => {
            let handed = handed.as_ref().map(set);
            let order = aig.topo_traverse_generic(from.as_ref(), handed.as_ref());
            write_words(&mut out, "traverse", order);
        }
        Request::FromSplit { level, ends, handed } => {
            let ends = ends.as_ref().map_or((0..aig.num_endpoint_groups()).collect(), set);
            let handed = handed.as_ref().map(set);
            let staged = StagedAIG::from_split(aig, &ends, handed.as_ref(), *level);
            write_words(&mut out, "fromsplit", [*level]);
            write_stage_lists(&mut out, &staged.primary_output_pins, &staged.endpoints);
        }
        Request::Subset { hand, ends, take } => {
            let staged = StagedAIG {
                primary_inputs: None,
                primary_output_pins: hand.clone(),
                endpoints: ends.clone(),
            };
            let subset = staged.to_endpoint_subset(take);
            write_words(&mut out, "subset", []);
            write_stage_lists(&mut out, &subset.primary_output_pins, &subset.endpoints);
        }
        Request::Endpoint(endpoint) => {
            let group = aig.get_endpoint_group(*endpoint);
            let case = match group {
                EndpointGroup::PrimaryOutput(_) => "output",
                EndpointGroup::DFF(_) => "dff",
                EndpointGroup::RAMBlock(_) => "ram",
                EndpointGroup::StagedIOPin(_) => "hand",
            };
            let mut inputs = Vec::new();
            group.for_each_input(|pin| inputs.push(pin));
            write_words(&mut out, &format!("endpoint\t{endpoint}\t{case}"), inputs);
        }
    }
    out
}

fn write_aig(out: &mut String, aig: &AIG) {
    let literals: Vec<usize> = aig.pin2aigpin_iv.iter().copied().map(word).collect();
    write_built(out, &literals, &graph_of(aig), &aig.fanouts_start, &aig.fanouts);
}
