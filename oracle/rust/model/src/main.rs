//! The rules of document 01 written out from its text, as a judge of its own beside the Rust: reads
//! the same texts and prints answers in the same form, with refusals where the document has one.
//!
//! `model [FILE]`

mod build;
mod check;
mod stages;

use std::fmt::Write;
use text::*;

fn main() {
    answer_all(std::env::args().nth(1).as_deref(), answer)
        .expect("files that can be read and written");
}

fn answer(text: &str) -> String {
    let mut out = String::new();
    let text = match parse(text) {
        Ok(text) => text,
        Err(line) => {
            write_words(&mut out, "unreadable", [line]);
            return out;
        }
    };
    let graph = match text.design {
        Design::Netlist(netlist) => {
            if let Err(number) = check::netlist(&netlist) {
                write_words(&mut out, "refused", [number]);
                return out;
            }
            let built = build::build(&netlist);
            let (starts, fanouts) = build::fanouts(&built.graph.drivers);
            write_built(&mut out, &built.literals, &built.graph, &starts, &fanouts);
            built.graph
        }
        Design::Graph(graph) => graph,
    };
    match stages::stages(&graph, &text.splits) {
        Ok(stages) => write_stages(&mut out, &stages),
        Err(number) => write_words(&mut out, "stages\trefused", [number]),
    }
    for request in &text.requests {
        match answer_request(&graph, request) {
            Ok(lines) => out.push_str(&lines),
            Err(number) => {
                let _ = writeln!(out, "{}\trefused\t{number}", request.name());
            }
        }
    }
    out
}

fn answer_request(graph: &Graph, request: &Request) -> Result<String, usize> {
    let mut out = String::new();
    match request {
        Request::Traverse { from, handed } => {
            let order = stages::traverse(graph, from.as_deref(), handed.as_deref().unwrap_or(&[]))?;
            write_words(&mut out, "traverse", order);
        }
        Request::FromSplit { level, ends, handed } => {
            let handed = handed.as_deref().unwrap_or(&[]);
            let (hand, taken) = stages::split_alone(graph, *level, ends.as_deref(), handed)?;
            write_words(&mut out, "fromsplit", [*level]);
            write_stage_lists(&mut out, &hand, &taken);
        }
        Request::Subset { hand, ends, take } => {
            let (hand, ends) = stages::subset(hand, ends, take)?;
            write_words(&mut out, "subset", []);
            write_stage_lists(&mut out, &hand, &ends);
        }
        Request::Endpoint(endpoint) => {
            let (case, inputs) = stages::endpoint(graph, *endpoint)?;
            write_words(&mut out, &format!("endpoint\t{endpoint}\t{case}"), inputs);
        }
    }
    Ok(out)
}
