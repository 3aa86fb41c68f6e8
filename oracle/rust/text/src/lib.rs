//! The texts that judge, model and generator share: netlists, graphs, requests and answers.
//! One record a line, fields parted by tabs; `oracle/README.md` describes them.

use std::fmt::Write as _;
use std::io::{self, BufRead};

/// The literal of a gated clock, and of one after an odd number of inverters.
pub const MARKER: usize = 4_294_967_295;
pub const MARKER_INVERTED: usize = 4_294_967_294;

/// A stage without an upper end.
pub const END: usize = usize::MAX;

pub struct Cell {
    pub kind: usize,
    pub list: Vec<usize>,
}

#[derive(Clone, Copy)]
pub struct Pin {
    pub cell: usize,
    pub name: usize,
    pub bit: usize,
    pub direction: usize,
    pub net: usize,
}

#[derive(Clone, Copy, PartialEq)]
pub enum Net {
    Zero,
    One,
    Driven(usize),
}

#[derive(Default)]
pub struct Netlist {
    pub cells: Vec<Cell>,
    pub pins: Vec<Pin>,
    pub nets: Vec<Net>,
}

#[derive(Clone, Copy, Debug, PartialEq)]
pub enum Driver {
    Constant,
    And(usize, usize),
    Port(usize),
    Flag(usize, bool),
    Dff(usize),
    Ram(usize),
}

#[derive(Clone, Copy, Debug, PartialEq)]
pub struct Dff {
    pub next: usize,
    pub enable: usize,
    pub pin: usize,
}

/// A RAM record: read enable, 13 read address, 32 read data, 13 write address, 32 write enable,
/// 32 write data.
pub const RAM_WORDS: usize = 123;
pub type Ram = [usize; RAM_WORDS];
pub const READ_ADDRESS: usize = 1;
pub const READ_DATA: usize = 14;
pub const WRITE_ADDRESS: usize = 46;
pub const WRITE_ENABLE: usize = 59;
pub const WRITE_DATA: usize = 91;

/// Driver 0 is the constant.
#[derive(Default)]
pub struct Graph {
    pub drivers: Vec<Driver>,
    pub outputs: Vec<usize>,
    pub dffs: Vec<Dff>,
    pub rams: Vec<Ram>,
}

pub struct Stage {
    pub lower: usize,
    pub upper: usize,
    pub hand: Vec<usize>,
    pub ends: Vec<usize>,
}

/// A public call asked by itself.
pub enum Request {
    Traverse { from: Option<Vec<usize>>, handed: Option<Vec<usize>> },
    FromSplit { level: usize, ends: Option<Vec<usize>>, handed: Option<Vec<usize>> },
    Subset { hand: Vec<usize>, ends: Vec<usize>, take: Vec<usize> },
    Endpoint(usize),
}

impl Request {
    /// The name under which it is asked and answered.
    pub fn name(&self) -> &'static str {
        match self {
            Request::Traverse { .. } => "traverse",
            Request::FromSplit { .. } => "fromsplit",
            Request::Subset { .. } => "subset",
            Request::Endpoint(_) => "endpoint",
        }
    }
}

pub enum Design {
    Netlist(Netlist),
    Graph(Graph),
}

pub struct Text {
    pub design: Design,
    pub splits: Vec<usize>,
    pub requests: Vec<Request>,
}

/// Calls `work` on each text of a file in which a line `---` parts one from the next.
pub fn each_text(mut input: impl BufRead, mut work: impl FnMut(&str)) -> io::Result<()> {
    let mut text = String::new();
    let mut line = String::new();
    loop {
        line.clear();
        let ended = input.read_line(&mut line)? == 0;
        if ended || line.trim_end() == "---" {
            work(&text);
            text.clear();
        } else {
            text.push_str(&line);
        }
        if ended {
            return Ok(());
        }
    }
}

/// Reads one text; an error is the number of the first line that cannot be read.
pub fn parse(text: &str) -> Result<Text, usize> {
    let mut reading = Reading::default();
    for (number, line) in text.lines().enumerate() {
        reading.record(line).ok_or(number + 1)?;
    }
    let Reading { netlist, graph, splits, requests } = reading;
    let design =
        if graph.drivers.is_empty() { Design::Netlist(netlist) } else { Design::Graph(graph) };
    Ok(Text { design, splits, requests })
}

#[derive(Default)]
struct Reading {
    netlist: Netlist,
    graph: Graph,
    splits: Vec<usize>,
    requests: Vec<Request>,
}

impl Reading {
    fn record(&mut self, line: &str) -> Option<()> {
        let fields: Vec<&str> = line.split('\t').collect();
        let (name, words) = (fields[0], &fields[1..]);
        match name {
            "cell" => {
                let words = numbers(words)?;
                let (&kind, list) = words.split_first()?;
                self.netlist.cells.push(Cell { kind, list: list.to_vec() });
            }
            "pin" => {
                let [cell, name, bit, direction, net] = exactly(words)?;
                self.netlist.pins.push(Pin { cell, name, bit, direction, net });
            }
            "net" => self.netlist.nets.push(match numbers(words)?[..] {
                [0] => Net::Zero,
                [1] => Net::One,
                [2, pin] => Net::Driven(pin),
                _ => return None,
            }),
            "driver" => {
                let place = self.graph.drivers.len();
                self.graph.drivers.push(driver(words, place)?);
            }
            "output" => self.graph.outputs.extend(exactly::<1>(words)?),
            "dff" => {
                let [next, enable, pin] = exactly(words)?;
                self.graph.dffs.push(Dff { next, enable, pin });
            }
            "ram" => self.graph.rams.push(exactly(words)?),
            "split" => self.splits.extend(exactly::<1>(words)?),
            _ => self.requests.push(request(name, words)?),
        }
        Some(())
    }
}

fn numbers(fields: &[&str]) -> Option<Vec<usize>> {
    fields.iter().map(|field| field.parse().ok()).collect()
}

fn exactly<const COUNT: usize>(fields: &[&str]) -> Option<[usize; COUNT]> {
    numbers(fields)?.try_into().ok()
}

fn driver(fields: &[&str], place: usize) -> Option<Driver> {
    let (pin, case) = fields.split_first()?;
    if pin.parse() != Ok(place) {
        return None;
    }
    let (&case, rest) = case.split_first()?;
    Some(match (case, rest) {
        ("const", []) => Driver::Constant,
        ("and", _) => {
            let [a, b] = exactly(rest)?;
            Driver::And(a, b)
        }
        ("port", [port]) => Driver::Port(port.parse().ok()?),
        ("flag", [port, "rising"]) => Driver::Flag(port.parse().ok()?, false),
        ("flag", [port, "falling"]) => Driver::Flag(port.parse().ok()?, true),
        ("dff", [cell]) => Driver::Dff(cell.parse().ok()?),
        ("ram", [cell]) => Driver::Ram(cell.parse().ok()?),
        _ => return None,
    })
}

fn request(name: &str, words: &[&str]) -> Option<Request> {
    Some(match name {
        "traverse" => {
            Request::Traverse { from: list(words, "from")?, handed: list(words, "handed")? }
        }
        "fromsplit" => Request::FromSplit {
            level: words.first()?.parse().ok()?,
            ends: list(words, "ends")?,
            handed: list(words, "handed")?,
        },
        "subset" => Request::Subset {
            hand: list(words, "hand")?.unwrap_or_default(),
            ends: list(words, "ends")?.unwrap_or_default(),
            take: list(words, "take")?.unwrap_or_default(),
        },
        "endpoint" => {
            let [endpoint] = exactly(words)?;
            Request::Endpoint(endpoint)
        }
        _ => return None,
    })
}

/// The numbers after a word of the line, up to the next word; none without the word.
fn list(words: &[&str], name: &str) -> Option<Option<Vec<usize>>> {
    let Some(place) = words.iter().position(|word| *word == name) else {
        return Some(None);
    };
    let rest = &words[place + 1..];
    let length = rest
        .iter()
        .position(|word| word.starts_with(|c: char| c.is_ascii_alphabetic()))
        .unwrap_or(rest.len());
    numbers(&rest[..length]).map(Some)
}

pub fn write_words(out: &mut String, name: &str, words: impl IntoIterator<Item = usize>) {
    out.push_str(name);
    for word in words {
        let _ = write!(out, "\t{word}");
    }
    out.push('\n');
}

pub fn write_graph(out: &mut String, graph: &Graph) {
    for (pin, driver) in graph.drivers.iter().enumerate() {
        let _ = match driver {
            Driver::Constant => writeln!(out, "driver\t{pin}\tconst"),
            Driver::And(a, b) => writeln!(out, "driver\t{pin}\tand\t{a}\t{b}"),
            Driver::Port(port) => writeln!(out, "driver\t{pin}\tport\t{port}"),
            Driver::Flag(port, falling) => {
                let edge = if *falling { "falling" } else { "rising" };
                writeln!(out, "driver\t{pin}\tflag\t{port}\t{edge}")
            }
            Driver::Dff(cell) => writeln!(out, "driver\t{pin}\tdff\t{cell}"),
            Driver::Ram(cell) => writeln!(out, "driver\t{pin}\tram\t{cell}"),
        };
    }
    for &literal in &graph.outputs {
        write_words(out, "output", [literal]);
    }
    for dff in &graph.dffs {
        write_words(out, "dff", [dff.next, dff.enable, dff.pin]);
    }
    for ram in &graph.rams {
        write_words(out, "ram", *ram);
    }
}

/// What building answers: literals of the netlist's pins, the graph, its fanouts.
pub fn write_built(
    out: &mut String,
    literals: &[usize],
    graph: &Graph,
    starts: &[usize],
    fanouts: &[usize],
) {
    write_words(out, "pins", [graph.drivers.len() - 1]);
    for (pin, &literal) in literals.iter().enumerate() {
        write_words(out, "lit", [pin, literal]);
    }
    write_graph(out, graph);
    write_words(out, "starts", starts.iter().copied());
    write_words(out, "fanouts", fanouts.iter().copied());
}

pub fn write_stage_lists(out: &mut String, hand: &[usize], ends: &[usize]) {
    write_words(out, "hand", hand.iter().copied());
    write_words(out, "ends", ends.iter().copied());
}

pub fn write_stages(out: &mut String, stages: &[Stage]) {
    for stage in stages {
        let _ = match stage.upper {
            END => writeln!(out, "stage\t{}\tend", stage.lower),
            upper => writeln!(out, "stage\t{}\t{upper}", stage.lower),
        };
        write_stage_lists(out, &stage.hand, &stage.ends);
    }
}

pub fn write_netlist(out: &mut String, netlist: &Netlist) {
    for cell in &netlist.cells {
        write_words(out, "cell", std::iter::once(cell.kind).chain(cell.list.iter().copied()));
    }
    for pin in &netlist.pins {
        write_words(out, "pin", [pin.cell, pin.name, pin.bit, pin.direction, pin.net]);
    }
    for net in &netlist.nets {
        match *net {
            Net::Zero => write_words(out, "net", [0]),
            Net::One => write_words(out, "net", [1]),
            Net::Driven(pin) => write_words(out, "net", [2, pin]),
        }
    }
}

/// The reader and the writer of a program that turns texts into answers: a file named by the
/// argument, or standard input; standard output, `---` between answers.
pub fn answer_all(file: Option<&str>, mut answer: impl FnMut(&str) -> String) -> io::Result<()> {
    use std::io::Write;
    let input: Box<dyn BufRead> = match file {
        None | Some("-") => Box::new(io::stdin().lock()),
        Some(path) => Box::new(io::BufReader::new(std::fs::File::open(path)?)),
    };
    let mut output = io::BufWriter::new(io::stdout().lock());
    let mut first = true;
    let mut written = Ok(());
    each_text(input, |text| {
        if written.is_ok() {
            let part = if first { "" } else { "---\n" };
            written = write!(output, "{part}{}", answer(text));
            first = false;
        }
    })?;
    written?;
    output.flush()
}
