//! A safe wrapper of some calls of `include/trazzughes.h`: building, staging and evaluating.
//!
//! What C asks of a caller, Rust's borrows give: a slice is a pointer that is not null and its length, and a
//! `&mut` slice overlaps no other. So each call is one `unsafe` line, with nothing to be checked before it.

/// The number of a refusal, as the header lists them.
#[derive(Clone, Copy, Debug, PartialEq, Eq)]
pub struct Refused(pub u32);

fn answered(number: u32) -> Result<(), Refused> {
    match number {
        0 => Ok(()),
        number => Err(Refused(number)),
    }
}

/// The tables of a netlist.
#[derive(Clone, Debug)]
pub struct Netlist {
    pub kinds: Vec<u32>,
    pub starts: Vec<u32>,
    pub list: Vec<u32>,
    pub pins: Vec<u32>,
    pub nets: Vec<u32>,
}

/// How many of each a graph may have.
#[derive(Clone, Copy, Debug)]
pub struct Rooms {
    pub pins: u32,
    pub outputs: u32,
    pub dffs: u32,
    pub rams: u32,
    pub fanouts: u32,
}

/// A graph, each table as long as it is used.
#[derive(Clone, Debug)]
pub struct Graph {
    pub pins: u32,
    pub gates: u32,
    pub drivers: Vec<u32>,
    pub outputs: Vec<u32>,
    pub dffs: Vec<u32>,
    pub rams: Vec<u32>,
    /// The literal of each netlist pin.
    pub literals: Vec<u32>,
    pub fanout_starts: Vec<u32>,
    pub fanouts: Vec<u32>,
}

/// A stage: its ends, none above for the last, the pins that it hands on and the endpoints that it takes.
#[derive(Clone, Debug, PartialEq, Eq)]
pub struct Stage {
    pub lower: u32,
    pub upper: Option<u32>,
    pub handed: Vec<u32>,
    pub taken: Vec<u32>,
}

#[rustfmt::skip]
mod c {
    extern "C" {
        pub fn trazz_build(
            cell_count: u32, pin_count: u32, net_count: u32,
            pin_room: u32, output_room: u32, dff_room: u32, ram_room: u32, fanout_room: u32,
            kinds: *const u32, _: usize, starts: *const u32, _: usize, list: *const u32, _: usize,
            pins: *const u32, _: usize, nets: *const u32, _: usize,
            drivers: *mut u32, _: usize, outputs: *mut u32, _: usize, dffs: *mut u32, _: usize, rams: *mut u32, _: usize,
            literals: *mut u32, _: usize, fanout_starts: *mut u32, _: usize, fanouts: *mut u32, _: usize,
            counts: *mut u32, _: usize, work: *mut u32, _: usize,
        ) -> u32;
        pub fn trazz_stages(
            pins: u32, output_count: u32, dff_count: u32, ram_count: u32,
            drivers: *const u32, _: usize, outputs: *const u32, _: usize, dffs: *const u32, _: usize, rams: *const u32, _: usize,
            splits: *const u32, _: usize,
            room: u32,
            rows: *mut u32, _: usize, handed: *mut u32, _: usize, taken: *mut u32, _: usize,
            counts: *mut u32, _: usize, work: *mut u32, _: usize,
        ) -> u32;
        pub fn trazz_evaluate(
            pins: u32,
            drivers: *const u32, _: usize,
            sources: *const u32, _: usize,
            bits: *mut u32, _: usize,
        ) -> u32;
    }
}

impl Graph {
    /// The graph of a netlist. Rooms past their bounds are refused, so that what is allocated has bounds too.
    pub fn build(netlist: &Netlist, rooms: Rooms) -> Result<Graph, Refused> {
        let Netlist { kinds, starts, list, pins, nets } = netlist;
        let room =
            |count: u32, most: u32| if count > most { Err(Refused(1)) } else { Ok(count as usize) };
        let (pin_room, fanout_room) =
            (room(rooms.pins, 16_777_215)?, room(rooms.fanouts, 33_554_430)?);
        let [output_room, dff_room, ram_room] = [
            room(rooms.outputs, 1_048_576)?,
            room(rooms.dffs, 1_048_576)?,
            room(rooms.rams, 1_048_576)?,
        ];
        let (mut counts, mut work) = ([0; 5], vec![0; 8 * list.len() + 8 * pin_room + 1024]);
        let mut graph = Graph {
            pins: 0,
            gates: 0,
            drivers: vec![0; 3 * (pin_room + 1)],
            outputs: vec![0; output_room],
            dffs: vec![0; 3 * dff_room],
            rams: vec![0; 123 * ram_room],
            literals: vec![0; list.len()],
            fanout_starts: vec![0; pin_room + 2],
            fanouts: vec![0; fanout_room],
        };
        let g = &mut graph;
        #[rustfmt::skip]
        let number = unsafe {
            c::trazz_build(
                narrow(kinds.len()), narrow(list.len()), narrow(nets.len()),
                rooms.pins, rooms.outputs, rooms.dffs, rooms.rams, rooms.fanouts,
                kinds.as_ptr(), kinds.len(), starts.as_ptr(), starts.len(), list.as_ptr(), list.len(),
                pins.as_ptr(), pins.len(), nets.as_ptr(), nets.len(),
                g.drivers.as_mut_ptr(), g.drivers.len(), g.outputs.as_mut_ptr(), g.outputs.len(),
                g.dffs.as_mut_ptr(), g.dffs.len(), g.rams.as_mut_ptr(), g.rams.len(),
                g.literals.as_mut_ptr(), g.literals.len(),
                g.fanout_starts.as_mut_ptr(), g.fanout_starts.len(), g.fanouts.as_mut_ptr(), g.fanouts.len(),
                counts.as_mut_ptr(), counts.len(), work.as_mut_ptr(), work.len(),
            )
        };
        answered(number)?;
        let [pins, gates, outputs, dffs, rams] = counts;
        (graph.pins, graph.gates) = (pins, gates);
        graph.drivers.truncate(3 * (pins as usize + 1));
        graph.outputs.truncate(outputs as usize);
        graph.dffs.truncate(3 * dffs as usize);
        graph.rams.truncate(123 * rams as usize);
        graph.fanout_starts.truncate(pins as usize + 2);
        graph.fanouts.truncate(2 * gates as usize);
        Ok(graph)
    }

    fn counts(&self) -> [u32; 3] {
        [self.outputs.len(), self.dffs.len() / 3, self.rams.len() / 123].map(narrow)
    }

    /// Output literals, flip-flops and RAMs.
    pub fn endpoints(&self) -> u32 {
        self.counts().iter().sum()
    }

    /// All stages, split at strictly increasing levels.
    pub fn stages(&self, splits: &[u32]) -> Result<Vec<Stage>, Refused> {
        let ([outputs, dffs, rams], endpoints) = (self.counts(), self.endpoints() as usize);
        let room = splits.len() + 1;
        let (mut rows, mut counts) = (vec![0; 4 * room], [0; 3]);
        let (mut handed, mut taken) = (vec![0; self.pins as usize], vec![0; endpoints]);
        let mut work = vec![0; 12 * self.pins as usize + 4 * endpoints + 64];
        #[rustfmt::skip]
        let number = unsafe {
            c::trazz_stages(
                self.pins, outputs, dffs, rams,
                self.drivers.as_ptr(), self.drivers.len(), self.outputs.as_ptr(), self.outputs.len(),
                self.dffs.as_ptr(), self.dffs.len(), self.rams.as_ptr(), self.rams.len(),
                splits.as_ptr(), splits.len(), narrow(room),
                rows.as_mut_ptr(), rows.len(), handed.as_mut_ptr(), handed.len(), taken.as_mut_ptr(), taken.len(),
                counts.as_mut_ptr(), counts.len(), work.as_mut_ptr(), work.len(),
            )
        };
        answered(number)?;
        let (mut handed, mut taken) = (handed.into_iter(), taken.into_iter());
        let stage = |row: &[u32]| Stage {
            lower: row[0],
            upper: (row[1] != u32::MAX).then_some(row[1]),
            handed: handed.by_ref().take(row[2] as usize).collect(),
            taken: taken.by_ref().take(row[3] as usize).collect(),
        };
        Ok(rows.chunks(4).take(counts[0] as usize).map(stage).collect())
    }

    /// The bit of every pin, from the bits of ports, flags, flip-flops and RAMs: one word a pin, from pin 0.
    pub fn evaluate(&self, sources: &[u32]) -> Result<Vec<u32>, Refused> {
        let mut bits = vec![0; self.pins as usize + 1];
        #[rustfmt::skip]
        let number = unsafe {
            c::trazz_evaluate(
                self.pins, self.drivers.as_ptr(), self.drivers.len(), sources.as_ptr(), sources.len(),
                bits.as_mut_ptr(), bits.len(),
            )
        };
        answered(number)?;
        Ok(bits)
    }
}

/// A count as C takes it; one that is too large stays out of its bounds, and so is refused.
fn narrow(count: usize) -> u32 {
    u32::try_from(count).unwrap_or(u32::MAX)
}
