//! The calls of `include/trazzughes.h`.

use crate::builds::{Built, NetlistWords};
use crate::case::Words;
use crate::lent::Lent;

#[rustfmt::skip]
mod c {
    extern "C" {
        pub fn trazz_build(
            cells: u32, pins: u32, nets: u32,
            pin_room: u32, output_room: u32, dff_room: u32, ram_room: u32, fanout_room: u32,
            kinds: *const u32, _: usize,
            starts: *const u32, _: usize,
            list: *const u32, _: usize,
            pins: *const u32, _: usize,
            nets: *const u32, _: usize,
            drivers: *mut u32, _: usize,
            outputs: *mut u32, _: usize,
            dffs: *mut u32, _: usize,
            rams: *mut u32, _: usize,
            literals: *mut u32, _: usize,
            fanout_starts: *mut u32, _: usize,
            fanouts: *mut u32, _: usize,
            counts: *mut u32, _: usize,
            work: *mut u32, _: usize,
        ) -> u32;
        pub fn trazz_check_graph(
            pins: u32, outputs: u32, dffs: u32, rams: u32,
            _: *const u32, _: usize, _: *const u32, _: usize, _: *const u32, _: usize, _: *const u32, _: usize,
            work: *mut u32, _: usize,
        ) -> u32;
        pub fn trazz_traverse(
            pins: u32,
            drivers: *const u32, _: usize,
            given: bool, roots: *const u32, _: usize,
            handed: *const u32, _: usize,
            order: *mut u32, _: usize,
            counts: *mut u32, _: usize,
            work: *mut u32, _: usize,
        ) -> u32;
        pub fn trazz_evaluate(
            pins: u32,
            drivers: *const u32, _: usize,
            sources: *const u32, _: usize,
            bits: *mut u32, _: usize,
        ) -> u32;
        pub fn trazz_fanouts(
            pins: u32,
            drivers: *const u32, _: usize,
            starts: *mut u32, _: usize,
            lists: *mut u32, _: usize,
        ) -> u32;
        pub fn trazz_endpoint(
            pins: u32, outputs: u32, dffs: u32, rams: u32,
            endpoint: u32,
            counts: *mut u32, _: usize,
        ) -> u32;
        pub fn trazz_staged_endpoint(
            pins: u32, outputs: u32, dffs: u32, rams: u32,
            handed: *const u32, _: usize,
            taken: *const u32, _: usize,
            place: u32,
            counts: *mut u32, _: usize,
        ) -> u32;
        pub fn trazz_input(
            pins: u32, outputs: u32, dffs: u32, rams: u32,
            _: *const u32, _: usize, _: *const u32, _: usize, _: *const u32, _: usize,
            endpoint: u32, input: u32,
            counts: *mut u32, _: usize,
        ) -> u32;
        pub fn trazz_staged_input(
            pins: u32, outputs: u32, dffs: u32, rams: u32,
            _: *const u32, _: usize, _: *const u32, _: usize, _: *const u32, _: usize,
            handed: *const u32, _: usize,
            taken: *const u32, _: usize,
            place: u32, input: u32,
            counts: *mut u32, _: usize,
        ) -> u32;
        pub fn trazz_full(
            pins: u32, outputs: u32, dffs: u32, rams: u32,
            taken: *mut u32, _: usize,
            counts: *mut u32, _: usize,
        ) -> u32;
        pub fn trazz_subset(
            handed: *const u32, _: usize,
            taken: *const u32, _: usize,
            subset: *const u32, _: usize,
            handed_out: *mut u32, _: usize,
            taken_out: *mut u32, _: usize,
            counts: *mut u32, _: usize,
        ) -> u32;
        pub fn trazz_split(
            pins: u32, outputs: u32, dffs: u32, rams: u32,
            _: *const u32, _: usize, _: *const u32, _: usize, _: *const u32, _: usize, _: *const u32, _: usize,
            chosen: *const u32, _: usize,
            before: *const u32, _: usize,
            level: u32,
            handed: *mut u32, _: usize,
            taken: *mut u32, _: usize,
            counts: *mut u32, _: usize,
            work: *mut u32, _: usize,
        ) -> u32;
        pub fn trazz_stages(
            pins: u32, outputs: u32, dffs: u32, rams: u32,
            _: *const u32, _: usize, _: *const u32, _: usize, _: *const u32, _: usize, _: *const u32, _: usize,
            splits: *const u32, _: usize,
            room: u32,
            rows: *mut u32, _: usize,
            handed: *mut u32, _: usize,
            taken: *mut u32, _: usize,
            counts: *mut u32, _: usize,
            work: *mut u32, _: usize,
        ) -> u32;
    }
}

/// Each table becomes its pointer and its length: `in` those that are only read, `out` those that are lent.
macro_rules! call {
    ($name:ident, $words:expr, $($kind:ident $value:expr),* $(,)?) => {{
        let w: &Words = $words;
        call!(@ $name [w.pins, w.output_count, w.dff_count, w.ram_count] $($kind $value,)*)
    }};
    (@ $name:ident [$($done:expr),*] in $value:expr, $($rest:tt)*) => {
        call!(@ $name [$($done,)* $value.as_ptr(), $value.len()] $($rest)*)
    };
    (@ $name:ident [$($done:expr),*] out $value:expr, $($rest:tt)*) => {
        call!(@ $name [$($done,)* $value.pointer(), $value.length()] $($rest)*)
    };
    (@ $name:ident [$($done:expr),*] num $value:expr, $($rest:tt)*) => {
        call!(@ $name [$($done,)* $value] $($rest)*)
    };
    // The pointers and lengths are those of whole tables that overlap nowhere.
    (@ $name:ident [$($done:expr),*]) => { unsafe { c::$name($($done),*) } };
}

pub fn build(n: &NetlistWords, to: &mut Built) -> u32 {
    let [pins, outputs, dffs, rams, fanouts] = to.rooms;
    call!(
        @ trazz_build [n.cell_count, n.pin_count, n.net_count, pins, outputs, dffs, rams, fanouts]
        in n.kinds, in n.starts, in n.list, in n.pins, in n.nets,
        out to.drivers, out to.outputs, out to.dffs, out to.rams,
        out to.literals, out to.starts, out to.fanouts, out to.counts, out to.work,
    )
}

pub fn check_graph(w: &Words, work: &mut Lent) -> u32 {
    call!(trazz_check_graph, w, in w.drivers, in w.outputs, in w.dffs, in w.rams, out work)
}

/// The order, the counts and the work go to the last three.
pub fn traverse(
    w: &Words,
    given: bool,
    roots: &[u32],
    handed: &[u32],
    (order, counts, work): (&mut Lent, &mut Lent, &mut Lent),
) -> u32 {
    call!(
        @ trazz_traverse [w.pins] in w.drivers, num given, in roots, in handed,
        out order, out counts, out work,
    )
}

pub fn evaluate(w: &Words, sources: &[u32], bits: &mut Lent) -> u32 {
    call!(@ trazz_evaluate [w.pins] in w.drivers, in sources, out bits,)
}

pub fn fanouts(w: &Words, starts: &mut Lent, lists: &mut Lent) -> u32 {
    call!(@ trazz_fanouts [w.pins] in w.drivers, out starts, out lists,)
}

pub fn endpoint(w: &Words, endpoint: u32, counts: &mut Lent) -> u32 {
    call!(trazz_endpoint, w, num endpoint, out counts)
}

pub fn staged_endpoint(
    w: &Words,
    handed: &[u32],
    taken: &[u32],
    place: u32,
    counts: &mut Lent,
) -> u32 {
    call!(trazz_staged_endpoint, w, in handed, in taken, num place, out counts)
}

pub fn input(w: &Words, endpoint: u32, input: u32, counts: &mut Lent) -> u32 {
    call!(trazz_input, w, in w.outputs, in w.dffs, in w.rams, num endpoint, num input, out counts)
}

pub fn staged_input(
    w: &Words,
    handed: &[u32],
    taken: &[u32],
    place: u32,
    input: u32,
    counts: &mut Lent,
) -> u32 {
    call!(
        trazz_staged_input, w, in w.outputs, in w.dffs, in w.rams, in handed, in taken,
        num place, num input, out counts
    )
}

pub fn full(w: &Words, taken: &mut Lent, counts: &mut Lent) -> u32 {
    call!(trazz_full, w, out taken, out counts)
}

pub fn subset(
    handed: &[u32],
    taken: &[u32],
    subset: &[u32],
    handed_out: &mut Lent,
    taken_out: &mut Lent,
    counts: &mut Lent,
) -> u32 {
    call!(@ trazz_subset [] in handed, in taken, in subset, out handed_out, out taken_out, out counts,)
}

/// What a stage is asked with, and where its lists go.
pub struct Stage<'a> {
    pub handed: &'a mut Lent,
    pub taken: &'a mut Lent,
    pub counts: &'a mut Lent,
    pub work: &'a mut Lent,
}

pub fn split(w: &Words, chosen: &[u32], before: &[u32], level: u32, to: Stage) -> u32 {
    call!(
        trazz_split, w, in w.drivers, in w.outputs, in w.dffs, in w.rams, in chosen, in before,
        num level, out to.handed, out to.taken, out to.counts, out to.work
    )
}

pub fn stages(w: &Words, splits: &[u32], room: u32, rows: &mut Lent, to: Stage) -> u32 {
    call!(
        trazz_stages, w, in w.drivers, in w.outputs, in w.dffs, in w.rams, in splits,
        num room, out rows, out to.handed, out to.taken, out to.counts, out to.work
    )
}
