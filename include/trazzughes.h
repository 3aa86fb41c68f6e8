/* Trazzughes: and-inverter graphs of netlists, their traversal, evaluation and fanouts, and their stages. Apache-2.0.
 *
 * Every call here is proved to answer and to leave exactly what is said of it, whatever numbers and tables it is given;
 * nothing is asked of a caller but this:
 *
 * - A table is a pointer to 32-bit words and their number. The pointer is not NULL, also where the number is 0, and is
 *   aligned for uint32_t. Nothing else reads or writes the tables during a call, and a table that is written overlaps
 *   no other. Tables that are const here are only read, and may overlap each other.
 *
 * Calls allocate nothing, print nothing, keep nothing between them, and need little stack. Different threads may call
 * at the same time on results and work of their own. Link libcapi.a, which `rt lib` makes in crates/capi.
 *
 * ANSWERS. Each call returns 0, or the number of its refusal. Of the refusals that apply, the first in the order of
 * this list is given:
 *
 *    1  a count, a room, a list's length or a level is out of its bounds (LIMITS)
 *    2  a table's length disagrees with its count, or is too short for work or counts
 *    3  a cell's kind is above 12, or cell 0 is not the top, or another is
 *    4  a cell is a latch
 *    5  the pins or the cells' lists break a rule, an index out of range included (NETLIST)
 *    6  the nets break a rule
 *    7  the netlist has a loop
 * 8, 9  of the first clock walk that fails: 8, it meets, in its first 64 cells, a kind other than INV, BUF and CKLNQD;
 *       9, it meets a 65th cell
 *   10  a gated clock reaches a pin that must have a logic bit
 *   12  the graph breaks a rule (GRAPH)
 *   13  split levels do not strictly increase
 *   15  an index is out of range; an endpoint or handed-on pin repeats where a set is asked; a subset has an endpoint
 *       before a handed-on pin
 *   14  a split is asked and no chosen endpoint reads a pin other than 0
 *   11  the answer needs more room than a result table has
 *
 * After a refusal every word of every result, of `counts` and of `work` is 0. After a success the words of a result
 * past those that are said here, those of `counts` likewise, and all of `work`, are 0. What a table held before a call
 * does not matter.
 *
 * COUNTS. `counts` has at least 3 words (else 2) and gets up to three numbers that belong to the answer; at least 5 for
 * trazz_build, which has five.
 *
 * WORK. `work` has at least 12 * pins + 4 * endpoints + 64 words, where endpoints = outputs + dffs + rams; for
 * trazz_traverse endpoints is 0. For trazz_build it has at least 8 * pin_count + 8 * pin_room + 1024.
 *
 * LITERALS. A literal is twice its pin, and 1 more where it is inverted.
 *
 * NETLIST. Cells, pins and nets are numbered from 0; cell 0 is the top. A netlist is three counts and five tables:
 *
 *   kinds    cell_count words: 0 top, 1 AND2_00_0, 2 AND2_01_0, 3 AND2_10_0, 4 AND2_11_0, 5 AND2_11_1, 6 INV, 7 BUF,
 *            8 DFF, 9 DFFSR, 10 CKLNQD, 11 RAM ($__RAMGEM_SYNC_), 12 LATCH
 *   starts   cell_count + 1 words: the list of cell c stands in `list` from starts[c] up to starts[c + 1]; the first is
 *            0, the last pin_count, and none is less than the one before
 *   list     pin_count words: the pins of each cell, in an order of your choice; every pin stands in its own cell's
 *            list, once
 *   pins     5 * pin_count words, of each pin: its cell; its name; its bit, 0 where it has none; its direction, 0 in,
 *            1 out; its net. Names: 0 port, 1 A, 2 B, 3 the output, 4 D, 5 CLK, 6 S, 7 R, 8 CP, 9 E,
 *            10 PORT_R_ADDR, 11 PORT_R_CLK, 12 PORT_R_RD_DATA, 13 PORT_W_ADDR, 14 PORT_W_CLK, 15 PORT_W_WR_DATA,
 *            16 PORT_W_WR_EN
 *   nets     net_count words: 0 for a net that is constant 0, 1 for constant 1, 2 + p for a net that pin p drives
 *
 * Of the pins (5): AND2 has A, B and an output, INV and BUF A and an output, CKLNQD CP, E and an output; DFF and DFFSR
 * an output and, if you like, D, CLK, S, R; a RAM any of its own. Address bits are 0 to 12, data and write-enable bits
 * 0 to 31. Outputs and read data are out, the others in. No other pin is there, and none twice. The top's pins are
 * ports, any number of them, of name 0 and bit 0: an input port has direction out, an output port in.
 *
 * Of the nets (6): the pin that drives a net is an out pin on that net, and every out pin drives its net.
 *
 * Of loops (7): an in pin visits the pin that drives its net; the output of AND2, INV and BUF visits its inputs, that
 * of CKLNQD CP and E, that of a flip-flop S and R. No visit comes back to where it was.
 *
 * Of clocks: a walk goes from a CLK, PORT_R_CLK or PORT_W_CLK against INV, BUF and CKLNQD (CP) to an input port or a
 * constant. Walks are taken by cells upward, then in list order; 8 or 9 is that of the first walk that fails. A CKLNQD
 * output, and what a net, INV or BUF carries it to, has no logic bit, and must not reach (10) an AND2, D, S, R, E, a
 * RAM's address, data or write enable, or an output port.
 *
 * GRAPH. Pins run from 0 to `pins`; pin 0 is the constant 0. A graph is four counts and four tables:
 *
 *   drivers  3 * (pins + 1) words, three a pin from pin 0: a case and two words, 0 where not used
 *              0          constant 0: pin 0, and no other
 *              1, a, b    AND gate of the literals a <= b, whose pins are at least 1 and less than the gate's own
 *              2, p       input port p
 *              3, p, e    clock flag of port p: e is 0 for the rising edge, 1 for the falling
 *              4, c       flip-flop, cell c
 *              5, c       read-data bit of the RAM of cell c
 *   outputs  a word each: a literal; none twice
 *   dffs     3 words each: literal of the next bit, literal of the enable, its own pin
 *   rams     123 words each: read-enable literal; 13 read-address literals; 32 read-data pins, 0 where absent;
 *            13 write-address literals; 32 write-enable literals; 32 write-data literals
 *
 * Ports and cells may be any numbers. The pins with driver 4 are one for one the pins of `dffs`, those with driver 5
 * the read-data pins of `rams`. Every literal's pin is at most `pins`. A graph that breaks one of these rules is 12.
 * Calls that take the driver table alone hold it to the rules on drivers alone.
 *
 * ENDPOINTS are numbered from 0: the outputs, then the flip-flops, then the RAMs. What an endpoint reads, in order,
 * pin 0 left out: an output its literal's pin; a flip-flop its enable's and its next bit's; a RAM its read enable's,
 * then for each bit the read and the write address, then for each bit the write enable and the write data.
 *
 * STAGE. A stage is two lists: the pins that it hands on, and the endpoints that it takes. Its places are numbered
 * from 0, first the handed-on pins, then the endpoints.
 *
 * SPLIT. The level of a source, and of a pin that was handed on before, is 0; that of a gate is 1 more than the higher
 * of its operands'. A stage of height d takes, of the endpoints that are left, in their order, those whose inputs all
 * have level at most d. It visits the inputs of all that are left as trazz_traverse does, past no pin handed on before,
 * and hands on the visited pins of level at most d that are still read afterwards, by an endpoint not taken or by a
 * gate of a higher level, and were not handed on before. Their order: in visit order each pin of level at most d joins
 * a set; once a gate has joined, its first and then its second operand leaves if nothing more reads it; then so do the
 * inputs of each endpoint taken. Where one leaves, the last member takes its place. Endpoints that were taken leave the
 * endpoints left in the same way, one by one.
 *
 * LIMITS. cell_count 1 to 1,048,576; pin_count and net_count at most 1,048,576 each. pins and every list's length at
 * most 16,777,215; outputs, dffs and rams at most 1,048,576 each; fanout lists at most 33,554,430 words; levels at most
 * 16,777,215; split levels at most 64; stages at most 65. A room has the bound of what it holds.
 */
#ifndef TRAZZUGHES_H
#define TRAZZUGHES_H

#include <stdbool.h>
#include <stddef.h>
#include <stdint.h>

#ifdef __cplusplus
extern "C" {
#endif

/* The upper end of a last stage. */
#define TRAZZ_END UINT32_C(4294967295)

/* What trazz_endpoint and trazz_staged_endpoint find, in counts[0]. */
#define TRAZZ_OUTPUT UINT32_C(0)
#define TRAZZ_DFF UINT32_C(1)
#define TRAZZ_RAM UINT32_C(2)
#define TRAZZ_HANDED UINT32_C(3)

/* The literal of a gated clock, and of one behind an odd number of inverters, which have no logic bit. */
#define TRAZZ_MARKER UINT32_C(4294967295)
#define TRAZZ_MARKER_INVERTED UINT32_C(4294967294)

/* The graph of the netlist, for as many pins, output literals, flip-flops, RAMs and fanouts as the rooms say. Results:
 *
 *   drivers        3 * (pin_room + 1) words; as GRAPH says, one row for each pin of the graph from 0
 *   outputs        output_room words: the literals of the output ports, each once, in the order of visits; a port that
 *                  is tied straight to a constant net adds none
 *   dffs           3 * dff_room words: the flip-flops, as GRAPH says, in the order in which they were first met
 *   rams           123 * ram_room words: the RAMs likewise
 *   literals       pin_count words: the literal of each netlist pin, or a marker
 *   fanout_starts  pin_room + 2 words, and
 *   fanouts        fanout_room words: as trazz_fanouts gives them
 *
 * counts: how many pins the graph has, pin 0 left out; gates; output literals; flip-flops; RAMs. These are the counts
 * that the other calls take, and the first words of each table, as many as the counts ask for, are their tables.
 *
 * The graph has a pin for each port and edge at which a clock walk ends, each input port, flip-flop and read-data bit,
 * and each gate. Gates are at most 1 an AND2, 6 a flip-flop, 32 a RAM, and 1 for each CKLNQD on each clock walk. Twice
 * the gates is the room for fanouts. Refusals 1 to 11. */
uint32_t trazz_build(
    uint32_t cell_count, uint32_t pin_count, uint32_t net_count,
    uint32_t pin_room, uint32_t output_room, uint32_t dff_room, uint32_t ram_room, uint32_t fanout_room,
    const uint32_t *kinds, size_t kinds_length,
    const uint32_t *starts, size_t starts_length,
    const uint32_t *list, size_t list_length,
    const uint32_t *pins, size_t pins_length,
    const uint32_t *nets, size_t nets_length,
    uint32_t *drivers, size_t drivers_length,
    uint32_t *outputs, size_t outputs_length,
    uint32_t *dffs, size_t dffs_length,
    uint32_t *rams, size_t rams_length,
    uint32_t *literals, size_t literals_length,
    uint32_t *fanout_starts, size_t fanout_starts_length,
    uint32_t *fanouts, size_t fanouts_length,
    uint32_t *counts, size_t counts_length,
    uint32_t *work, size_t work_length);

/* Does the graph keep all rules? 0, or 1, 2, 12. */
uint32_t trazz_check_graph(
    uint32_t pins, uint32_t output_count, uint32_t dff_count, uint32_t ram_count,
    const uint32_t *drivers, size_t drivers_length,
    const uint32_t *outputs, size_t outputs_length,
    const uint32_t *dffs, size_t dffs_length,
    const uint32_t *rams, size_t rams_length,
    uint32_t *work, size_t work_length);

/* The visit order: from each of `roots` in order where `given`, else from the pins 1 upward (and `roots` is not looked
 * at, but for its length). Operands come before their gate, the first before the second, none twice; a visit does not
 * go past a pin of `handed`, a set. Roots and handed-on pins run from 0 to `pins`. The order stands in `order`, whose
 * length is its room, and pins + 1 words are enough. counts: how many pins are listed. Refusals 1, 2, 12, 15, 11. */
uint32_t trazz_traverse(
    uint32_t pins,
    const uint32_t *drivers, size_t drivers_length,
    bool given, const uint32_t *roots, size_t roots_length,
    const uint32_t *handed, size_t handed_length,
    uint32_t *order, size_t order_length,
    uint32_t *counts, size_t counts_length,
    uint32_t *work, size_t work_length);

/* The bit of every pin, 0 or 1, into `bits`, pins + 1 words. `sources` has pins + 1 words; those of ports, flags,
 * flip-flops and RAMs are read: 0 is 0, anything else is 1. Refusals 1, 2, 12. */
uint32_t trazz_evaluate(
    uint32_t pins,
    const uint32_t *drivers, size_t drivers_length,
    const uint32_t *sources, size_t sources_length,
    uint32_t *bits, size_t bits_length);

/* The gates that read each pin. Those of pin p stand in `lists` from starts[p] up to starts[p + 1], in falling order,
 * twice where both operands read it. `starts` has pins + 2 words; the length of `lists` is its room, and twice the
 * number of gates is enough. Refusals 1, 2, 12, 11. */
uint32_t trazz_fanouts(
    uint32_t pins,
    const uint32_t *drivers, size_t drivers_length,
    uint32_t *starts, size_t starts_length,
    uint32_t *lists, size_t lists_length);

/* The endpoint of a number. counts: TRAZZ_OUTPUT, TRAZZ_DFF or TRAZZ_RAM; its place in its table. Refusals 1, 2
 * (counts), 15. */
uint32_t trazz_endpoint(
    uint32_t pins, uint32_t output_count, uint32_t dff_count, uint32_t ram_count,
    uint32_t endpoint,
    uint32_t *counts, size_t counts_length);

/* What stands at a place of a stage. counts: as above, or TRAZZ_HANDED and the pin. Refusals 1, 2 (counts), 15. */
uint32_t trazz_staged_endpoint(
    uint32_t pins, uint32_t output_count, uint32_t dff_count, uint32_t ram_count,
    const uint32_t *handed, size_t handed_length,
    const uint32_t *taken, size_t taken_length,
    uint32_t place,
    uint32_t *counts, size_t counts_length);

/* Input number `input`, from 0, of an endpoint: counts: the pin. Refusals 1, 2, and 15 where there is no such endpoint
 * or input. The drivers are not looked at, so 12 does not occur. */
uint32_t trazz_input(
    uint32_t pins, uint32_t output_count, uint32_t dff_count, uint32_t ram_count,
    const uint32_t *outputs, size_t outputs_length,
    const uint32_t *dffs, size_t dffs_length,
    const uint32_t *rams, size_t rams_length,
    uint32_t endpoint, uint32_t input,
    uint32_t *counts, size_t counts_length);

/* The same of what stands at a place of a stage; a handed-on pin other than 0 reads itself. */
uint32_t trazz_staged_input(
    uint32_t pins, uint32_t output_count, uint32_t dff_count, uint32_t ram_count,
    const uint32_t *outputs, size_t outputs_length,
    const uint32_t *dffs, size_t dffs_length,
    const uint32_t *rams, size_t rams_length,
    const uint32_t *handed, size_t handed_length,
    const uint32_t *taken, size_t taken_length,
    uint32_t place, uint32_t input,
    uint32_t *counts, size_t counts_length);

/* The whole graph as one stage: it takes every endpoint upward and hands nothing on. The length of `taken` is its
 * room. counts: 0; the number of endpoints. Refusals 1, 2 (counts), 11. */
uint32_t trazz_full(
    uint32_t pins, uint32_t output_count, uint32_t dff_count, uint32_t ram_count,
    uint32_t *taken, size_t taken_length,
    uint32_t *counts, size_t counts_length);

/* A part of the stage `handed`, `taken`: what stands at the places `subset`, order kept and repeats allowed, all
 * handed-on pins before all endpoints. The lengths of `handed_out` and `taken_out` are their rooms. counts: how many
 * pins; how many endpoints. Refusals 1, 2 (counts), 15, 11. */
uint32_t trazz_subset(
    const uint32_t *handed, size_t handed_length,
    const uint32_t *taken, size_t taken_length,
    const uint32_t *subset, size_t subset_length,
    uint32_t *handed_out, size_t handed_out_length,
    uint32_t *taken_out, size_t taken_out_length,
    uint32_t *counts, size_t counts_length);

/* One split: the stage of height `level`, where the endpoints `chosen`, a set, are left, and the pins `before`, a set,
 * were handed on before. The lengths of `handed` and `taken` are their rooms; pins and chosen_length words are enough.
 * counts: how many pins; how many endpoints. Refusals 1, 2, 12, 15, 14, 11. */
uint32_t trazz_split(
    uint32_t pins, uint32_t output_count, uint32_t dff_count, uint32_t ram_count,
    const uint32_t *drivers, size_t drivers_length,
    const uint32_t *outputs, size_t outputs_length,
    const uint32_t *dffs, size_t dffs_length,
    const uint32_t *rams, size_t rams_length,
    const uint32_t *chosen, size_t chosen_length,
    const uint32_t *before, size_t before_length,
    uint32_t level,
    uint32_t *handed, size_t handed_length,
    uint32_t *taken, size_t taken_length,
    uint32_t *counts, size_t counts_length,
    uint32_t *work, size_t work_length);

/* All stages of the graph, split at the levels `splits`, which strictly increase: from 0 to the first level, from there
 * to the next, and from the last on without an upper end. A stage's height is its upper end less its lower; one that
 * hands nothing on is the last, whatever levels follow, and has no upper end. `rows` has 4 * room words, and
 * splits_length + 1 is enough for room, at most 65; a row is a stage's lower end, its upper end (TRAZZ_END of the
 * last), how many pins it hands on and how many endpoints it takes. `handed` has these pins and `taken` these
 * endpoints, one stage after the other; their lengths are their rooms, and pins and all endpoints are enough. What was
 * handed on before a stage is the part of `handed` before its own. counts: how many stages; how many pins; how many
 * endpoints. Refusals 1, 2, 12, 13, 14, 11. */
uint32_t trazz_stages(
    uint32_t pins, uint32_t output_count, uint32_t dff_count, uint32_t ram_count,
    const uint32_t *drivers, size_t drivers_length,
    const uint32_t *outputs, size_t outputs_length,
    const uint32_t *dffs, size_t dffs_length,
    const uint32_t *rams, size_t rams_length,
    const uint32_t *splits, size_t splits_length,
    uint32_t room,
    uint32_t *rows, size_t rows_length,
    uint32_t *handed, size_t handed_length,
    uint32_t *taken, size_t taken_length,
    uint32_t *counts, size_t counts_length,
    uint32_t *work, size_t work_length);

#ifdef __cplusplus
}
#endif

#endif
