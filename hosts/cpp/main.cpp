// A register behind two gates and a clock gate: its graph, and its stages split at level 1.
#include "trazzughes.h"

#include <cstdio>
#include <vector>

using Words = std::vector<uint32_t>;

// Kinds of cells and names of pins, as the header numbers them.
enum Kind : uint32_t { Top = 0, And2 = 1, Dff = 8, ClockGate = 10 };
enum Name : uint32_t { Port = 0, A = 1, B = 2, Out = 3, D = 4, Clk = 5, Cp = 8, E = 9 };

struct Pin {
    Name name;
    bool out;
    uint32_t net;
};

// A table is lent as its pointer, which is never NULL, and its length.
static const uint32_t *read(const Words &table) {
    static const uint32_t none = 0;
    return table.empty() ? &none : table.data();
}

static uint32_t *lend(Words &table) {
    static uint32_t none;
    return table.empty() ? &none : table.data();
}

struct Netlist {
    Words kinds, starts{0}, list, pins, nets;

    explicit Netlist(uint32_t net_count) : nets(net_count) {}

    // Cells are added one after the other, so pin p stands at place p of the lists. An out pin drives its net.
    void add(Kind kind, std::initializer_list<Pin> added) {
        uint32_t cell = kinds.size();
        for (const Pin &pin : added) {
            uint32_t number = list.size();
            list.push_back(number);
            pins.insert(pins.end(), {cell, pin.name, 0, pin.out, pin.net});
            if (pin.out)
                nets[pin.net] = 2 + number;
        }
        kinds.push_back(kind);
        starts.push_back(list.size());
    }
};

struct Graph {
    uint32_t pins, gates, outputs, dffs, rams;
    Words driver_words, output_words, dff_words, ram_words, literals;
};

// Room for `room` of each sort of entry; after a success the tables are cut to what is used.
static uint32_t build(const Netlist &n, uint32_t room, Graph &g) {
    uint32_t pin_count = n.list.size();
    Words starts(room + 2), fanouts(room), counts(5), work(8 * pin_count + 8 * room + 1024);
    g.driver_words.resize(3 * (room + 1));
    g.output_words.resize(room);
    g.dff_words.resize(3 * room);
    g.ram_words.resize(123 * room);
    g.literals.resize(pin_count);
    uint32_t refusal = trazz_build(
        n.kinds.size(), pin_count, n.nets.size(), room, room, room, room, room,
        read(n.kinds), n.kinds.size(), read(n.starts), n.starts.size(), read(n.list), n.list.size(),
        read(n.pins), n.pins.size(), read(n.nets), n.nets.size(),
        lend(g.driver_words), g.driver_words.size(), lend(g.output_words), g.output_words.size(),
        lend(g.dff_words), g.dff_words.size(), lend(g.ram_words), g.ram_words.size(),
        lend(g.literals), g.literals.size(), lend(starts), starts.size(), lend(fanouts), fanouts.size(),
        lend(counts), counts.size(), lend(work), work.size());
    g.pins = counts[0], g.gates = counts[1], g.outputs = counts[2], g.dffs = counts[3], g.rams = counts[4];
    g.driver_words.resize(3 * (g.pins + 1));
    g.output_words.resize(g.outputs);
    g.dff_words.resize(3 * g.dffs);
    g.ram_words.resize(123 * g.rams);
    return refusal;
}

static void print_graph(const Graph &g) {
    std::printf("pins %u gates %u outputs %u dffs %u rams %u\n", g.pins, g.gates, g.outputs, g.dffs, g.rams);
    for (uint32_t pin = 0; pin <= g.pins; pin++) {
        const uint32_t *row = &g.driver_words[3 * pin];
        std::printf("driver %u ", pin);
        switch (row[0]) {
        case 0: std::printf("constant\n"); break;
        case 1: std::printf("and %u %u\n", row[1], row[2]); break;
        case 2: std::printf("port %u\n", row[1]); break;
        case 3: std::printf("flag %u %s\n", row[1], row[2] ? "falling" : "rising"); break;
        case 4: std::printf("dff %u\n", row[1]); break;
        default: std::printf("ram %u\n", row[1]);
        }
    }
    for (uint32_t literal : g.output_words)
        std::printf("output %u\n", literal);
    for (uint32_t k = 0; k < g.dffs; k++)
        std::printf("dff next %u enable %u pin %u\n", g.dff_words[3 * k], g.dff_words[3 * k + 1], g.dff_words[3 * k + 2]);
    for (size_t pin = 0; pin < g.literals.size(); pin++)
        if (g.literals[pin] >= TRAZZ_MARKER_INVERTED)
            std::printf("literal %zu marker\n", pin);
}

static void print_stages(const Graph &g, const Words &splits) {
    uint32_t endpoints = g.outputs + g.dffs + g.rams, room = splits.size() + 1;
    Words rows(4 * room), handed(g.pins), taken(endpoints), counts(3), work(12 * g.pins + 4 * endpoints + 64);
    uint32_t refusal = trazz_stages(
        g.pins, g.outputs, g.dffs, g.rams,
        read(g.driver_words), g.driver_words.size(), read(g.output_words), g.output_words.size(),
        read(g.dff_words), g.dff_words.size(), read(g.ram_words), g.ram_words.size(),
        read(splits), splits.size(), room, lend(rows), rows.size(), lend(handed), handed.size(),
        lend(taken), taken.size(), lend(counts), counts.size(), lend(work), work.size());
    if (refusal) {
        std::printf("stages refused %u\n", refusal);
        return;
    }
    size_t h = 0, t = 0;
    for (uint32_t k = 0; k < counts[0]; k++) {
        const uint32_t *row = &rows[4 * k];
        std::printf("stage %u ", row[0]);
        row[1] == TRAZZ_END ? std::printf("end") : std::printf("%u", row[1]);
        std::printf(" hands on");
        for (uint32_t i = 0; i < row[2]; i++)
            std::printf(" %u", handed[h++]);
        std::printf(", takes");
        for (uint32_t i = 0; i < row[3]; i++)
            std::printf(" %u", taken[t++]);
        std::printf("\n");
    }
}

int main() {
    enum : uint32_t { clk, a, b, c, enable, first, second, gated, q, net_count };
    Netlist n(net_count);
    n.add(Top, {{Port, true, clk}, {Port, true, a}, {Port, true, b}, {Port, true, c}, {Port, true, enable}, {Port, false, q}});
    n.add(And2, {{A, false, a}, {B, false, b}, {Out, true, first}});
    n.add(And2, {{A, false, first}, {B, false, c}, {Out, true, second}});
    n.add(ClockGate, {{Cp, false, clk}, {E, false, enable}, {Out, true, gated}});
    n.add(Dff, {{D, false, second}, {Clk, false, gated}, {Out, true, q}});

    Graph g;
    if (uint32_t refusal = build(n, 32, g)) {
        std::printf("refused %u\n", refusal);
        return 1;
    }
    print_graph(g);
    print_stages(g, {1});

    // Equal levels would lose the register; a room that is too small says so.
    print_stages(g, {1, 1});
    Graph small;
    std::printf("build in a room of 4 refused %u\n", build(n, 4, small));
}
