// Counts, for each call between two marks (bench/counted.h), how often control goes from block to block of the library,
// and all instructions.
//
// Argument: a file with a line for each block: its address in the program, a number above 0, its instructions. Behind a
// call the plug-in writes to the pipe that the mark names: the instructions of these blocks, all instructions (memset's
// and memcpy's too), the number of edges taken, and for each edge from * 4,096 + to and how often. From is 0 at entry.
#include <inttypes.h>
#include <stddef.h>
#include <stdint.h>
#include <stdio.h>
#include <stdlib.h>
#include <string.h>
#include <unistd.h>

typedef uint64_t id_t_;
struct tb;
struct insn;
__attribute__((visibility("default"))) int qemu_plugin_version = 1;
extern void qemu_plugin_register_vcpu_tb_trans_cb(id_t_, void (*)(id_t_, struct tb *));
extern void qemu_plugin_register_vcpu_insn_exec_inline(struct insn *, int, void *, uint64_t);
extern void qemu_plugin_register_vcpu_insn_exec_cb(struct insn *, void (*)(unsigned, void *), int, void *);
extern size_t qemu_plugin_tb_n_insns(const struct tb *);
extern struct insn *qemu_plugin_tb_get_insn(const struct tb *, size_t);
extern uint64_t qemu_plugin_insn_vaddr(const struct insn *);
extern void qemu_plugin_register_vcpu_syscall_cb(id_t_, void (*)(id_t_, unsigned, int64_t, uint64_t, uint64_t, uint64_t,
                                                                 uint64_t, uint64_t, uint64_t, uint64_t, uint64_t));

enum { MARK = 0x7a67 }; // as in counted.h
enum { BLOCKS = 4096, SPAN = 1 << 19, MOST_EDGES = 3000 }; // so many edges go into a pipe at once

static uint16_t number_of[SPAN], size_of[BLOCKS]; // the blocks by their address, less the lowest
static uint64_t low = UINT64_MAX, high, count, since, own;
static uint32_t *times; // from * BLOCKS + to
static struct {
    uint64_t own, all, edges;
    struct {
        uint32_t edge, times;
    } taken[MOST_EDGES];
} told;
static uint32_t before;
static int counting;

static void entered(unsigned cpu, void *number)
{
    (void)cpu;
    if (!counting)
        return;
    const uint32_t block = (uint32_t)(uintptr_t)number, edge = before * BLOCKS + block;
    if (times[edge]++ == 0) {
        if (told.edges == MOST_EDGES)
            abort();
        told.taken[told.edges++].edge = edge;
    }
    own += size_of[block];
    before = block;
}

static void trans(id_t_ id, struct tb *t)
{
    (void)id;
    for (size_t k = 0; k < qemu_plugin_tb_n_insns(t); k++) {
        struct insn *i = qemu_plugin_tb_get_insn(t, k);
        const uint64_t address = qemu_plugin_insn_vaddr(i);
        qemu_plugin_register_vcpu_insn_exec_inline(i, 0, &count, 1);
        if (address >= low && address <= high && number_of[address - low])
            qemu_plugin_register_vcpu_insn_exec_cb(i, entered, 0, (void *)(uintptr_t)number_of[address - low]);
    }
}

static void end_count(int pipe)
{
    told.own = own;
    told.all = count - since;
    for (size_t k = 0; k < told.edges; k++) {
        told.taken[k].times = times[told.taken[k].edge];
        times[told.taken[k].edge] = 0;
    }
    const size_t bytes = offsetof(__typeof__(told), taken) + told.edges * sizeof told.taken[0];
    if (pipe > 0 && write(pipe, &told, bytes) != (ssize_t)bytes)
        abort();
}

static void mark(id_t_ id, unsigned cpu, int64_t number, uint64_t begins, uint64_t pipe, uint64_t c, uint64_t d,
                 uint64_t e, uint64_t f, uint64_t g, uint64_t h)
{
    (void)id, (void)cpu, (void)c, (void)d, (void)e, (void)f, (void)g, (void)h;
    if (number != MARK)
        return;
    counting = begins != 0;
    if (!begins) {
        end_count((int)pipe);
        return;
    }
    since = count;
    before = 0;
    own = told.edges = 0;
}

// The blocks, in two passes: what they span, then their numbers.
static int read_blocks(const char *name)
{
    for (int pass = 0; pass < 2; pass++) {
        FILE *file = fopen(name, "r");
        uint64_t address;
        unsigned number, size;
        if (!file)
            return 0;
        while (fscanf(file, "%" SCNx64 " %u %u", &address, &number, &size) == 3) {
            if (number == 0 || number >= BLOCKS)
                return 0;
            low = address < low ? address : low;
            high = address > high ? address : high;
            if (pass)
                number_of[address - low] = (uint16_t)number, size_of[number] = (uint16_t)size;
        }
        fclose(file);
        if (high - low >= SPAN)
            return 0;
    }
    return 1;
}

__attribute__((visibility("default"))) int qemu_plugin_install(id_t_ id, const void *info, int argc, char **argv)
{
    (void)info;
    times = calloc((size_t)BLOCKS * BLOCKS, sizeof *times);
    if (argc < 1 || !times || !read_blocks(strchr(argv[0], '=') ? strchr(argv[0], '=') + 1 : argv[0])) {
        fprintf(stderr, "edges: no blocks, or too many\n");
        return 1;
    }
    qemu_plugin_register_vcpu_tb_trans_cb(id, trans);
    qemu_plugin_register_vcpu_syscall_cb(id, mark);
    return 0;
}
