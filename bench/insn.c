// Counts the guest instructions that an emulated program executes. Those of one call are counted by bound/edges.c.
//
// It counts each instruction and not whole blocks: to a block that ends before an instruction lying across a page
// boundary, qemu 7.2 adds that instruction, which the next block counts too. A loop at such a place would seem longer.
#include <stddef.h>
#include <stdint.h>
#include <stdio.h>

typedef uint64_t id_t_;
struct tb;
struct insn;
__attribute__((visibility("default"))) int qemu_plugin_version = 1;
extern void qemu_plugin_register_vcpu_tb_trans_cb(id_t_, void (*)(id_t_, struct tb *));
extern void qemu_plugin_register_vcpu_insn_exec_inline(struct insn *, int, void *, uint64_t);
extern size_t qemu_plugin_tb_n_insns(const struct tb *);
extern struct insn *qemu_plugin_tb_get_insn(const struct tb *, size_t);
extern void qemu_plugin_register_atexit_cb(id_t_, void (*)(id_t_, void *), void *);

static uint64_t count;

static void trans(id_t_ id, struct tb *t)
{
    (void)id;
    for (size_t k = 0; k < qemu_plugin_tb_n_insns(t); k++)
        qemu_plugin_register_vcpu_insn_exec_inline(qemu_plugin_tb_get_insn(t, k), 0, &count, 1);
}

static void done(id_t_ id, void *p)
{
    (void)id, (void)p;
    fprintf(stderr, "instructions %llu\n", (unsigned long long)count);
}

__attribute__((visibility("default"))) int qemu_plugin_install(id_t_ id, const void *info, int argc, char **argv)
{
    (void)info, (void)argc, (void)argv;
    qemu_plugin_register_vcpu_tb_trans_cb(id, trans);
    qemu_plugin_register_atexit_cb(id, done, NULL);
    return 0;
}
