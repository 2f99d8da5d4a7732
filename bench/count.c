/* A plugin of the emulator qemu that counts the instructions a program executes and prints their number when it ends.
 *
 * Each time qemu translates a block of instructions, an addition of the block's length is put before it, less the last instruction, which
 * has an addition of its own. So the count is exact, the same each time, and nothing of the program is left out.
 *
 * The last one is apart because of qemu 7.2: an instruction that reaches from one page of memory into the next is taken out of its block
 * and becomes the next block, but is still in the first block's length. It would be counted twice, and the count would depend on where the
 * linker puts the code: the same repair of a clean tile at p 257 was seen to count 107,363 in one program and 108,253 in another. The
 * addition of an instruction's own is taken out with it.
 *
 * The few functions of qemu's plugin interface that are needed (version 1 of it, from qemu-plugin.h, which Debian does not package) are
 * declared here. */

#include <inttypes.h>
#include <stddef.h>
#include <stdint.h>
#include <stdio.h>

#define FOR_QEMU __attribute__((visibility("default")))

typedef uint64_t qemu_plugin_id_t;
struct qemu_plugin_tb;
struct qemu_plugin_insn;
struct qemu_info_t;

enum qemu_plugin_op { QEMU_PLUGIN_INLINE_ADD_U64 };

typedef void (*qemu_plugin_vcpu_tb_trans_cb_t)(qemu_plugin_id_t id, struct qemu_plugin_tb *block);
typedef void (*qemu_plugin_udata_cb_t)(qemu_plugin_id_t id, void *data);

size_t qemu_plugin_tb_n_insns(const struct qemu_plugin_tb *block);
struct qemu_plugin_insn *qemu_plugin_tb_get_insn(const struct qemu_plugin_tb *block, size_t place);
void qemu_plugin_register_vcpu_tb_trans_cb(qemu_plugin_id_t id, qemu_plugin_vcpu_tb_trans_cb_t call);
void qemu_plugin_register_vcpu_tb_exec_inline(struct qemu_plugin_tb *block, enum qemu_plugin_op op, void *number, uint64_t by);
void qemu_plugin_register_vcpu_insn_exec_inline(struct qemu_plugin_insn *one, enum qemu_plugin_op op, void *number, uint64_t by);
void qemu_plugin_register_atexit_cb(qemu_plugin_id_t id, qemu_plugin_udata_cb_t call, void *data);

FOR_QEMU int qemu_plugin_version = 1;

static uint64_t instructions;

static void count_block(qemu_plugin_id_t id, struct qemu_plugin_tb *block)
{
    size_t last = qemu_plugin_tb_n_insns(block) - 1;

    (void)id;
    qemu_plugin_register_vcpu_tb_exec_inline(block, QEMU_PLUGIN_INLINE_ADD_U64, &instructions, last);
    qemu_plugin_register_vcpu_insn_exec_inline(qemu_plugin_tb_get_insn(block, last), QEMU_PLUGIN_INLINE_ADD_U64, &instructions, 1);
}

static void print_count(qemu_plugin_id_t id, void *data)
{
    (void)id;
    (void)data;
    fprintf(stderr, "instructions %" PRIu64 "\n", instructions);
}

FOR_QEMU int qemu_plugin_install(qemu_plugin_id_t id, const struct qemu_info_t *info, int count, char **words)
{
    (void)info;
    (void)count;
    (void)words;
    qemu_plugin_register_vcpu_tb_trans_cb(id, count_block);
    qemu_plugin_register_atexit_cb(id, print_count, NULL);
    return 0;
}
