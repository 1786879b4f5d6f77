/*
 * A plugin for qemu-x86_64: counts the emulated instructions, or their loads and stores, between the two calls of a program's function
 * `counted_border`, and prints their number when the program ends. Its arguments are that function's address and what is counted:
 * -plugin file=counter.so,border=0x401234,what=instructions or what=accesses
 *
 * The program has one thread and is linked statically, so an address is the same in its file and when it runs.
 */
#include <inttypes.h>
#include <stddef.h>
#include <stdio.h>
#include <stdlib.h>
#include <string.h>

/* What is used of qemu-plugin.h, API version 1, which Debian doesn't package. */
typedef uint64_t qemu_plugin_id_t;
struct qemu_plugin_tb;
struct qemu_plugin_insn;
enum qemu_plugin_cb_flags { QEMU_PLUGIN_CB_NO_REGS };
enum qemu_plugin_op { QEMU_PLUGIN_INLINE_ADD_U64 };
enum qemu_plugin_mem_rw { QEMU_PLUGIN_MEM_R = 1, QEMU_PLUGIN_MEM_W, QEMU_PLUGIN_MEM_RW };
void qemu_plugin_register_vcpu_tb_trans_cb(qemu_plugin_id_t id, void (*translated)(qemu_plugin_id_t id, struct qemu_plugin_tb *block));
void qemu_plugin_register_vcpu_tb_exec_cb(struct qemu_plugin_tb *block, void (*executed)(unsigned vcpu, void *user),
                                          enum qemu_plugin_cb_flags flags, void *user);
void qemu_plugin_register_vcpu_insn_exec_inline(struct qemu_plugin_insn *instruction, enum qemu_plugin_op op, void *number, uint64_t operand);
void qemu_plugin_register_vcpu_mem_inline(struct qemu_plugin_insn *instruction, enum qemu_plugin_mem_rw rw, enum qemu_plugin_op op, void *number,
                                          uint64_t operand);
void qemu_plugin_register_atexit_cb(qemu_plugin_id_t id, void (*ended)(qemu_plugin_id_t id, void *user), void *user);
size_t qemu_plugin_tb_n_insns(const struct qemu_plugin_tb *block);
struct qemu_plugin_insn *qemu_plugin_tb_get_insn(const struct qemu_plugin_tb *block, size_t index);
uint64_t qemu_plugin_tb_vaddr(const struct qemu_plugin_tb *block);

/* What qemu looks for in a plugin. */
extern int qemu_plugin_version;
int qemu_plugin_version = 1;
int qemu_plugin_install(qemu_plugin_id_t id, const void *info, int argc, char **argv);

static uint64_t border;
static int counts_accesses;
static uint64_t counted_so_far;
static uint64_t counted_at[2];
static unsigned borders_met;

static void border_met(unsigned vcpu, void *user)
{
    (void)vcpu, (void)user;
    if (borders_met < 2) counted_at[borders_met] = counted_so_far;
    borders_met++;
}

/*
 * A function that is called starts a block. Instructions are counted one by one: the number that a block says it has may be one too many, since qemu 7.2
 * counts in an instruction that it puts off to the next block because it crosses a page.
 */
static void block_translated(qemu_plugin_id_t id, struct qemu_plugin_tb *block)
{
    (void)id;
    if (qemu_plugin_tb_vaddr(block) == border) qemu_plugin_register_vcpu_tb_exec_cb(block, border_met, QEMU_PLUGIN_CB_NO_REGS, NULL);
    for (size_t i = 0; i < qemu_plugin_tb_n_insns(block); i++) {
        struct qemu_plugin_insn *instruction = qemu_plugin_tb_get_insn(block, i);
        if (counts_accesses) qemu_plugin_register_vcpu_mem_inline(instruction, QEMU_PLUGIN_MEM_RW, QEMU_PLUGIN_INLINE_ADD_U64, &counted_so_far, 1);
        else qemu_plugin_register_vcpu_insn_exec_inline(instruction, QEMU_PLUGIN_INLINE_ADD_U64, &counted_so_far, 1);
    }
}

static void program_ended(qemu_plugin_id_t id, void *user)
{
    (void)id, (void)user;
    if (borders_met == 2) printf("%" PRIu64 "\n", counted_at[1] - counted_at[0]);
    else fprintf(stderr, "counter: the border was met %u times, not twice\n", borders_met);
    fflush(stdout);
}

int qemu_plugin_install(qemu_plugin_id_t id, const void *info, int argc, char **argv)
{
    (void)info;
    if (argc != 2 || strncmp(argv[0], "border=", 7) != 0 || strncmp(argv[1], "what=", 5) != 0) return 1;
    border = strtoull(argv[0] + 7, NULL, 0);
    counts_accesses = strcmp(argv[1] + 5, "accesses") == 0;
    if (!counts_accesses && strcmp(argv[1] + 5, "instructions") != 0) return 1;
    qemu_plugin_register_vcpu_tb_trans_cb(id, block_translated);
    qemu_plugin_register_atexit_cb(id, program_ended, NULL);
    return 0;
}
