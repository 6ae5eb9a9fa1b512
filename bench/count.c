/*
 * A plugin of qemu-user that counts the x86-64 instructions that a program executes: the same number on every machine.
 *
 *     gcc -shared -fPIC -O2 count.c -o count.so
 *     qemu-x86_64 -cpu Nehalem -plugin ./count.so PROGRAM ..
 *
 * The count is the last line on standard error. With qemu's own processor, glibc clears memory with an instruction that counts once for
 * each byte; Nehalem's does not. The plugin's calls are declared here, so that no header of qemu is needed.
 */
#include <stddef.h>
#include <stdint.h>
#include <stdio.h>

typedef uint64_t plugin_id;
struct qemu_plugin_tb;
struct qemu_plugin_insn;
typedef void (*on_block)(plugin_id, struct qemu_plugin_tb *);
typedef void (*on_exit)(plugin_id, void *);

void qemu_plugin_register_vcpu_tb_trans_cb(plugin_id, on_block);
void qemu_plugin_register_atexit_cb(plugin_id, on_exit, void *);
size_t qemu_plugin_tb_n_insns(const struct qemu_plugin_tb *);
struct qemu_plugin_insn *qemu_plugin_tb_get_insn(const struct qemu_plugin_tb *, size_t);
void qemu_plugin_register_vcpu_insn_exec_inline(struct qemu_plugin_insn *, int add, void *counter, uint64_t step);

int qemu_plugin_version = 1;

static uint64_t executed;

/*
 * One is added where each instruction runs. (Adding a block's number of them would be faster, and wrong by one wherever an instruction lies
 * across the end of a page: qemu ends the block before it, and has counted it already. The number would depend on where the code lies.)
 */
static void translated(plugin_id id, struct qemu_plugin_tb *block)
{
    (void)id;
    for (size_t i = 0; i < qemu_plugin_tb_n_insns(block); i++)
        qemu_plugin_register_vcpu_insn_exec_inline(qemu_plugin_tb_get_insn(block, i), 0, &executed, 1);
}

static void ended(plugin_id id, void *nothing)
{
    (void)id, (void)nothing;
    fprintf(stderr, "%lu\n", (unsigned long)executed);
}

int qemu_plugin_install(plugin_id id, const void *machine, int count, char **arguments)
{
    (void)machine, (void)count, (void)arguments;
    qemu_plugin_register_vcpu_tb_trans_cb(id, translated);
    qemu_plugin_register_atexit_cb(id, ended, NULL);
    return 0;
}
