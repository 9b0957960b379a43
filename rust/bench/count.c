/* A plugin for Debian's qemu-x86_64: prints the number of instructions that a program ran. The calls are declared here because
 * Debian has no header for them. */
#include <inttypes.h>
#include <stdio.h>

__attribute__((visibility("default"))) int qemu_plugin_version = 1;

void qemu_plugin_register_vcpu_tb_trans_cb(uint64_t id, void (*translated)(uint64_t id, void *block));
size_t qemu_plugin_tb_n_insns(const void *block);
void *qemu_plugin_tb_get_insn(const void *block, size_t number);
void qemu_plugin_register_vcpu_insn_exec_inline(void *instruction, int add, void *counter, uint64_t by);
void qemu_plugin_register_atexit_cb(uint64_t id, void (*ended)(uint64_t id, void *data), void *data);

static uint64_t instructions;

/* Each time an instruction runs, it is added. Adding a block's number of instructions at once would count one that straddles two
 * pages of code twice, as the last of its block and the first of the next. */
static void translated(uint64_t id, void *block)
{
    for (size_t number = 0; number < qemu_plugin_tb_n_insns(block); number++) {
        qemu_plugin_register_vcpu_insn_exec_inline(qemu_plugin_tb_get_insn(block, number), 0, &instructions, 1);
    }
}

static void ended(uint64_t id, void *data)
{
    fprintf(stderr, "%" PRIu64 "\n", instructions);
}

__attribute__((visibility("default"))) int qemu_plugin_install(uint64_t id, const void *info, int argc, char **argv)
{
    qemu_plugin_register_vcpu_tb_trans_cb(id, translated);
    qemu_plugin_register_atexit_cb(id, ended, NULL);
    return 0;
}
