/* A QEMU user-mode plugin that counts executed instructions, and tells the measured program how many at each pread of its.
 * The plugin header is not packaged, so the few declarations needed (plugin API version 1) stand here. */
#include <fcntl.h>
#include <stddef.h>
#include <stdint.h>
#include <stdio.h>
#include <string.h>
#include <unistd.h>

enum { INLINE_ADD = 0, PREAD_ON_X86_64 = 17 };

struct qemu_plugin_tb;
struct qemu_plugin_insn;
typedef void (*on_translation)(uint64_t id, struct qemu_plugin_tb *block);
typedef void (*on_syscall)(uint64_t id, unsigned cpu, int64_t number, uint64_t a1, uint64_t a2, uint64_t a3, uint64_t a4, uint64_t a5,
                           uint64_t a6, uint64_t a7, uint64_t a8);
extern size_t qemu_plugin_tb_n_insns(const struct qemu_plugin_tb *block);
extern void qemu_plugin_register_vcpu_tb_trans_cb(uint64_t id, on_translation call);
extern struct qemu_plugin_insn *qemu_plugin_tb_get_insn(const struct qemu_plugin_tb *block, size_t index);
extern void qemu_plugin_register_vcpu_insn_exec_inline(struct qemu_plugin_insn *instruction, int operation, void *number, uint64_t operand);
extern void qemu_plugin_register_vcpu_syscall_cb(uint64_t id, on_syscall call);

int qemu_plugin_version = 1;

static uint64_t executed;
static int counter = -1;

/* One by one: where an instruction lies across two pages, the block before it wrongly has it among its own. */
static void translated(uint64_t id, struct qemu_plugin_tb *block)
{
    (void)id;
    for (size_t i = 0; i < qemu_plugin_tb_n_insns(block); i++)
        qemu_plugin_register_vcpu_insn_exec_inline(qemu_plugin_tb_get_insn(block, i), INLINE_ADD, &executed, 1);
}

/* Comes before the call is carried out, so that it reads the number written here. */
static void called(uint64_t id, unsigned cpu, int64_t number, uint64_t a1, uint64_t a2, uint64_t a3, uint64_t a4, uint64_t a5, uint64_t a6,
                   uint64_t a7, uint64_t a8)
{
    (void)id, (void)cpu, (void)a1, (void)a2, (void)a3, (void)a4, (void)a5, (void)a6, (void)a7, (void)a8;
    if (number == PREAD_ON_X86_64 && pwrite(counter, &executed, sizeof executed, 0) != sizeof executed)
        perror("count");
}

int qemu_plugin_install(uint64_t id, const void *about, int arguments, char **argument)
{
    (void)about;
    static const char name[] = "counter=";
    if (arguments != 1 || strncmp(argument[0], name, strlen(name)) != 0)
        return 1;
    counter = open(argument[0] + strlen(name), O_WRONLY | O_CREAT | O_TRUNC, 0644);
    if (counter < 0)
        return 1;
    qemu_plugin_register_vcpu_tb_trans_cb(id, translated);
    qemu_plugin_register_vcpu_syscall_cb(id, called);
    return 0;
}
