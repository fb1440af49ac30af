/* A plugin for QEMU that writes down how many instructions lie between two marks of the program, for each
 * pair of marks. A mark is an instruction that does nothing and that no compiler makes: see MARK in bench.c.
 *
 * usage: qemu-x86_64 -plugin count.so,to=COUNTS PROGRAM ...      (COUNTS: a uint32_t for each pair)
 *
 * The few lines of QEMU's plugin interface, version 1, that are used stand here; Debian's qemu-user brings
 * no header for it. */
#include <stdint.h>
#include <stdio.h>
#include <string.h>

typedef uint64_t plugin_id;
typedef struct tb tb;
typedef struct insn insn;
enum { NO_REGISTERS = 0, ADD_U64 = 0 };

void qemu_plugin_register_vcpu_tb_trans_cb(plugin_id id, void (*translated)(plugin_id, tb *));
void qemu_plugin_register_vcpu_insn_exec_inline(insn *at, int operation, void *to, uint64_t number);
void qemu_plugin_register_vcpu_insn_exec_cb(insn *at, void (*executed)(unsigned, void *), int flags, void *data);
void qemu_plugin_register_atexit_cb(plugin_id id, void (*ended)(plugin_id, void *), void *data);
size_t qemu_plugin_tb_n_insns(const tb *block);
insn *qemu_plugin_tb_get_insn(const tb *block, size_t number);
const void *qemu_plugin_insn_data(const insn *at);
size_t qemu_plugin_insn_size(const insn *at);

__attribute__((visibility("default"))) int qemu_plugin_version = 1;

static const uint8_t mark[8] = { 0x0F, 0x1F, 0x84, 0x20, 'M', 'A', 'R', 'K' }; /* nopl 'MARK'(%rax,%riz) */
static uint64_t executed, before;
static int inside;
static FILE *counts;

static void marked(unsigned cpu, void *data)
{
    (void)cpu, (void)data;
    const uint32_t between = (uint32_t)(executed - before - 1);
    if (inside)
        fwrite(&between, sizeof between, 1, counts);
    inside = !inside;
    before = executed;
}

static void translated(plugin_id id, tb *block)
{
    (void)id;
    for (size_t i = 0; i < qemu_plugin_tb_n_insns(block); i++) {
        insn *at = qemu_plugin_tb_get_insn(block, i);
        if (qemu_plugin_insn_size(at) == sizeof mark && memcmp(qemu_plugin_insn_data(at), mark, sizeof mark) == 0)
            qemu_plugin_register_vcpu_insn_exec_cb(at, marked, NO_REGISTERS, NULL);
        qemu_plugin_register_vcpu_insn_exec_inline(at, ADD_U64, &executed, 1);
    }
}

static void ended(plugin_id id, void *data)
{
    (void)id, (void)data;
    fclose(counts);
}

__attribute__((visibility("default")))
int qemu_plugin_install(plugin_id id, const void *info, int argc, char **argv)
{
    (void)info;
    if (argc != 1 || strncmp(argv[0], "to=", 3) != 0 || (counts = fopen(argv[0] + 3, "wb")) == NULL)
        return 1;
    qemu_plugin_register_vcpu_tb_trans_cb(id, translated);
    qemu_plugin_register_atexit_cb(id, ended, NULL);
    return 0;
}
