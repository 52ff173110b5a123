/*
 * A plugin for qemu's user mode: counts the instructions that the emulated program executes and prints the
 * number as the last line of standard error. Debian ships no header for plugins; what is used of version 1 of
 * their interface is declared here.
 */
#include <inttypes.h>
#include <stddef.h>
#include <stdint.h>
#include <stdio.h>

#define EXPORTED __attribute__((visibility("default")))

typedef uint64_t plugin_id;
typedef struct translated_block block;
enum inline_operation { ADD = 0 };

void qemu_plugin_register_vcpu_tb_trans_cb(plugin_id, void (*translated)(plugin_id, block *));
void qemu_plugin_register_vcpu_tb_exec_inline(block *, enum inline_operation, void *number, uint64_t amount);
void qemu_plugin_register_atexit_cb(plugin_id, void (*ended)(plugin_id, void *), void *);
size_t qemu_plugin_tb_n_insns(const block *);

EXPORTED int qemu_plugin_version = 1;

static uint64_t executed;

/* Each run of the block will add its length, without leaving the translated code. */
static void on_translated(plugin_id id, block *b)
{
    (void)id;
    qemu_plugin_register_vcpu_tb_exec_inline(b, ADD, &executed, qemu_plugin_tb_n_insns(b));
}

static void on_end(plugin_id id, void *nothing)
{
    (void)id, (void)nothing;
    fprintf(stderr, "%" PRIu64 "\n", executed);
}

EXPORTED int qemu_plugin_install(plugin_id id, const void *machine, int argc, char **argv)
{
    (void)machine, (void)argc, (void)argv;
    qemu_plugin_register_vcpu_tb_trans_cb(id, on_translated);
    qemu_plugin_register_atexit_cb(id, on_end, NULL);
    return 0;
}
