/*
 * An emulator plugin that counts executed instructions, one by one: a block's length is one too many where the
 * instruction after it crosses from one page of memory to the next, so a count by blocks depends on where code lies.
 * The few declarations of the plugin interface stand here, since Debian ships no header for it.
 */
#include <inttypes.h>
#include <stddef.h>
#include <stdint.h>
#include <stdio.h>

#ifndef VERSION
#define VERSION 1
#endif

struct qemu_plugin_tb;
struct qemu_plugin_insn;

typedef void translated_function(uint64_t id, struct qemu_plugin_tb *block);
typedef void executed_function(unsigned processor, void *data);
typedef void ended_function(uint64_t id, void *data);

void qemu_plugin_register_vcpu_tb_trans_cb(uint64_t id, translated_function *function);
void qemu_plugin_register_vcpu_insn_exec_cb(struct qemu_plugin_insn *instruction, executed_function *function,
                                            int flags, void *data);
void qemu_plugin_register_atexit_cb(uint64_t id, ended_function *function, void *data);
size_t qemu_plugin_tb_n_insns(const struct qemu_plugin_tb *block);
struct qemu_plugin_insn *qemu_plugin_tb_get_insn(const struct qemu_plugin_tb *block, size_t place);

extern int qemu_plugin_version;
int qemu_plugin_install(uint64_t id, const void *info, int count, char **words);

int qemu_plugin_version = VERSION;

static uint64_t instructions;

static void executed(unsigned processor, void *data)
{
    (void)processor;
    (void)data;
    instructions++;
}

static void translated(uint64_t id, struct qemu_plugin_tb *block)
{
    (void)id;
    for (size_t place = 0; place < qemu_plugin_tb_n_insns(block); place++)
        qemu_plugin_register_vcpu_insn_exec_cb(qemu_plugin_tb_get_insn(block, place), executed, 0, NULL);
}

static void ended(uint64_t id, void *data)
{
    (void)id;
    (void)data;
    fprintf(stderr, "instructions %" PRIu64 "\n", instructions);
}

int qemu_plugin_install(uint64_t id, const void *info, int count, char **words)
{
    (void)info;
    (void)count;
    (void)words;
    qemu_plugin_register_vcpu_tb_trans_cb(id, translated);
    qemu_plugin_register_atexit_cb(id, ended, NULL);
    return 0;
}
