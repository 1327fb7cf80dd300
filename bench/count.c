/* A plugin of qemu that counts the instructions executed and writes the number to a file:
   qemu-x86_64 -plugin ./count.so,to=FILE[,by=FILE] PROGRAM
   With `by` it also writes one line for each block of code: its address and what it executed.
   Only the few calls used here are declared, so that qemu's header is not needed. */
#include <inttypes.h>
#include <stdio.h>
#include <stdlib.h>
#include <string.h>

#ifndef PLUGIN_VERSION
#define PLUGIN_VERSION 1
#endif

struct qemu_plugin_tb;
typedef uint64_t id_type;

void qemu_plugin_register_vcpu_tb_trans_cb(id_type id, void (*made)(id_type, struct qemu_plugin_tb *));
void qemu_plugin_register_vcpu_tb_exec_cb(struct qemu_plugin_tb *tb, void (*entered)(unsigned, void *), int flags, void *data);
void qemu_plugin_register_atexit_cb(id_type id, void (*ended)(id_type, void *), void *data);
size_t qemu_plugin_tb_n_insns(const struct qemu_plugin_tb *tb);
uint64_t qemu_plugin_tb_vaddr(const struct qemu_plugin_tb *tb);

int qemu_plugin_version = PLUGIN_VERSION;

struct block {
    uint64_t address, instructions, entered;
    struct block *next;
};

static struct block *blocks;
static const char *to, *by;

static void entered(unsigned cpu, void *data)
{
    (void)cpu;
    ((struct block *)data)->entered++;
}

static void made(id_type id, struct qemu_plugin_tb *tb)
{
    struct block *b = calloc(1, sizeof *b);
    (void)id;
    if (!b)
        abort();
    b->address = qemu_plugin_tb_vaddr(tb);
    b->instructions = qemu_plugin_tb_n_insns(tb);
    b->next = blocks;
    blocks = b;
    qemu_plugin_register_vcpu_tb_exec_cb(tb, entered, 0, b);
}

static FILE *opened(const char *name)
{
    FILE *f = fopen(name, "w");
    if (!f) {
        perror(name);
        abort();
    }
    return f;
}

static void ended(id_type id, void *data)
{
    uint64_t sum = 0;
    FILE *f;
    (void)id;
    (void)data;
    for (struct block *b = blocks; b; b = b->next)
        sum += b->instructions * b->entered;
    f = opened(to);
    fprintf(f, "%" PRIu64 "\n", sum);
    fclose(f);
    if (!by)
        return;
    f = opened(by);
    for (struct block *b = blocks; b; b = b->next)
        fprintf(f, "%" PRIx64 " %" PRIu64 " %" PRIu64 "\n", b->address, b->instructions, b->entered);
    fclose(f);
}

int qemu_plugin_install(id_type id, const void *info, int argc, char **argv)
{
    (void)info;
    for (int i = 0; i < argc; i++) {
        if (!strncmp(argv[i], "to=", 3))
            to = strdup(argv[i] + 3);
        if (!strncmp(argv[i], "by=", 3))
            by = strdup(argv[i] + 3);
    }
    if (!to)
        return 1;
    qemu_plugin_register_vcpu_tb_trans_cb(id, made);
    qemu_plugin_register_atexit_cb(id, ended, NULL);
    return 0;
}
