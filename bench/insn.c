/* A plugin for QEMU's user-mode emulators (plugin interface, version 1): it counts the instructions that the
   emulated program executes.

   Arguments: symbols=N also lists the N symbols of the program whose own code executes the most.
   At the end it writes "total COUNT", and "COUNT NAME" for each symbol listed.

   QEMU's header is in no Debian package, so the part of the interface that is used is declared here. */
#include <stdint.h>
#include <stdio.h>
#include <stdlib.h>
#include <string.h>

typedef uint64_t plugin_id;
struct qemu_plugin_tb;
struct qemu_plugin_insn;
enum { ADD_U64 };

extern void qemu_plugin_register_vcpu_tb_trans_cb(plugin_id, void (*)(plugin_id, struct qemu_plugin_tb *));
extern void qemu_plugin_register_atexit_cb(plugin_id, void (*)(plugin_id, void *), void *);
extern void qemu_plugin_register_vcpu_insn_exec_inline(struct qemu_plugin_insn *, int, void *, uint64_t);
extern size_t qemu_plugin_tb_n_insns(const struct qemu_plugin_tb *);
extern struct qemu_plugin_insn *qemu_plugin_tb_get_insn(const struct qemu_plugin_tb *, size_t);
extern const char *qemu_plugin_insn_symbol(const struct qemu_plugin_insn *);
extern void qemu_plugin_outs(const char *);

#define EXPORTED __attribute__((visibility("default")))
EXPORTED int qemu_plugin_version = 1;

/* The counter of a symbol; it never moves, since translated code adds to it. */
struct counter {
    uint64_t count;
    char *name;
    struct counter *next;
};

static uint64_t total;
static struct counter *counters;
static int listed;

static struct counter *counter_of(const char *name)
{
    struct counter *c = counters;
    while (c && strcmp(c->name, name) != 0)
        c = c->next;
    if (!c) {
        c = calloc(1, sizeof *c);
        c->name = strdup(name);
        c->next = counters;
        counters = c;
    }
    return c;
}

static void translated(plugin_id id, struct qemu_plugin_tb *block)
{
    (void)id;
    for (size_t i = 0; i < qemu_plugin_tb_n_insns(block); i++) {
        struct qemu_plugin_insn *insn = qemu_plugin_tb_get_insn(block, i);
        qemu_plugin_register_vcpu_insn_exec_inline(insn, ADD_U64, &total, 1);
        if (listed) {
            const char *name = qemu_plugin_insn_symbol(insn);
            qemu_plugin_register_vcpu_insn_exec_inline(insn, ADD_U64, &counter_of(name ? name : "?")->count, 1);
        }
    }
}

static void at_exit(plugin_id id, void *data)
{
    (void)id, (void)data;
    char line[300];
    snprintf(line, sizeof line, "total %llu\n", (unsigned long long)total);
    qemu_plugin_outs(line);
    for (int i = 0; i < listed; i++) {
        struct counter *most = NULL;
        for (struct counter *c = counters; c; c = c->next)
            if (c->count && (!most || c->count > most->count))
                most = c;
        if (!most)
            break;
        snprintf(line, sizeof line, "%llu %.200s\n", (unsigned long long)most->count, most->name);
        qemu_plugin_outs(line);
        most->count = 0;
    }
}

EXPORTED int qemu_plugin_install(plugin_id id, const void *info, int argc, char **argv)
{
    (void)info;
    for (int i = 0; i < argc; i++)
        if (strncmp(argv[i], "symbols=", 8) == 0)
            listed = atoi(argv[i] + 8);
    qemu_plugin_register_vcpu_tb_trans_cb(id, translated);
    qemu_plugin_register_atexit_cb(id, at_exit, NULL);
    return 0;
}
