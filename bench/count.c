/* A plugin of qemu-x86_64 that counts the instructions a program executes, and writes the sum when it ends:
 * qemu-x86_64 -cpu qemu64 -plugin file=count.so PROGRAM. With the argument blocks=FILE it writes to that file, for each translated block, its
 * address, its instructions and how often it was executed. Rests on qemu's plugin interface, of which API is the version; what is
 * used of it is declared here, since not every package brings the header. */
#include <inttypes.h>
#include <stdio.h>
#include <stdlib.h>
#include <string.h>

typedef uint64_t plugin_id;
struct qemu_plugin_tb;
void qemu_plugin_register_vcpu_tb_trans_cb(plugin_id, void (*)(plugin_id, struct qemu_plugin_tb *));
void qemu_plugin_register_vcpu_tb_exec_cb(struct qemu_plugin_tb *, void (*)(unsigned, void *), int, void *);
void qemu_plugin_register_atexit_cb(plugin_id, void (*)(plugin_id, void *), void *);
size_t qemu_plugin_tb_n_insns(const struct qemu_plugin_tb *);
uint64_t qemu_plugin_tb_vaddr(const struct qemu_plugin_tb *);

int qemu_plugin_version = API;

/* A translated block. The same address may be translated more than once: each translation is counted for itself. */
struct block {
    struct block *before;
    uint64_t address, instructions, executed;
};

static struct block *last;
static char blocks_to[4096];

static void executed(unsigned cpu, void *block) {
    (void)cpu;
    ((struct block *)block)->executed++;
}

static void translated(plugin_id id, struct qemu_plugin_tb *tb) {
    (void)id;
    struct block *block = malloc(sizeof *block);
    if (!block) abort();
    *block = (struct block){last, qemu_plugin_tb_vaddr(tb), qemu_plugin_tb_n_insns(tb), 0};
    last = block;
    qemu_plugin_register_vcpu_tb_exec_cb(tb, executed, 0 /* no registers are looked at */, block);
}

static void ended(plugin_id id, void *none) {
    (void)id, (void)none;
    uint64_t sum = 0;
    FILE *to = *blocks_to ? fopen(blocks_to, "w") : NULL;
    for (struct block *block = last; block; block = block->before) {
        sum += block->instructions * block->executed;
        if (to) fprintf(to, "%" PRIx64 " %" PRIu64 " %" PRIu64 "\n", block->address, block->instructions, block->executed);
    }
    if (to) fclose(to);
    fprintf(stderr, "instructions: %" PRIu64 "\n", sum);
}

int qemu_plugin_install(plugin_id id, const void *info, int argc, char **argv) {
    (void)info;
    for (int i = 0; i < argc; i++)
        if (!strncmp(argv[i], "blocks=", 7)) snprintf(blocks_to, sizeof blocks_to, "%s", argv[i] + 7);
    qemu_plugin_register_vcpu_tb_trans_cb(id, translated);
    qemu_plugin_register_atexit_cb(id, ended, NULL);
    return 0;
}
