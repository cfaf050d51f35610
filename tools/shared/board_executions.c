/*
 * A plugin of qemu that counts how often each word of a firmware's text is executed, where it stands.
 *
 * Arguments: begin=ADDRESS and end=ADDRESS of the text, and out=FILE, which gets a line for each word that was executed:
 * its address in hexadecimal, and how often.
 */
#include <inttypes.h>
#include <stdbool.h>
#include <stddef.h>
#include <stdint.h>
#include <stdio.h>
#include <stdlib.h>
#include <string.h>

/* The part of qemu-plugin.h, version 1, that is used here: Debian 12 has no package with this header. */
#define EXPORT __attribute__((visibility("default")))
typedef uint64_t qemu_plugin_id_t;
struct qemu_info_t;
struct qemu_plugin_tb;
struct qemu_plugin_insn;
enum { QEMU_PLUGIN_INLINE_ADD_U64 = 0 };
typedef void (*translated_callback)(qemu_plugin_id_t, struct qemu_plugin_tb *);
typedef void (*exit_callback)(qemu_plugin_id_t, void *);
extern void qemu_plugin_register_vcpu_tb_trans_cb(qemu_plugin_id_t, translated_callback);
extern void qemu_plugin_register_atexit_cb(qemu_plugin_id_t, exit_callback, void *);
extern size_t qemu_plugin_tb_n_insns(const struct qemu_plugin_tb *);
extern struct qemu_plugin_insn *qemu_plugin_tb_get_insn(const struct qemu_plugin_tb *, size_t);
extern uint64_t qemu_plugin_insn_vaddr(const struct qemu_plugin_insn *);
extern void qemu_plugin_register_vcpu_insn_exec_inline(struct qemu_plugin_insn *, int, void *, uint64_t);
EXPORT extern int qemu_plugin_version;
EXPORT int qemu_plugin_version = 1;
EXPORT int qemu_plugin_install(qemu_plugin_id_t, const struct qemu_info_t *, int, char **);

enum { NAME_BYTES = 4096 };
static char out_name[NAME_BYTES];
static uint64_t begin, end;
static uint64_t *counts;

static void translated(qemu_plugin_id_t id, struct qemu_plugin_tb *block)
{
    (void)id;
    for (size_t k = 0; k < qemu_plugin_tb_n_insns(block); k++) {
        struct qemu_plugin_insn *instruction = qemu_plugin_tb_get_insn(block, k);
        uint64_t address = qemu_plugin_insn_vaddr(instruction);
        if (address >= begin && address < end)
            qemu_plugin_register_vcpu_insn_exec_inline(instruction, QEMU_PLUGIN_INLINE_ADD_U64,
                                                       &counts[(address - begin) / 4], 1);
    }
}

static void write_counts(qemu_plugin_id_t id, void *data)
{
    (void)id, (void)data;
    FILE *out = fopen(out_name, "w");
    if (!out) {
        perror(out_name);
        return;
    }
    for (uint64_t k = 0; k < (end - begin) / 4; k++)
        if (counts[k])
            fprintf(out, "%08" PRIx64 " %" PRIu64 "\n", begin + 4 * k, counts[k]);
    fclose(out);
}

static bool take(const char *name, const char *value)
{
    if (strcmp(name, "out") == 0) {
        int length = snprintf(out_name, sizeof out_name, "%s", value);
        return length > 0 && length < NAME_BYTES;
    }
    if (strcmp(name, "begin") != 0 && strcmp(name, "end") != 0)
        return false;
    *(name[0] == 'b' ? &begin : &end) = strtoull(value, NULL, 0);
    return true;
}

int qemu_plugin_install(qemu_plugin_id_t id, const struct qemu_info_t *info, int argc, char **argv)
{
    (void)info;
    for (int k = 0; k < argc; k++) {
        char *value = strchr(argv[k], '=');
        if (!value)
            return -1;
        *value++ = 0;
        if (!take(argv[k], value))
            return -1;
    }
    counts = end > begin ? calloc((size_t)(end - begin) / 4 + 1, sizeof *counts) : NULL;
    if (!counts)
        return -1;
    qemu_plugin_register_vcpu_tb_trans_cb(id, translated);
    qemu_plugin_register_atexit_cb(id, write_counts, NULL);
    return 0;
}
