/*
 * A plugin of qemu that counts what the hart executes: the instructions in the cache, which are the fetches of swic's
 * counts, those of the runtime, and of both each service by its kind.
 *
 * Arguments: cache=ADDRESS, cache_end=ADDRESS, runtime=ADDRESS, runtime_end=ADDRESS, fast=ADDRESS, fast_end=ADDRESS (a
 * load of the runtime from beside this memory is one from slow memory), out=FILE, and the watched addresses by their
 * names.
 */
#include <inttypes.h>
#include <stdbool.h>
#include <stddef.h>
#include <stdint.h>
#include <stdio.h>
#include <stdlib.h>
#include <string.h>

/* The part of qemu-plugin.h, version 1, that is used here: Debian 12 has no package with this header. */
#define EXPORT __attribute__((visibility("default")))
typedef uint64_t qemu_plugin_id_t;
typedef uint32_t qemu_plugin_meminfo_t;
struct qemu_info_t;
struct qemu_plugin_tb;
struct qemu_plugin_insn;
enum { QEMU_PLUGIN_CB_NO_REGS = 0, QEMU_PLUGIN_MEM_RW = 3, QEMU_PLUGIN_INLINE_ADD_U64 = 0 };
typedef void (*translated_callback)(qemu_plugin_id_t, struct qemu_plugin_tb *);
typedef void (*executed_callback)(unsigned int, void *);
typedef void (*memory_callback)(unsigned int, qemu_plugin_meminfo_t, uint64_t, void *);
typedef void (*exit_callback)(qemu_plugin_id_t, void *);
extern void qemu_plugin_register_vcpu_tb_trans_cb(qemu_plugin_id_t, translated_callback);
extern void qemu_plugin_register_atexit_cb(qemu_plugin_id_t, exit_callback, void *);
extern size_t qemu_plugin_tb_n_insns(const struct qemu_plugin_tb *);
extern struct qemu_plugin_insn *qemu_plugin_tb_get_insn(const struct qemu_plugin_tb *, size_t);
extern uint64_t qemu_plugin_insn_vaddr(const struct qemu_plugin_insn *);
extern void qemu_plugin_register_vcpu_insn_exec_cb(struct qemu_plugin_insn *, executed_callback, int, void *);
extern void qemu_plugin_register_vcpu_insn_exec_inline(struct qemu_plugin_insn *, int, void *, uint64_t);
extern bool qemu_plugin_mem_is_store(qemu_plugin_meminfo_t);
extern void qemu_plugin_register_vcpu_mem_cb(struct qemu_plugin_insn *, memory_callback, int, int, void *);
EXPORT extern int qemu_plugin_version;
EXPORT int qemu_plugin_version = 1;
EXPORT int qemu_plugin_install(qemu_plugin_id_t, const struct qemu_info_t *, int, char **);

/* The places in the runtime that are watched. The first two are where an interrupt is taken, also within a service; those from
 * RETURN_EXIT on tell what a service does. MISS to UNDO are counters, which change where it does so. */
enum watched {
    TRAP_INTERRUPT,
    MACHINE_DIRECT,
    TRAP_VECTOR,
    TRAP_RETURN,
    TRAP_RETURN_SHORT,
    TRAP_RETURN_FIND,
    RETURN_EXIT,
    MISS,
    EVICT,
    LINK,
    UNDO,
    CALL,
    BOARD_WORD,
    DELIVER,
    WATCHED
};
static const char *const watched_names[WATCHED] = {
    "trap_interrupt", "machine_direct", "trap_vector", "trap_return", "trap_return_short",
    "trap_return_find", "return_exit",  "miss",        "evict",       "link",
    "undo",           "call",           "board_word",  "machine_deliver"};
static uint64_t watched_at[WATCHED];

enum bound { CACHE, CACHE_END, RUNTIME, RUNTIME_END, FAST, FAST_END, BOUNDS };
static const char *const bound_names[BOUNDS] = {"cache", "cache_end", "runtime", "runtime_end", "fast", "fast_end"};
static uint64_t bounds[BOUNDS];

static char out_name[4096] = "count.txt";

static uint64_t in_cache, in_runtime, elsewhere, slow_loads;

/* Services by kind: a kind is the set of what they did, a bit for each place from RETURN_EXIT on. */
#define KINDS (1u << (WATCHED - RETURN_EXIT))
static struct {
    uint64_t count, instructions, least, most, slow_loads;
} kinds[KINDS];
static bool has_started;
static unsigned int kind;
static uint64_t begun_at, begun_slow;

static void begin_service(void)
{
    begun_at = in_runtime - 1;
    begun_slow = slow_loads;
    kind = 0;
}

/* The first return leads into the program: it ends the start, and no service. */
static void end_service(void)
{
    uint64_t took = in_runtime - begun_at;
    if (has_started) {
        if (!kinds[kind].count || took < kinds[kind].least)
            kinds[kind].least = took;
        if (took > kinds[kind].most)
            kinds[kind].most = took;
        kinds[kind].count++;
        kinds[kind].instructions += took;
        kinds[kind].slow_loads += slow_loads - begun_slow;
    }
    has_started = true;
}

/* From one interrupt to the next: how many there are, in how many of them more than half of the instructions are the
 * runtime's, and the most instructions of one, in all and of the runtime. */
static struct {
    uint64_t count, starved, most, most_of_runtime;
} intervals;
static bool was_interrupted;
static uint64_t interrupted_at, interrupted_runtime;

static void end_interval(void)
{
    uint64_t now = in_cache + in_runtime + elsewhere;
    uint64_t all = now - interrupted_at, of_runtime = in_runtime - interrupted_runtime;
    if (was_interrupted) {
        intervals.count++;
        intervals.starved += of_runtime > all / 2;
        if (all > intervals.most)
            intervals.most = all;
        if (of_runtime > intervals.most_of_runtime)
            intervals.most_of_runtime = of_runtime;
    }
    was_interrupted = true;
    interrupted_at = now;
    interrupted_runtime = in_runtime;
}

static void passed(unsigned int hart, void *which)
{
    enum watched at = (enum watched)(intptr_t)which;
    (void)hart;
    if (at < TRAP_VECTOR)
        end_interval();
    else if (at == TRAP_VECTOR)
        begin_service();
    else if (at < RETURN_EXIT)
        end_service();
    else
        kind |= 1u << (at - RETURN_EXIT);
}

static void touched(unsigned int hart, qemu_plugin_meminfo_t info, uint64_t address, void *data)
{
    (void)hart, (void)data;
    if (qemu_plugin_mem_is_store(info)) {
        for (unsigned int k = MISS; k <= UNDO; k++)
            if (watched_at[k] == address)
                kind |= 1u << (k - RETURN_EXIT);
    } else if (address < bounds[FAST] || address >= bounds[FAST_END]) {
        slow_loads++;
    }
}

static uint64_t *counter_of(uint64_t address)
{
    if (address >= bounds[CACHE] && address < bounds[CACHE_END])
        return &in_cache;
    return address >= bounds[RUNTIME] && address < bounds[RUNTIME_END] ? &in_runtime : &elsewhere;
}

static void watch(struct qemu_plugin_insn *instruction)
{
    uint64_t address = qemu_plugin_insn_vaddr(instruction);
    uint64_t *counter = counter_of(address);
    qemu_plugin_register_vcpu_insn_exec_inline(instruction, QEMU_PLUGIN_INLINE_ADD_U64, counter, 1);
    if (counter == &in_runtime && bounds[FAST_END])
        qemu_plugin_register_vcpu_mem_cb(instruction, touched, QEMU_PLUGIN_CB_NO_REGS, QEMU_PLUGIN_MEM_RW, NULL);
    for (intptr_t k = 0; k < WATCHED; k++)
        if (watched_at[k] == address)
            qemu_plugin_register_vcpu_insn_exec_cb(instruction, passed, QEMU_PLUGIN_CB_NO_REGS, (void *)k);
}

static void translated(qemu_plugin_id_t id, struct qemu_plugin_tb *block)
{
    (void)id;
    for (size_t k = 0; k < qemu_plugin_tb_n_insns(block); k++)
        watch(qemu_plugin_tb_get_insn(block, k));
}

static void write_kind(FILE *out, unsigned int which)
{
    fprintf(out, "kind %s", which ? "" : "placed");
    for (unsigned int k = RETURN_EXIT; k < WATCHED; k++)
        if (which & 1u << (k - RETURN_EXIT))
            fprintf(out, "%s%s", which & ((1u << (k - RETURN_EXIT)) - 1) ? "+" : "", watched_names[k]);
    fprintf(out, " %" PRIu64 " instructions %" PRIu64 " least %" PRIu64 " most %" PRIu64 " slow %" PRIu64 "\n",
            kinds[which].count, kinds[which].instructions, kinds[which].least, kinds[which].most,
            kinds[which].slow_loads);
}

static void write_counts(qemu_plugin_id_t id, void *data)
{
    (void)id, (void)data;
    FILE *out = fopen(out_name, "w");
    if (!out) {
        perror(out_name);
        return;
    }
    fprintf(out, "fetches %" PRIu64 "\nruntime %" PRIu64 "\nelsewhere %" PRIu64 "\nslow %" PRIu64 "\n", in_cache,
            in_runtime, elsewhere, slow_loads);
    fprintf(out, "intervals %" PRIu64 "\nstarved %" PRIu64 "\ninterval %" PRIu64 "\ninterval_runtime %" PRIu64 "\n",
            intervals.count, intervals.starved, intervals.most, intervals.most_of_runtime);
    for (unsigned int which = 0; which < KINDS; which++)
        if (kinds[which].count)
            write_kind(out, which);
    fclose(out);
}

static bool take(const char *const *names, uint64_t *values, int count, const char *name, const char *value)
{
    for (int k = 0; k < count; k++)
        if (strcmp(names[k], name) == 0) {
            values[k] = strtoull(value, NULL, 0);
            return true;
        }
    return false;
}

int qemu_plugin_install(qemu_plugin_id_t id, const struct qemu_info_t *info, int argc, char **argv)
{
    (void)info;
    for (int k = 0; k < argc; k++) {
        char *value = strchr(argv[k], '=');
        if (!value)
            return -1;
        *value++ = 0;
        if (strcmp(argv[k], "out") == 0)
            snprintf(out_name, sizeof out_name, "%s", value);
        else if (!take(bound_names, bounds, BOUNDS, argv[k], value) &&
                 !take(watched_names, watched_at, WATCHED, argv[k], value))
            return -1;
    }
    qemu_plugin_register_vcpu_tb_trans_cb(id, translated);
    qemu_plugin_register_atexit_cb(id, write_counts, NULL);
    return 0;
}
