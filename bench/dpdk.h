/* DPDK's interpreter and its compiler (librte_bpf), to be measured beside the library: where WITH_DPDK is defined, and Debian's libdpdk-dev is there.
 *
 *     cc -O2 -DWITH_DPDK $(pkg-config --cflags libdpdk) .. -lrte_bpf -lrte_eal
 *
 * It takes texts whose wide instructions have addresses already, as the C switch does, and needs no start of DPDK. A text that it
 * refuses (it knows no jump that compares 32 bits) isn't measured. When it loads a text it also compiles it for this machine. */
#ifndef DPDK_H
#define DPDK_H

#include "switch.h"

/* A text that DPDK compiled. */
typedef uint64_t (*dpdk_function)(void *);

#ifdef WITH_DPDK
#include <rte_bpf.h>
#include <rte_log.h>

static uint64_t dpdk_lookup(uint64_t map, uint64_t key, uint64_t r3, uint64_t r4, uint64_t r5)
{
    (void)r3, (void)r4, (void)r5;
    return switch_lookup((const void *)(uintptr_t)map, (const void *)(uintptr_t)key);
}

static uint64_t dpdk_update(uint64_t map, uint64_t key, uint64_t value, uint64_t flags, uint64_t r5)
{
    (void)r5;
    return switch_update((const void *)(uintptr_t)map, (const void *)(uintptr_t)key, (const void *)(uintptr_t)value, flags);
}

static uint64_t dpdk_delete(uint64_t map, uint64_t key, uint64_t r3, uint64_t r4, uint64_t r5)
{
    (void)map, (void)key, (void)r3, (void)r4, (void)r5;
    return (uint64_t)EINVAL_;
}

enum { DPDK_HELPERS = 4, DPDK_SYMBOLS = 64 };

/* Makes a helper of so many arguments known under its number. */
static void dpdk_helper(struct rte_bpf_xsym *symbol, const char *name, uint64_t (*helper)(uint64_t, uint64_t, uint64_t, uint64_t, uint64_t),
                        uint32_t arguments, enum rte_bpf_arg_type answers)
{
    *symbol = (struct rte_bpf_xsym){.name = name, .type = RTE_BPF_XTYPE_FUNC};
    symbol->func.val = helper;
    symbol->func.nb_args = arguments;
    for (uint32_t at = 0; at < arguments; at++)
        symbol->func.args[at] = (struct rte_bpf_arg){RTE_BPF_ARG_RAW, sizeof(uint64_t), 0};
    symbol->func.ret = (struct rte_bpf_arg){answers, answers == RTE_BPF_ARG_PTR ? 4096 : sizeof(uint64_t), 0};
}

/* How many bytes there are from an address to the end of the map or of its values; none where it leads to neither. */
static uint64_t bytes_from(uint64_t address, const struct map *map)
{
    uint64_t first = (uintptr_t)map->values, end = first + (uint64_t)map->stride * map->entries;
    return address == (uintptr_t)map ? sizeof *map : address >= first && address < end ? end - address : 0;
}

/* Makes an address known from which so many bytes may be used, if there are any: how many symbols there are then. */
static uint32_t dpdk_variable(struct rte_bpf_xsym *symbols, uint32_t count, uint64_t address, uint64_t bytes)
{
    for (uint32_t at = DPDK_HELPERS; at < count; at++)
        if ((uintptr_t)symbols[at].var.val == address)
            return count;
    if (bytes == 0 || count == DPDK_SYMBOLS)
        return count;
    symbols[count] = (struct rte_bpf_xsym){.name = "map", .type = RTE_BPF_XTYPE_VAR};
    symbols[count].var.val = (void *)(uintptr_t)address;
    symbols[count].var.desc = (struct rte_bpf_arg){RTE_BPF_ARG_PTR, bytes, 0};
    return count + 1;
}

/* Makes known what a text's wide instructions lead to: maps, and bytes of their values. */
static uint32_t dpdk_variables(const struct insn *text, uint32_t slots, const struct map *maps, uint32_t map_count, struct rte_bpf_xsym *symbols)
{
    uint32_t count = DPDK_HELPERS;
    for (uint32_t pc = 0; pc + 1 < slots; pc++) {
        uint64_t loaded = (uint32_t)text[pc].imm | (uint64_t)text[pc + 1].imm << 32;
        for (uint32_t map = 0; map < map_count && text[pc].opcode == WIDE; map++)
            count = dpdk_variable(symbols, count, loaded, bytes_from(loaded, &maps[map]));
        pc += text[pc].opcode == WIDE;
    }
    return count;
}

/* Loads a linked text; NULL where DPDK refuses it. */
static struct rte_bpf *dpdk_load(const struct insn *text, uint32_t slots, const struct map *maps, uint32_t map_count, uint32_t context_size)
{
    struct rte_bpf_xsym symbols[DPDK_SYMBOLS];
    rte_log_set_global_level(RTE_LOG_CRIT);
    dpdk_helper(&symbols[0], "none", dpdk_delete, 2, RTE_BPF_ARG_RAW);
    dpdk_helper(&symbols[LOOKUP], "map_lookup_elem", dpdk_lookup, 2, RTE_BPF_ARG_PTR);
    dpdk_helper(&symbols[UPDATE], "map_update_elem", dpdk_update, 4, RTE_BPF_ARG_RAW);
    dpdk_helper(&symbols[DELETE], "map_delete_elem", dpdk_delete, 2, RTE_BPF_ARG_RAW);
    struct rte_bpf_prm prm = {.ins = (const void *)text, .nb_ins = slots, .xsym = symbols};
    prm.nb_xsym = dpdk_variables(text, slots, maps, map_count, symbols);
    prm.prog_arg = (struct rte_bpf_arg){RTE_BPF_ARG_PTR, context_size, 0};
    return rte_bpf_load(&prm);
}

/* What DPDK compiled a text to when it loaded it; NULL where it didn't. */
static inline dpdk_function dpdk_compiled(const struct rte_bpf *program)
{
    struct rte_bpf_jit jit = {.func = NULL};
    return program != NULL && rte_bpf_get_jit(program, &jit) == 0 ? jit.func : NULL;
}

#else
struct rte_bpf;

static inline struct rte_bpf *dpdk_load(const struct insn *text, uint32_t slots, const struct map *maps, uint32_t map_count, uint32_t size)
{
    (void)text, (void)slots, (void)maps, (void)map_count, (void)size;
    return NULL;
}

static inline dpdk_function dpdk_compiled(const struct rte_bpf *program)
{
    (void)program;
    return NULL;
}

static inline uint64_t rte_bpf_exec(const struct rte_bpf *program, void *context)
{
    (void)program, (void)context;
    return 0;
}

static inline void rte_bpf_destroy(struct rte_bpf *program)
{
    (void)program;
}
#endif

#endif
