/* What tests/damaged.c sees of a host, and how it compares runs: a host with two tenants, what a caller can see of them, and the runs of an
 * accepted program beside those of the C switch of bench/switch.h. A file that includes this defines _POSIX_C_SOURCE first, as 200809L, and
 * _DEFAULT_SOURCE. */
#ifndef DAMAGED_RUNS_H
#define DAMAGED_RUNS_H

#include "bpf_host.h"

/* The switch lacks some instructions, and never stops a loop that a verifier shouldn't have accepted: both are added to each of its steps. */
struct insn;
static bool is_rare(const struct insn *insn);
static int32_t rare_step(const struct insn *insn, uint64_t *r);
enum { MOST_STEPS = 4 * 4096 };
#define SWITCH_STEP(insn)           \
    if (made > MOST_STEPS) {        \
        *steps = made;              \
        return 0;                   \
    }                               \
    if (is_rare(insn)) {            \
        insn += rare_step(insn, r); \
        continue;                   \
    }
#include "../bench/corpus.h"
#include "damaged_bytes.h"

enum {
    RUNS = 6,          /* runs of an accepted program */
    FRAMES = 300,      /* the largest map has 256 pages */
    HOME = 0,          /* a tenant that uploads must not change */
    GUEST = 1,         /* the tenant whose uploads are damaged */
    TENANTS = 2,
    NUMBERS = 8,       /* maps and programs have numbers below this */
    LAST_RULE = 25,
    UNWRITTEN = 987654    /* what a number is that no call wrote: no slot, frame, map, program */
};

static struct fenced context_room;
static struct bpf_host host;
static struct bpf_host_refused refused;
static char round_words[64];

/* The program that is tried, its text where it is accepted, and the bytes before they are put to the fence. */
static struct program subject;
static struct insn subject_text[SLOTS];
static uint8_t copy[LARGEST];

/* All that a caller can see of the host: a digest of each tenant's maps and programs, and the counters. */
struct view {
    uint64_t tenants[TENANTS];
    struct bpf_host_counters counters;
};

/* Ends the test at a fault. */
static void must(bool holds, const char *what, uint64_t number)
{
    if (holds)
        return;
    printf("%s%s: %llu\n", round_words, what, (unsigned long long)number);
    exit(1);
}

/* Signed quotients and remainders, moves with a sign, swaps and far jumps are what the switch lacks. */
static bool is_rare(const struct insn *insn)
{
    uint8_t class = insn->opcode & 7;
    return insn->opcode == 0x06 || insn->opcode == 0xd7 || ((class == 4 || class == 7) && insn->offset != 0);
}

static uint64_t swapped(uint64_t number, int32_t width)
{
    return width == 16 ? __builtin_bswap16((uint16_t)number) : width == 32 ? __builtin_bswap32((uint32_t)number) : __builtin_bswap64(number);
}

/* Makes the step of such an instruction, by docs/INSTRUCTIONS.md: how far it jumps. */
static int32_t rare_step(const struct insn *insn, uint64_t *r)
{
    bool is_short = (insn->opcode & 7) == 4;
    int64_t a = (int64_t)r[insn->dst], b = insn->opcode & 8 ? (int64_t)r[insn->src] : insn->imm;
    if (insn->opcode == 0x06)
        return insn->imm;
    if (is_short)
        a = (int32_t)a, b = (int32_t)b;
    switch (insn->opcode & 0xf0) {
    case 0x30: a = b == 0 ? 0 : b == -1 ? (int64_t)-(uint64_t)a : a / b; break;
    case 0x90: a = b == 0 ? a : b == -1 ? 0 : a % b; break;
    case 0xb0: a = insn->offset == 8 ? (int8_t)b : insn->offset == 16 ? (int16_t)b : (int32_t)b; break;
    default: a = (int64_t)swapped((uint64_t)a, insn->imm); break;
    }
    r[insn->dst] = is_short ? (uint32_t)a : (uint64_t)a;
    return 0;
}

/* A digest of bytes, FNV-1a, that goes on with one of bytes before them. */
static uint64_t digest(uint64_t before, const void *bytes, size_t len)
{
    const uint8_t *byte = bytes;
    for (size_t at = 0; at < len; at++)
        before = (before ^ byte[at]) * 0x100000001b3;
    return before;
}

/* The values of a map, if it is there. */
static uint64_t seen_map(uint64_t before, uint32_t tenant, uint32_t map)
{
    struct bpf_host_shape shape = {0, 0};
    uint8_t value[LONGEST_VALUE];
    uint32_t code = bpf_host_shape(&host, tenant, map, &shape);
    before = digest(digest(before, &code, sizeof code), &shape, sizeof shape);
    for (uint32_t key = 0; key < shape.entries; key++) {
        must(bpf_host_lookup(&host, tenant, map, key, value, shape.value_size) == 0, "no value", key);
        before = digest(before, value, shape.value_size);
    }
    return before;
}

/* What a tenant's maps hold, and which programs it has: a context of one byte is a bad one for each program that is there, and the first one is still
 * that which returns 0 in two steps. */
static uint64_t seen_tenant(uint32_t tenant)
{
    uint64_t seen = 0xcbf29ce484222325;
    struct bpf_host_run run;
    for (uint32_t number = 0; number < NUMBERS; number++) {
        uint32_t code = bpf_host_run(&host, tenant, number, copy, 1, &run, &refused);
        must(code == BPF_HOST_BAD_CONTEXT || code == BPF_HOST_NO_PROGRAM, "a run on one byte", code);
        seen = seen_map(digest(seen, &code, sizeof code), tenant, number);
    }
    uint32_t code = bpf_host_run(&host, tenant, 0, copy, 0, &run, &refused);
    must(code == 0 && run.ret == 0 && run.steps == 2, "a tenant's own program is another one", tenant);
    return seen;
}

/* What can be seen now. What the last refusal said is forgotten, so that it shows what the next one says. */
static struct view view(void)
{
    struct view seen = {{seen_tenant(HOME), seen_tenant(GUEST)}, {0}};
    must(bpf_host_counters(&host, &seen.counters) == 0, "no counters", 0);
    refused = (struct bpf_host_refused){UNWRITTEN, UNWRITTEN, UNWRITTEN};
    return seen;
}

static bool is_rule(uint32_t code)
{
    return (code >= BPF_HOST_BAD_LENGTH && code <= BPF_HOST_CUT_WIDE) || (code >= BPF_HOST_BACK_JUMP && code <= LAST_RULE);
}

/* A refusal is by a number that the call may return, says just what that number speaks of, and changed nothing. */
static void check_refusal(uint32_t code, bool may_return, const struct view *before)
{
    must(may_return, "a call returns what it may not", code);
    must(is_rule(code) ? refused.slot < SLOTS : refused.slot == UNWRITTEN, "a refusal names a slot", refused.slot);
    bool lacks_frames = code == BPF_HOST_NO_FRAMES;
    must(lacks_frames ? refused.need > refused.have : refused.need == UNWRITTEN && refused.have == UNWRITTEN, "a refusal speaks of frames", refused.need);
    struct view after = view();
    must(memcmp(before, &after, sizeof after) == 0, "a refusal changed the host", code);
}

/* A program of the guest: the subject itself, or what bpf_host_lower made of it, which may take other steps to the same answer. */
struct loaded {
    uint32_t number, slots;
    bool is_lowered;
};

/* Runs the program on a context: its answer and its steps are those of the switch. */
static void compare_run(const struct linked *linked, const struct loaded *loaded, const uint8_t *bytes)
{
    const uint8_t *context = before_fence(&context_room, bytes, subject.context_size);
    struct bpf_host_run run = {UNWRITTEN, UNWRITTEN};
    uint32_t steps = 0, code = bpf_host_run(&host, GUEST, loaded->number, context, subject.context_size, &run, &refused);
    must(code == 0, "a run is refused", code);
    must(run.steps >= 1 && run.steps <= loaded->slots, "a run has too many steps, or none", run.steps);
    uint64_t ret = switch_run(linked->text, context, &steps);
    must(run.ret == ret, "a run returns something else than the switch", run.ret);
    must(run.steps == steps || loaded->is_lowered, "a run has other steps than the switch", run.steps);
    must(memcmp(context, bytes, subject.context_size) == 0, "a run changed its context", 0);
}

/* The values of a map are those that the switch left, whose map is freed. */
static void compare_map(uint32_t number, struct map *map)
{
    uint8_t value[LONGEST_VALUE];
    for (uint32_t key = 0; key < map->entries; key++) {
        must(bpf_host_lookup(&host, GUEST, number, key, value, map->value_size) == 0, "no value", key);
        must(memcmp(value, map->values + (size_t)map->stride * key, map->value_size) == 0, "a map holds something else than the switch's", number);
    }
    free(map->values);
}

/* Where no step leads, a wide instruction may name a map that isn't there, which the switch can't link: a number takes its place. */
static void forget_missing_maps(void)
{
    for (uint32_t pc = 0; pc + 1 < subject.slots; pc++) {
        if (subject.text[pc].opcode != WIDE)
            continue;
        if ((uint32_t)subject.text[pc].imm >= subject.map_count)
            subject.text[pc].src = 0;
        pc++;
    }
}

/* Runs a program beside the subject on drawn contexts, while pages are merged, and takes it away. */
static void compare_runs(const struct loaded *loaded, uint64_t *state)
{
    struct linked linked;
    struct bpf_host_counters counters;
    forget_missing_maps();
    link_program(&subject, &linked);
    for (int run = 0; run < RUNS; run++) {
        compare_run(&linked, loaded, subject.contexts[below(state, CONTEXTS)]);
        must(bpf_host_visit(&host, below(state, 4), &counters) == 0, "no visit", 0);
    }
    for (uint32_t map = 0; map < subject.map_count; map++)
        compare_map(map, &linked.maps[map]);
    free(linked.text);
    must(bpf_host_unload(&host, GUEST, loaded->number) == 0, "no unload", loaded->number);
}

/* Drops the guest's maps: then all is as it was before the upload. */
static void drop_maps(const struct view *before)
{
    for (uint32_t map = 0; map < subject.map_count; map++)
        must(bpf_host_drop_map(&host, GUEST, map) == 0, "no drop", map);
    struct view after = view();
    must(memcmp(before->tenants, after.tenants, sizeof after.tenants) == 0, "an upload that is gone changed a tenant", 0);
    must(before->counters.frames_free == after.counters.frames_free, "an upload that is gone keeps frames", after.counters.frames_free);
}

#endif
