/* How much stack the calls take, on a thread whose stack is filled with one byte beforehand: stack OBJECT..
 *
 * OBJECT.. are object files, which are read for contexts of 64 bytes, taken or not. Each call is to take at most what docs/EMBEDDING.md says. It is
 * linked with `-z now`: otherwise the first call of a function of the C library takes some three KiB more. */
#define _XOPEN_SOURCE 700
#include "../check.h"

#include <pthread.h>
#include <stdlib.h>

enum { STACK = 1 << 20, FILL = 0xa5, SLOTS = 4096, LONGEST = 1 << 20, SHORT = 4 << 10, LOAD = 32 << 10, LONG = 96 << 10 };

unsigned checks;
unsigned failures;

void check_at(const char *file, int line, const char *what, unsigned long long found, unsigned long long wanted)
{
    checks++;
    if (found != wanted) {
        failures++;
        printf("%s:%d: %s is %llu, not %llu\n", file, line, what, found, wanted);
    }
}

static struct bpf_host host, other;
static struct bpf_host_refused refused;
static uint32_t number;
static uint8_t branches[SLOTS][8], blocks[SLOTS][8], text[SLOTS][8], lowered[SLOTS][8], file[LONGEST];
static char words[LONGEST];
static size_t file_size, written;
static unsigned loaded, weighed;
static struct bpf_host_object object;
static const char *object_path;

/* A lookup of key 0 of map 0, one is added to its value, and it is returned: as COUNTER of check.h. */
static const uint8_t COUNT[14][8] = {
    {0x62, 0x0a, 0xfc, 0xff}, {0xbf, 0xa2}, {0x07, 2, 0, 0, 0xfc, 0xff, 0xff, 0xff}, {0x18, 0x11}, {0}, {0x85, 0, 0, 0, 1}, {0x55, 0, 2},
    {0xb7}, {0x95}, {0x79, 1}, {0x07, 1, 0, 0, 1}, {0x7b, 0x10}, {0xbf, 0x10}, {0x95},
};

static void nothing(void) {}

static void make(void)
{
    struct bpf_host_options options = BPF_HOST_OPTIONS;
    CHECK(bpf_host_new(64, 1, &options, &host), 0);
    CHECK(bpf_host_create_map(&host, 0, 8, 1, true, &number, &refused), 0);
}

/* No map: an empty buffer needs a pointer, too. */
static const struct bpf_host_shape no_shape = {0, 0};

/* Branches on the context's first word, each to the end: each slot has a description of its own. */
static void load(void)
{
    CHECK(bpf_host_load(&host, 0, branches[0], sizeof branches, 64, &number, &refused), 0);
    CHECK(bpf_host_load(&host, 0, COUNT[0], sizeof COUNT, 0, &number, &refused), 0);
    CHECK(bpf_host_verify(branches[0], sizeof branches, &no_shape, 0, 64, &refused), 0);
}

static void run(void)
{
    static const uint8_t context[64];
    struct bpf_host_run ended = {0, 0};
    uint64_t rets[2] = {0, 0};
    size_t made = 0;
    CHECK(bpf_host_run(&host, 0, 0, context, 64, &ended, &refused), 0);
    CHECK(bpf_host_run(&host, 0, 1, context, 0, &ended, &refused), 0);
    CHECK(bpf_host_run_many(&host, 0, 1, context, 0, rets, 2, &made, &refused), 0);
    CHECK(rets[1], 3);
}

static void visit(void)
{
    struct bpf_host_counters after = {0};
    uint8_t value[8] = {0};
    CHECK(bpf_host_visit(&host, 8, &after), 0);
    CHECK(bpf_host_lookup(&host, 0, 0, 0, value, sizeof value), 0);
    CHECK(bpf_host_update(&host, 0, 0, 0, value, sizeof value, &refused), 0);
}

/* The calls on a host that no other line here makes, the last of which closes it. */
static void close_host(void)
{
    static const uint8_t context[64];
    struct bpf_host_counters after = {0};
    struct bpf_host_shape shape = {0, 0};
    struct bpf_host_run ended = {0, 0};
    bool has_ended = false;
    CHECK(bpf_host_begin(&host, 0, 0, context, 64, &refused), 0);
    CHECK(bpf_host_step(&host, 0, 1, &has_ended, &ended), 0);
    CHECK(bpf_host_step(&host, 0, SLOTS, &has_ended, &ended), 0);
    CHECK(has_ended, true);
    CHECK(bpf_host_set(&host, BPF_HOST_USE_ZERO_PAGES, 1), 0);
    CHECK(bpf_host_unmerge(&host, &refused), 0);
    CHECK(bpf_host_counters(&host, &after), 0);
    CHECK(bpf_host_shape(&host, 0, 0, &shape), 0);
    CHECK(bpf_host_unload(&host, 0, 1), 0);
    CHECK(bpf_host_drop_map(&host, 0, 0), 0);
    bpf_host_free(&host);
}

/* Adds, a jump back to the second slot for so long as a register is below 100, and the end: forty rounds of it fit. */
static void lower(void)
{
    size_t size = 50 * sizeof *text;
    CHECK(bpf_host_lower(text[0], size, &no_shape, 0, 64, lowered[0], sizeof lowered, &written, &refused), 0);
    CHECK(bpf_host_explain(text[0], size, &no_shape, 0, 64, words, sizeof words, &written), 0);
}

/* A text of as many blocks as slots, each of which leads to the next one, and of which the first reads a pointer as a number. */
static void lower_blocks(void)
{
    CHECK(bpf_host_lower(blocks[0], sizeof blocks, &no_shape, 0, 64, lowered[0], sizeof lowered, &written, &refused), BPF_HOST_WRONG_KIND);
    CHECK(bpf_host_explain(blocks[0], sizeof blocks, &no_shape, 0, 64, words, sizeof words, &written), 0);
}

static void read_object(void)
{
    static const char *const names[] = {"", "weigh"};
    for (int name = 0; name < 2; name++)
        weighed += bpf_host_read_object(file, file_size, names[name], strlen(names[name]), 64, &object, &refused) == 0 && name == 1;
    checks++;
}

/* The object that was read last goes to a host of its own. */
static void load_object(void)
{
    loaded += bpf_host_load_object(&other, 0, &object, false, &number, &refused) == 0;
}

static void *on_thread(void *call)
{
    (*(void (**)(void))call)();
    return NULL;
}

/* How many bytes of its stack a thread wrote that makes a call. */
static size_t written_by(void (*call)(void))
{
    static _Alignas(4096) uint8_t stack[STACK];
    pthread_attr_t attributes;
    pthread_t thread;
    size_t unwritten = 0;
    memset(stack, FILL, sizeof stack);
    CHECK(pthread_attr_init(&attributes), 0);
    CHECK(pthread_attr_setstack(&attributes, stack, sizeof stack), 0);
    CHECK(pthread_create(&thread, &attributes, on_thread, &call), 0);
    CHECK(pthread_join(thread, NULL), 0);
    pthread_attr_destroy(&attributes);
    while (unwritten < sizeof stack && stack[unwritten] == FILL)
        unwritten++;
    return sizeof stack - unwritten;
}

/* Makes a call, and checks how much stack it took beside what a thread takes that makes none. */
static void check_call(const char *what, void (*call)(void), size_t most)
{
    size_t none = written_by(nothing), all = written_by(call), taken = all - none;
    printf("%s: %zu bytes of stack\n", what, taken);
    CHECK(all >= none && taken <= most, true);
}

static void put(uint8_t slot[8], uint8_t opcode, uint8_t registers, int16_t offset, int32_t imm)
{
    const uint8_t bytes[8] = {opcode, registers, (uint8_t)offset, (uint8_t)(offset >> 8), (uint8_t)imm, (uint8_t)(imm >> 8),
        (uint8_t)(imm >> 16), (uint8_t)(imm >> 24)};
    memcpy(slot, bytes, 8);
}

static void write_texts(void)
{
    put(branches[0], 0x79, 0x10, 0, 0);
    for (int slot = 1; slot < SLOTS - 1; slot++)
        put(branches[slot], 0x15, 0, (int16_t)(SLOTS - 2 - slot), slot);
    put(branches[SLOTS - 1], 0x95, 0, 0, 0);
    for (int slot = 0; slot < SLOTS - 1; slot++)
        put(blocks[slot], 0x15, 0x01, 0, 0);
    put(blocks[SLOTS - 1], 0x95, 0, 0, 0);
    put(text[0], 0xb7, 0, 0, 0);
    for (int slot = 1; slot < 48; slot++)
        put(text[slot], 0x07, 0, 0, 1);
    put(text[48], 0xa5, 0, -48, 1880);
    put(text[49], 0x95, 0, 0, 0);
}

static void read_path(void)
{
    FILE *opened = fopen(object_path, "rb");
    CHECK(opened != NULL, true);
    file_size = opened == NULL ? 0 : fread(file, 1, sizeof file, opened);
    if (opened != NULL)
        fclose(opened);
}

int main(int argc, char **argv)
{
    write_texts();
    check_call("bpf_host_new, create_map", make, SHORT);
    check_call("bpf_host_load, verify", load, LOAD);
    check_call("bpf_host_run, run_many", run, SHORT);
    check_call("bpf_host_visit, lookup, update", visit, SHORT);
    check_call("bpf_host_lower, explain", lower, LONG);
    check_call("bpf_host_lower, explain of many blocks", lower_blocks, LONG);
    check_call("bpf_host_begin, step, set, unmerge, counters, shape, unload, drop_map, free", close_host, SHORT);
    for (int at = 1; at < argc; at++) {
        object_path = argv[at];
        read_path();
        check_call(object_path, read_object, LONG);
        CHECK(bpf_host_new(64, 1, &(struct bpf_host_options)BPF_HOST_OPTIONS, &other), 0);
        check_call("bpf_host_load_object of it", load_object, LOAD);
        bpf_host_free(&other);
    }
    CHECK(argc == 1 || loaded > 0, true);
    printf("%u programs are loaded, and %u are `weigh`\n", loaded, weighed);
    bpf_host_free(&host);
    printf("%u checks, %u failures\n", checks, failures);
    return failures != 0;
}
