/* Each refusal that is none of a program's, what stays as it was, and handles that are closed or used twice. */
#include "check.h"

/* A refusal left what the caller's pointers lead to. */
static void check_untouched(const struct bpf_host_run *run, bool ended, const struct bpf_host_refused *refused)
{
    CHECK(run->ret, 5);
    CHECK(run->steps, 6);
    CHECK(ended, true);
    CHECK(refused->slot, 77);
    CHECK(refused->need, 78);
    CHECK(refused->have, 79);
}

static void test_runs_refused(struct bpf_host *host)
{
    struct bpf_host_run run = {5, 6};
    struct bpf_host_refused refused = {77, 78, 79};
    uint8_t bytes[9] = {0};
    bool ended = true;
    CHECK(bpf_host_step(host, 0, 1, &ended, &run), 37);
    CHECK(bpf_host_run(host, 9, 0, bytes, 0, &run, &refused), 42);
    CHECK(bpf_host_run(host, 0, 3, bytes, 0, &run, &refused), 38);
    CHECK(bpf_host_run(host, 0, 0, bytes, 8, &run, &refused), 39);
    CHECK(bpf_host_begin(host, 0, 0, bytes, 0, &refused), 0);
    CHECK(bpf_host_begin(host, 0, 0, bytes, 0, &refused), 36);
    CHECK(bpf_host_run(host, 0, 0, bytes, 0, &run, &refused), 36);
    CHECK(bpf_host_update(host, 0, 0, 0, bytes, 8, &refused), 36);
    CHECK(bpf_host_drop_map(host, 0, 0), 36);
    CHECK(bpf_host_unload(host, 0, 0), 36);
    CHECK(make_map(host, 0, 8, 1), 36);
    CHECK(load_hex(host, 0, RETURN_42, 0), 36);
    check_untouched(&run, ended, &refused);
    check_value(host, 0, 0, 0, "0000000000000000");
    CHECK(bpf_host_step(host, 0, 0, &ended, &run), 0);
    CHECK(ended, false);
    CHECK(bpf_host_step(host, 0, 1u << 20, &ended, &run), 0);
    CHECK(ended, true);
    CHECK(run.ret, 1);
}

static void test_maps_and_programs_refused(struct bpf_host *host)
{
    uint8_t value[9] = {9, 9, 9, 9, 9, 9, 9, 9, 9};
    CHECK(bpf_host_lookup(host, 0, 0, 0, value, 7), 102);
    CHECK(bpf_host_lookup(host, 0, 0, 0, value, 9), 102);
    CHECK(bpf_host_lookup(host, 0, 0, 1, value, 8), 35);
    CHECK(bpf_host_lookup(host, 0, 5, 0, value, 8), 34);
    CHECK(bpf_host_lookup(host, 2, 0, 0, value, 8), 42);
    for (int i = 0; i < 9; i++)
        CHECK(value[i], 9);
    CHECK(bpf_host_drop_map(host, 0, 0), 43);
    CHECK(bpf_host_drop_map(host, 0, 5), 34);
    CHECK(bpf_host_unload(host, 0, 5), 38);
    CHECK(bpf_host_unload(host, 4, 0), 42);
    CHECK(bpf_host_set(host, 4, 1), 40);
    CHECK(make_map(host, 0, 0, 1), 33);
    CHECK(make_map(host, 3, 8, 1), 42);
    CHECK(load_hex(host, 0, RETURN_42, 7), 39);
    for (int i = 1; i < 8; i++) {
        CHECK(load_hex(host, 0, RETURN_42, 0), 0);
        CHECK(make_map(host, 0, 8, 1), 0);
    }
    CHECK(load_hex(host, 0, RETURN_42, 0), 45);
    CHECK(make_map(host, 0, 8, 1), 32);
    CHECK(bpf_host_unload(host, 0, 0), 0);
    CHECK(bpf_host_drop_map(host, 0, 0), 0);
    CHECK(bpf_host_lookup(host, 0, 0, 0, value, 8), 34);
}

void test_refusals(void)
{
    struct bpf_host host;
    open_host(&host, 16, 1);
    CHECK(make_map(&host, 0, 8, 1), 0);
    CHECK(load_hex(&host, 0, COUNTER, 0), 0);
    test_runs_refused(&host);
    test_maps_and_programs_refused(&host);
    bpf_host_free(&host);
}

/* Each call at a closed handle. */
static void check_closed(struct bpf_host *host)
{
    struct bpf_host_counters counters = {1, 2, 3, 4, 5, 6, 7, 8, 9};
    struct bpf_host_counters same = counters;
    struct bpf_host_run run = {5, 6};
    struct bpf_host_refused refused = {77, 78, 79};
    struct bpf_host_shape shape = {7, 8};
    uint8_t bytes[8] = {9};
    uint32_t number = 99;
    bool ended = true;
    CHECK(bpf_host_create_map(host, 0, 8, 1, true, &number, &refused), 100);
    CHECK(bpf_host_load(host, 0, bytes, 8, 0, &number, &refused), 100);
    CHECK(bpf_host_drop_map(host, 0, 0), 100);
    CHECK(bpf_host_shape(host, 0, 0, &shape), 100);
    CHECK(shape.value_size, 7);
    CHECK(shape.entries, 8);
    CHECK(bpf_host_unload(host, 0, 0), 100);
    CHECK(bpf_host_run(host, 0, 0, bytes, 0, &run, &refused), 100);
    CHECK(bpf_host_begin(host, 0, 0, bytes, 0, &refused), 100);
    CHECK(bpf_host_step(host, 0, 1, &ended, &run), 100);
    CHECK(bpf_host_lookup(host, 0, 0, 0, bytes, 8), 100);
    CHECK(bpf_host_update(host, 0, 0, 0, bytes, 8, &refused), 100);
    CHECK(bpf_host_visit(host, 3, &counters), 100);
    CHECK(bpf_host_set(host, BPF_HOST_RUN, 1), 100);
    CHECK(bpf_host_set(host, 4, 1), 100);
    CHECK(bpf_host_unmerge(host, &refused), 100);
    CHECK(bpf_host_counters(host, &counters), 100);
    CHECK(number, 99);
    CHECK(bytes[0], 9);
    CHECK(memcmp(&counters, &same, sizeof same), 0);
    check_untouched(&run, ended, &refused);
    CHECK(host->is_open, false);
}

/* The shapes of a host's maps, and none where there is no map. */
static void check_shapes(struct bpf_host *host)
{
    struct bpf_host_shape shape = {7, 8};
    CHECK(bpf_host_shape(host, 0, 0, &shape), 34);
    CHECK(make_map(host, 0, 24, 3), 0);
    CHECK(make_map(host, 0, 1, 65), 0);
    CHECK(bpf_host_shape(host, 0, 2, &shape), 34);
    CHECK(bpf_host_shape(host, 0, 8, &shape), 34);
    CHECK(bpf_host_shape(host, 1, 0, &shape), 34);
    CHECK(shape.value_size, 7);
    CHECK(shape.entries, 8);
    CHECK(bpf_host_shape(host, 0, 0, &shape), 0);
    CHECK(shape.value_size, 24);
    CHECK(shape.entries, 3);
    CHECK(bpf_host_shape(host, 0, 1, &shape), 0);
    CHECK(shape.value_size, 1);
    CHECK(shape.entries, 65);
}

/* The refusals of docs/HOST.md and docs/VERIFIER.md, and the handle's own: number and name, and the constant of the header. */
static const struct {
    uint32_t number;
    uint32_t constant;
    const char *name;
} CODES[] = {
    {0, BPF_HOST_DONE, "Done"},
    {1, BPF_HOST_BAD_LENGTH, "BadLength"},
    {2, BPF_HOST_UNKNOWN_OPCODE, "UnknownOpcode"},
    {3, BPF_HOST_BAD_FIELD, "BadField"},
    {4, BPF_HOST_BAD_REGISTER, "BadRegister"},
    {5, BPF_HOST_CUT_WIDE, "CutWide"},
    {11, BPF_HOST_BACK_JUMP, "BackJump"},
    {12, BPF_HOST_JUMP_OUT, "JumpOut"},
    {13, BPF_HOST_FALLS_OFF, "FallsOff"},
    {14, BPF_HOST_UNSET_REGISTER, "UnsetRegister"},
    {15, BPF_HOST_WRONG_KIND, "WrongKind"},
    {16, BPF_HOST_OUTSIDE_CONTEXT, "OutsideContext"},
    {17, BPF_HOST_OUTSIDE_STACK, "OutsideStack"},
    {18, BPF_HOST_UNSET_STACK, "UnsetStack"},
    {19, BPF_HOST_OUTSIDE_MAP, "OutsideMap"},
    {20, BPF_HOST_MISALIGNED, "Misaligned"},
    {21, BPF_HOST_NULL_NOT_CHECKED, "NullNotChecked"},
    {22, BPF_HOST_FRAME_WRITTEN, "FrameWritten"},
    {23, BPF_HOST_UNKNOWN_HELPER, "UnknownHelper"},
    {24, BPF_HOST_UNKNOWN_MAP, "UnknownMap"},
    {25, BPF_HOST_POINTER_LEAKS, "PointerLeaks"},
    {31, BPF_HOST_NO_FRAMES, "NoFrames"},
    {32, BPF_HOST_TOO_MANY_MAPS, "TooManyMaps"},
    {33, BPF_HOST_BAD_SHAPE, "BadShape"},
    {34, BPF_HOST_NO_MAP, "NoMap"},
    {35, BPF_HOST_NO_ELEMENT, "NoElement"},
    {36, BPF_HOST_BUSY, "Busy"},
    {37, BPF_HOST_NO_RUN, "NoRun"},
    {38, BPF_HOST_NO_PROGRAM, "NoProgram"},
    {39, BPF_HOST_BAD_CONTEXT, "BadContext"},
    {40, BPF_HOST_BAD_OPTION, "BadOption"},
    {41, BPF_HOST_OUT_OF_MEMORY, "OutOfMemory"},
    {42, BPF_HOST_BAD_TENANT, "BadTenant"},
    {43, BPF_HOST_IN_USE, "InUse"},
    {44, BPF_HOST_PAGES_SHARED, "PagesShared"},
    {45, BPF_HOST_TOO_MANY_PROGRAMS, "TooManyPrograms"},
    {100, BPF_HOST_CLOSED, "Closed"},
    {101, BPF_HOST_OPEN_ALREADY, "OpenAlready"},
    {102, BPF_HOST_WRONG_LENGTH, "WrongLength"},
    {103, BPF_HOST_BAD_OBJECT, "BadObject"},
    {104, BPF_HOST_HAS_MAPS, "HasMaps"},
};

static void check_codes(void)
{
    size_t named = 0;
    for (size_t at = 0; at < sizeof CODES / sizeof CODES[0]; at++) {
        CHECK(CODES[at].constant, CODES[at].number);
        CHECK(strcmp(bpf_host_code_name(CODES[at].number), CODES[at].name), 0);
    }
    for (uint32_t number = 0; number < 1000; number++)
        named += strcmp(bpf_host_code_name(number), "Unknown") != 0;
    CHECK(named, sizeof CODES / sizeof CODES[0]);
}

void test_handles(void)
{
    struct bpf_host host = {0};
    struct bpf_host_options options = BPF_HOST_OPTIONS;
    CHECK(bpf_host_version(), BPF_HOST_VERSION);
    check_closed(&host);
    bpf_host_free(&host);
    CHECK(bpf_host_new(1, 1, &options, &host), 33);
    CHECK(bpf_host_new(4, 17, &options, &host), 33);
    options.max_page_sharing = 1;
    CHECK(bpf_host_new(4, 1, &options, &host), 40);
    options.max_page_sharing = 256;
    CHECK(host.is_open, false);
    CHECK(bpf_host_new(4, 1, &options, &host), 0);
    CHECK(make_map(&host, 0, 8, 1), 0);
    CHECK(bpf_host_new(8, 2, &options, &host), 101);
    check_value(&host, 0, 0, 0, "0000000000000000");
    bpf_host_free(&host);
    check_closed(&host);
    bpf_host_free(&host);
    CHECK(bpf_host_new(4, 1, &options, &host), 0);
    check_shapes(&host);
    bpf_host_free(&host);
    check_codes();
}
