/* Rows whose answers are known: programs, and pages that are merged. */
#include "check.h"

/* One program by itself, on a map of its own where its value size isn't 0. */
static void check_program(const char *hex, uint32_t context_size, uint32_t value_size, const char *context, uint64_t ret, uint32_t steps)
{
    struct bpf_host host;
    open_host(&host, 64, 1);
    if (value_size != 0)
        CHECK(make_map(&host, 0, value_size, 1), 0);
    CHECK(load_hex(&host, 0, hex, context_size), 0);
    check_run(&host, 0, context, ret, steps);
    bpf_host_free(&host);
}

/* A program that isn't accepted, by its rule and slot. */
static void check_refused(const char *hex, uint32_t context_size, uint32_t value_size, uint32_t rule, uint32_t slot)
{
    struct bpf_host host;
    open_host(&host, 64, 1);
    if (value_size != 0)
        CHECK(make_map(&host, 0, value_size, 1), 0);
    last_refused = (struct bpf_host_refused){77, 78, 79};
    CHECK(load_hex(&host, 0, hex, context_size), rule);
    CHECK(last_refused.slot, slot);
    CHECK(last_refused.need, 78);
    CHECK(last_refused.have, 79);
    bpf_host_free(&host);
}

static void test_counter(void)
{
    struct bpf_host host;
    open_host(&host, 8, 1);
    CHECK(make_map(&host, 0, 8, 1), 0);
    CHECK(load_hex(&host, 0, COUNTER, 0), 0);
    check_run(&host, 0, "", 1, 11);
    check_run(&host, 0, "", 2, 11);
    check_value(&host, 0, 0, 0, "0200000000000000");
    /* A program that takes the place of another one finds the maps as they were. */
    CHECK(bpf_host_unload(&host, 0, 0), 0);
    CHECK(load_hex(&host, 0, COUNTER, 0), 0);
    check_run(&host, 0, "", 3, 11);
    bpf_host_free(&host);
    open_host(&host, 8, 1);
    CHECK(make_map(&host, 0, 8, 1), 0);
    CHECK(load_hex(&host, 0, "620afcff01000000" " bfa2000000000000 07020000fcffffff 1811000000000000 0000000000000000 8500000001000000 "
        "5500020000000000 b700000000000000 9500000000000000 7901000000000000 0701000001000000 7b10000000000000 bf10000000000000 9500000000000000", 0), 0);
    check_run(&host, 0, "", 0, 8);
    check_value(&host, 0, 0, 0, "0000000000000000");
    bpf_host_free(&host);
}

/* Returns the context's first eight bytes. */
#define FIRST_WORD "7910000000000000 9500000000000000"

/* Runs a program on so many bytes of contexts, one run for each of `count` numbers: it is refused with `code`, and no run is made. */
static void check_none_made(struct bpf_host *host, uint32_t tenant, uint32_t program, size_t bytes, size_t count, uint32_t code)
{
    const uint8_t contexts[24] = {0};
    uint64_t rets[3] = {1, 2, 3};
    size_t made = 9;
    CHECK(bpf_host_run_many(host, tenant, program, contexts, bytes, rets, count, &made, &last_refused), code);
    CHECK(made, 0);
    CHECK(rets[0] == 1 && rets[1] == 2 && rets[2] == 3, true);
}

static void test_many_runs(void)
{
    struct bpf_host host = {0};
    const uint8_t contexts[24] = {5, 0, 0, 0, 0, 0, 0, 0, 6, 0, 0, 0, 0, 0, 0, 0, 7};
    uint64_t rets[3] = {1, 2, 3};
    size_t made = 9;
    check_none_made(&host, 0, 0, 24, 3, 100);
    open_host(&host, 8, 1);
    CHECK(load_hex(&host, 0, FIRST_WORD, 8), 0);
    check_none_made(&host, 0, 0, 23, 3, 102);
    check_none_made(&host, 0, 0, 8, 0, 102);
    check_none_made(&host, 0, 0, 16, 1, 39);
    check_none_made(&host, 0, 1, 24, 3, 38);
    check_none_made(&host, 1, 0, 24, 3, 42);
    check_none_made(&host, 0, 0, 0, 0, 0);
    CHECK(bpf_host_run_many(&host, 0, 0, contexts, 24, rets, 3, &made, &last_refused), 0);
    CHECK(made, 3);
    CHECK(rets[0] == 5 && rets[1] == 6 && rets[2] == 7, true);
    bpf_host_free(&host);
}

/* One frame is free, and the counter's page shares its frame with another: the first run takes the free one, and the second may not begin. Without
 * the other program's map the second and third run are made by one more call. */
static void test_runs_that_stop(void)
{
    struct bpf_host host;
    uint64_t rets[3] = {7, 8, 9};
    size_t made = 9;
    open_host(&host, 3, 1);
    CHECK(make_map(&host, 0, 8, 1), 0);
    CHECK(make_map(&host, 0, 8, 1), 0);
    CHECK(after_visits(&host, 8).frames_free, 1);
    CHECK(load_hex(&host, 0, COUNTER, 0), 0);
    CHECK(bpf_host_run_many(&host, 0, 0, (const uint8_t *)"", 0, rets, 3, &made, &last_refused), 31);
    CHECK(last_refused.need == 1 && last_refused.have == 0, true);
    CHECK(made, 1);
    CHECK(rets[0] == 1 && rets[1] == 8 && rets[2] == 9, true);
    check_value(&host, 0, 0, 0, "0100000000000000");
    CHECK(bpf_host_drop_map(&host, 0, 1), 0);
    CHECK(bpf_host_run_many(&host, 0, 0, (const uint8_t *)"", 0, rets + made, 3 - made, &made, &last_refused), 0);
    CHECK(made, 2);
    CHECK(rets[0] == 1 && rets[1] == 2 && rets[2] == 3, true);
    check_value(&host, 0, 0, 0, "0300000000000000");
    bpf_host_free(&host);
}

static void test_masked_offset(void)
{
    struct bpf_host host;
    uint8_t value[64] = {0};
    value[8] = 5;
    open_host(&host, 8, 1);
    CHECK(make_map(&host, 0, 64, 1), 0);
    CHECK(load_hex(&host, 0, FIND_VALUE "5706000038000000 0f60000000000000 7900000000000000 9500000000000000", 8), 0);
    CHECK(bpf_host_update(&host, 0, 0, 0, value, sizeof value, &last_refused), 0);
    check_run(&host, 0, "0f00000000000000", 5, 11);
    bpf_host_free(&host);
}

void test_rows_of_programs(void)
{
    check_program(RETURN_42, 0, 0, "", 42, 2);
    check_refused("9500000000000000", 0, 0, 14, 0);
    check_refused("", 0, 0, 1, 0);
    check_refused("b70000002a00000095000000", 0, 0, 1, 0);
    check_refused("b700000000000000", 0, 0, 13, 0);
    test_counter();
    test_many_runs();
    test_runs_that_stop();
    check_refused("620afcff00000000 bfa2000000000000 07020000fcffffff 1811000000000000 0000000000000000 8500000001000000 "
        "7901000000000000 0701000001000000 7b10000000000000 bf10000000000000 9500000000000000", 0, 8, 21, 6);
    test_masked_offset();
    check_refused(FIND_VALUE "5706000038000000 0f60000000000000 7900000000000000 9500000000000000", 8, 56, 19, 12);
    check_refused(FIND_VALUE "570600003f000000 0f60000000000000 7900000000000000 9500000000000000", 8, 72, 20, 12);
    check_program(FIND_VALUE "2506030007000000 0f60000000000000 7100000000000000 9500000000000000 b700000000000000 9500000000000000", 8, 8,
        "0800000000000000", 0, 10);
    check_refused(FIND_VALUE "2506030007000000 0f60000000000000 7100000000000000 9500000000000000 b700000000000000 9500000000000000", 8, 7, 19, 12);
    check_refused(FIND_VALUE "2606030007000000 0f60000000000000 7100000000000000 9500000000000000 b700000000000000 9500000000000000", 8, 8, 19, 11);
    check_program("1800000009000000 0000000007000000 3700000000000000 9500000000000000", 0, 0, "", 0, 3);
    check_program("1800000009000000 0000000007000000 9700000000000000 9500000000000000", 0, 0, "", 30064771081, 3);
    check_program("1800000009000000 0000000007000000 9400000000000000 9500000000000000", 0, 0, "", 9, 3);
    check_program("1800000000000000 0000000000000080 37000100ffffffff 9500000000000000", 0, 0, "", 9223372036854775808u, 3);
    check_program("1800000000000000 0000000000000080 97000100ffffffff 9500000000000000", 0, 0, "", 0, 3);
    check_refused("0500010000000000 1800000000000000 0000000000000000 9500000000000000", 0, 0, 12, 0);
    check_refused("0500ffff00000000 9500000000000000", 0, 0, 11, 0);
    check_refused("1800000000000000", 0, 0, 5, 0);
    check_refused("8d00000000000000", 0, 0, 2, 0);
    check_refused("b710000000000000", 0, 0, 3, 0);
    check_refused("b70b000000000000", 0, 0, 4, 0);
    check_refused("b70a000000000000 9500000000000000", 0, 0, 22, 0);
}

/* Two tenants, each with a map of one value and the counter. */
static void open_counters(struct bpf_host *host, uint32_t frames)
{
    open_host(host, frames, 2);
    for (uint32_t tenant = 0; tenant < 2; tenant++) {
        CHECK(make_map(host, tenant, 8, 1), 0);
        CHECK(load_hex(host, tenant, COUNTER, 0), 0);
    }
}

static void test_runs_break_a_shared_page(void)
{
    struct bpf_host host;
    open_counters(&host, 4);
    struct bpf_host_counters c = after_visits(&host, 2);
    CHECK(c.pages_volatile, 2);
    CHECK(c.frames_free, 1);
    c = after_visits(&host, 2);
    CHECK(c.pages_shared, 1);
    CHECK(c.pages_sharing, 1);
    CHECK(c.pages_volatile, 0);
    CHECK(c.frames_free, 2);
    CHECK(c.full_scans, 2);
    check_run(&host, 0, "", 1, 11);
    c = after_visits(&host, 0);
    CHECK(c.pages_shared, 1);
    CHECK(c.pages_sharing, 0);
    CHECK(c.pages_volatile, 1);
    CHECK(c.frames_free, 1);
    check_run(&host, 1, "", 1, 11);
    c = after_visits(&host, 0);
    CHECK(c.pages_shared, 0);
    CHECK(c.pages_volatile, 2);
    CHECK(c.frames_free, 1);
    bpf_host_free(&host);
}

static void test_merge_in_an_open_run(void)
{
    struct bpf_host host;
    struct bpf_host_run run = {7, 8};
    bool ended = true;
    uint8_t nothing[1] = {0};
    open_counters(&host, 4);
    after_visits(&host, 2);
    CHECK(bpf_host_begin(&host, 0, 0, nothing, 0, &last_refused), 0);
    CHECK(bpf_host_step(&host, 0, 7, &ended, &run), 0);
    CHECK(ended, false);
    CHECK(run.ret, 7);
    CHECK(run.steps, 8);
    CHECK(after_visits(&host, 2).pages_shared, 1);
    check_run(&host, 1, "", 1, 11);
    CHECK(bpf_host_step(&host, 0, 100, &ended, &run), 0);
    CHECK(ended, true);
    CHECK(run.ret, 1);
    CHECK(run.steps, 11);
    check_value(&host, 0, 0, 0, "0100000000000000");
    check_value(&host, 1, 0, 0, "0100000000000000");
    struct bpf_host_counters c = after_visits(&host, 0);
    CHECK(c.pages_shared, 0);
    CHECK(c.pages_volatile, 2);
    CHECK(c.frames_free, 1);
    bpf_host_free(&host);
}

static void test_scarce_frames(void)
{
    struct bpf_host host;
    uint8_t nothing[1] = {0};
    open_counters(&host, 3);
    last_refused = (struct bpf_host_refused){77, 78, 79};
    CHECK(bpf_host_begin(&host, 0, 0, nothing, 0, &last_refused), 31);
    CHECK(last_refused.slot, 77);
    CHECK(last_refused.need, 1);
    CHECK(last_refused.have, 0);
    after_visits(&host, 4);
    CHECK(bpf_host_begin(&host, 0, 0, nothing, 0, &last_refused), 0);
    last_refused = (struct bpf_host_refused){77, 78, 79};
    CHECK(bpf_host_begin(&host, 1, 0, nothing, 0, &last_refused), 31);
    CHECK(last_refused.need, 1);
    CHECK(last_refused.have, 0);
    bpf_host_free(&host);
}

static void test_chains_and_zero_pages(void)
{
    struct bpf_host host;
    for (int zero_pages = 0; zero_pages < 2; zero_pages++) {
        open_host(&host, 8, 4);
        if (zero_pages)
            CHECK(bpf_host_set(&host, BPF_HOST_USE_ZERO_PAGES, 1), 0);
        else
            CHECK(bpf_host_set(&host, BPF_HOST_MAX_PAGE_SHARING, 2), 0);
        for (uint32_t tenant = 0; tenant < 4; tenant++)
            CHECK(make_map(&host, tenant, 8, 1), 0);
        struct bpf_host_counters c = after_visits(&host, 8);
        CHECK(c.pages_shared, zero_pages ? 0 : 2);
        CHECK(c.ksm_zero_pages, zero_pages ? 4 : 0);
        CHECK(c.frames_free, zero_pages ? 7 : 5);
        CHECK(c.pages_sharing, zero_pages ? 0 : 2);
        CHECK(c.stable_node_chains, zero_pages ? 0 : 1);
        CHECK(c.stable_node_dups, zero_pages ? 0 : 2);
        bpf_host_free(&host);
    }
}

/* A program that updates, by itself. */
static void check_update(const char *hex, uint64_t ret)
{
    struct bpf_host host;
    open_host(&host, 8, 1);
    CHECK(make_map(&host, 0, 24, 200), 0);
    CHECK(load_hex(&host, 0, hex, 0), 0);
    check_run(&host, 0, "", ret, 12);
    bpf_host_free(&host);
}

static void test_update_of_two_pages(void)
{
    struct bpf_host host;
    uint8_t one[24] = {1};
    open_host(&host, 8, 2);
    for (uint32_t tenant = 0; tenant < 2; tenant++) {
        CHECK(make_map(&host, tenant, 24, 200), 0);
        CHECK(bpf_host_update(&host, tenant, 0, 0, one, sizeof one, &last_refused), 0);
    }
    struct bpf_host_counters c = after_visits(&host, 8);
    CHECK(c.pages_shared, 2);
    CHECK(c.pages_sharing, 2);
    CHECK(c.frames_free, 5);
    CHECK(load_hex(&host, 0, UPDATE("aa000000", "00000000"), 0), 0);
    check_run(&host, 0, "", 0, 12);
    c = after_visits(&host, 0);
    CHECK(c.pages_shared, 2);
    CHECK(c.pages_sharing, 0);
    CHECK(c.pages_volatile, 2);
    CHECK(c.frames_free, 3);
    check_value(&host, 0, 0, 170, "070000000000000008000000000000000900000000000000");
    check_value(&host, 1, 0, 170, "000000000000000000000000000000000000000000000000");
    bpf_host_free(&host);
    check_update(UPDATE("aa000000", "01000000"), 18446744073709551599u);
    check_update(UPDATE("aa000000", "03000000"), 18446744073709551594u);
    check_update(UPDATE("c8000000", "00000000"), 18446744073709551609u);
    check_update(UPDATE("c8000000", "03000000"), 18446744073709551594u);
}

static void check_four_in_three(struct bpf_host *host)
{
    struct bpf_host_counters c = after_visits(host, 0);
    CHECK(c.pages_shared, 1);
    CHECK(c.pages_sharing, 3);
    CHECK(c.pages_unshared, 0);
    CHECK(c.pages_volatile, 0);
    CHECK(c.full_scans, 6);
    CHECK(c.frames_free, 1);
}

static void test_four_pages_in_three_frames(void)
{
    struct bpf_host host;
    uint8_t value[8] = {0};
    open_host(&host, 3, 2);
    CHECK(make_map(&host, 0, 8, 1), 0);
    CHECK(make_map(&host, 1, 8, 1), 0);
    after_visits(&host, 4);
    CHECK(make_map(&host, 0, 8, 1), 0);
    after_visits(&host, 6);
    CHECK(make_map(&host, 1, 8, 1), 0);
    after_visits(&host, 8);
    check_four_in_three(&host);
    last_refused = (struct bpf_host_refused){77, 78, 79};
    CHECK(bpf_host_unmerge(&host, &last_refused), 31);
    CHECK(last_refused.slot, 77);
    CHECK(last_refused.need, 3);
    CHECK(last_refused.have, 1);
    CHECK(bpf_host_set(&host, BPF_HOST_MAX_PAGE_SHARING, 3), 44);
    CHECK(bpf_host_set(&host, BPF_HOST_MAX_PAGE_SHARING, 1), 40);
    CHECK(bpf_host_set(&host, BPF_HOST_RUN, 2), 40);
    check_four_in_three(&host);
    CHECK(bpf_host_update(&host, 0, 0, 0, value, 7, &last_refused), 33);
    CHECK(bpf_host_update(&host, 0, 0, 1, value, 8, &last_refused), 35);
    CHECK(bpf_host_update(&host, 0, 2, 0, value, 8, &last_refused), 34);
    bpf_host_free(&host);
}

/* Fifteen tenants have tables of 1 MiB that are equal: 3,840 pages, which need the frames of one table. */
static void test_equal_tables(void)
{
    struct bpf_host host;
    uint8_t value[16] = {1};
    open_host(&host, 4096, 15);
    for (uint32_t tenant = 0; tenant < 15; tenant++) {
        CHECK(make_map(&host, tenant, 16, 65536), 0);
        for (uint32_t page = 0; page < 256; page++) {
            value[1] = (uint8_t)page;
            CHECK(bpf_host_update(&host, tenant, 0, page * 256, value, sizeof value, &last_refused), 0);
        }
    }
    struct bpf_host_counters c = after_visits(&host, 2 * 3840);
    CHECK(c.pages_shared, 256);
    CHECK(c.pages_sharing, 3840 - 256);
    CHECK(c.frames_free, 4096 - 1 - 256);
    bpf_host_free(&host);
}

void test_rows_of_merging(void)
{
    test_equal_tables();
    test_runs_break_a_shared_page();
    test_merge_in_an_open_run();
    test_scarce_frames();
    test_chains_and_zero_pages();
    test_update_of_two_pages();
    test_four_pages_in_three_frames();
}
