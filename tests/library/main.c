/* Tests of the library in C: rows whose answers are known, each refusal, and handles. */
#include "check.h"

unsigned checks;
unsigned failures;
struct bpf_host_refused last_refused;

void check_at(const char *file, int line, const char *what, unsigned long long found, unsigned long long wanted)
{
    checks++;
    if (found != wanted) {
        failures++;
        printf("%s:%d: %s is %llu, not %llu\n", file, line, what, found, wanted);
    }
}

static int digit_of(char c)
{
    return c <= '9' ? c - '0' : c - 'a' + 10;
}

size_t bytes_of(const char *hex, uint8_t *bytes)
{
    size_t digits = 0;
    for (; *hex; hex++) {
        if (*hex == ' ')
            continue;
        if (digits % 2 == 0)
            bytes[digits / 2] = 0;
        bytes[digits / 2] = (uint8_t)(bytes[digits / 2] * 16 + digit_of(*hex));
        digits++;
    }
    return digits / 2;
}

void open_host(struct bpf_host *host, uint32_t frames, uint32_t tenants)
{
    struct bpf_host_options options = BPF_HOST_OPTIONS;
    memset(host, 0, sizeof *host);
    CHECK(bpf_host_new(frames, tenants, &options, host), 0);
}

uint32_t load_hex(struct bpf_host *host, uint32_t tenant, const char *hex, uint32_t context_size)
{
    uint8_t text[512];
    uint32_t program = 99;
    size_t len = bytes_of(hex, text);
    uint32_t code = bpf_host_load(host, tenant, text, len, context_size, &program, &last_refused);
    if (code != 0)
        CHECK(program, 99);
    return code;
}

uint32_t make_map(struct bpf_host *host, uint32_t tenant, uint32_t value_size, uint32_t entries)
{
    uint32_t map = 99;
    uint32_t code = bpf_host_create_map(host, tenant, value_size, entries, true, &map, &last_refused);
    if (code != 0)
        CHECK(map, 99);
    return code;
}

void check_run(struct bpf_host *host, uint32_t tenant, const char *context, uint64_t ret, uint32_t steps)
{
    uint8_t bytes[256];
    struct bpf_host_run run = {0, 0};
    CHECK(bpf_host_run(host, tenant, 0, bytes, bytes_of(context, bytes), &run, &last_refused), 0);
    CHECK(run.ret, ret);
    CHECK(run.steps, steps);
}

void check_value(struct bpf_host *host, uint32_t tenant, uint32_t map, uint32_t key, const char *hex)
{
    uint8_t wanted[256];
    uint8_t found[256];
    size_t len = bytes_of(hex, wanted);
    memset(found, 0xee, sizeof found);
    CHECK(bpf_host_lookup(host, tenant, map, key, found, len), 0);
    CHECK(memcmp(found, wanted, len), 0);
    CHECK(found[len], 0xee);
}

struct bpf_host_counters after_visits(struct bpf_host *host, uint32_t visits)
{
    struct bpf_host_counters after = {0};
    struct bpf_host_counters again = {0};
    memset(&after, 0xee, sizeof after);
    CHECK(bpf_host_visit(host, visits, &after), 0);
    CHECK(bpf_host_counters(host, &again), 0);
    CHECK(memcmp(&after, &again, sizeof after), 0);
    return after;
}

int main(void)
{
    test_rows_of_programs();
    test_rows_of_merging();
    test_refusals();
    test_handles();
    test_texts();
    test_objects();
    printf("%u checks, %u failed\n", checks, failures);
    return failures != 0;
}
