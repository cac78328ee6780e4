/* Makes the events of lists by the library, and prints what `bpf_host replay` prints of them. A line of the standard input is an event; the
 * words after its name are numbers and hex texts (`-` is the empty one), in the order of docs/HOST.md. `host` opens a host, `end` closes it. */
#include "bpf_host.h"

#include <inttypes.h>
#include <stdio.h>
#include <stdlib.h>
#include <string.h>

enum { TENANTS = 16, LINE = 1 << 16, WORDS = 8 };

static struct bpf_host host;
static struct bpf_host_refused refused;
static uint64_t begun[TENANTS];
static char line[LINE];
static uint8_t bytes[LINE / 2];
static char *words[WORDS];

/* A word as a number. */
static uint32_t number(int at)
{
    return (uint32_t)strtoul(words[at], NULL, 10);
}

/* The bytes of a word in hex: how many. */
static size_t hex(int at)
{
    size_t length = strcmp(words[at], "-") == 0 ? 0 : strlen(words[at]) / 2;
    for (size_t i = 0; i < length; i++) {
        unsigned byte = 0;
        sscanf(words[at] + 2 * i, "%2x", &byte);
        bytes[i] = (uint8_t)byte;
    }
    return length;
}

/* Prints the line of a refusal, if the call was refused; `names` says whether the event names a tenant, its first word. */
static bool is_refused(uint32_t code, bool names)
{
    if (code == 0)
        return false;
    if (names)
        printf("tenant %s ", words[1]);
    printf("refused %u %s", code, bpf_host_code_name(code));
    if (code <= 25)
        printf(" at %u", refused.slot);
    if (code == 31)
        printf(" need %u have %u", refused.need, refused.have);
    printf("\n");
    return true;
}

/* Prints the line of a run that ended. */
static void print_ended(const struct bpf_host_run *run)
{
    printf("tenant %s run %" PRIu64 " ret %" PRIu64 " steps %u\n", words[1], begun[number(1)] - 1, run->ret, run->steps);
}

static void open_host(void)
{
    struct bpf_host_options options = {number(3), number(4), number(5), number(6)};
    memset(begun, 0, sizeof begun);
    is_refused(bpf_host_new(number(1), number(2), &options, &host), false);
}

static void begin(void)
{
    size_t length = hex(3);
    if (!is_refused(bpf_host_begin(&host, number(1), number(2), bytes, length, &refused), true))
        begun[number(1)]++;
}

static void step(uint64_t steps)
{
    struct bpf_host_run run = {0};
    bool ended = false;
    if (!is_refused(bpf_host_step(&host, number(1), steps, &ended, &run), true) && ended)
        print_ended(&run);
}

static void run_whole(void)
{
    struct bpf_host_run run = {0};
    size_t length = hex(3);
    if (is_refused(bpf_host_run(&host, number(1), number(2), bytes, length, &run, &refused), true))
        return;
    begun[number(1)]++;
    print_ended(&run);
}

static void lookup(void)
{
    struct bpf_host_shape shape = {0, 0};
    bpf_host_shape(&host, number(1), number(2), &shape);
    if (is_refused(bpf_host_lookup(&host, number(1), number(2), number(3), bytes, shape.value_size), true))
        return;
    printf("tenant %s map %s key %s ", words[1], words[2], words[3]);
    for (uint32_t i = 0; i < shape.value_size; i++)
        printf("%02x", bytes[i]);
    printf("\n");
}

static void print_counters(void)
{
    struct bpf_host_counters c = {0};
    is_refused(bpf_host_counters(&host, &c), false);
    printf("pages_shared %u\npages_sharing %u\npages_unshared %u\npages_volatile %u\nfull_scans %" PRIu64 "\n", c.pages_shared, c.pages_sharing,
           c.pages_unshared, c.pages_volatile, c.full_scans);
    printf("ksm_zero_pages %u\nstable_node_chains %u\nstable_node_dups %u\nframes_free %u\n", c.ksm_zero_pages, c.stable_node_chains,
           c.stable_node_dups, c.frames_free);
}

/* Makes a tenant's event that isn't of a run. */
static void make_tenants_event(void)
{
    uint32_t made;
    if (strcmp(words[0], "map") == 0)
        is_refused(bpf_host_create_map(&host, number(1), number(2), number(3), number(4) != 0, &made, &refused), true);
    else if (strcmp(words[0], "load") == 0) {
        size_t length = hex(2);
        is_refused(bpf_host_load(&host, number(1), bytes, length, number(3), &made, &refused), true);
    } else if (strcmp(words[0], "update") == 0) {
        size_t length = hex(4);
        is_refused(bpf_host_update(&host, number(1), number(2), number(3), bytes, length, &refused), true);
    } else if (strcmp(words[0], "lookup") == 0)
        lookup();
    else if (strcmp(words[0], "unload") == 0)
        is_refused(bpf_host_unload(&host, number(1), number(2)), true);
    else if (strcmp(words[0], "drop") == 0)
        is_refused(bpf_host_drop_map(&host, number(1), number(2)), true);
    else {
        fprintf(stderr, "no event `%s`\n", words[0]);
        exit(2);
    }
}

static void make_event(void)
{
    struct bpf_host_counters after = {0};
    if (strcmp(words[0], "host") == 0)
        open_host();
    else if (strcmp(words[0], "end") == 0) {
        bpf_host_free(&host);
        printf("end\n");
    } else if (strcmp(words[0], "begin") == 0)
        begin();
    else if (strcmp(words[0], "step") == 0)
        step(number(2));
    else if (strcmp(words[0], "finish") == 0)
        step(UINT64_MAX);
    else if (strcmp(words[0], "run") == 0)
        run_whole();
    else if (strcmp(words[0], "visit") == 0)
        bpf_host_visit(&host, number(1), &after);
    else if (strcmp(words[0], "set") == 0)
        is_refused(bpf_host_set(&host, number(1), number(2)), false);
    else if (strcmp(words[0], "unmerge") == 0)
        is_refused(bpf_host_unmerge(&host, &refused), false);
    else if (strcmp(words[0], "counters") == 0)
        print_counters();
    else
        make_tenants_event();
}

int main(void)
{
    while (fgets(line, sizeof line, stdin)) {
        int count = 0;
        for (char *word = strtok(line, " \n"); word && count < WORDS; word = strtok(NULL, " \n"))
            words[count++] = word;
        make_event();
    }
    return 0;
}
