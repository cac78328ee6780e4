/* What a host and its programs hold, and how long an object file takes: upload [ROUNDS [FILE NAME SIZE]]
 *
 * Bytes are those that malloc says are in use. A program of 4,096 slots moves constants. With a file: the times of bpf_host_read_object for the
 * function NAME and contexts of SIZE bytes, of bpf_host_load_object and of bpf_host_run on zeros, the least of ROUNDS (20), of runs a hundred a
 * round; and what 1,000 customers hold who each loaded it, 15 to a host. Exits 1 where a call is refused. */
#define _POSIX_C_SOURCE 200809L
#include "bpf_host.h"
#include "measure.h"

#include <malloc.h>
#include <string.h>

enum { SLOTS = 4096, RUNS = 100, CONTEXT = 256, CUSTOMERS = 1000, TENANTS = 16, SPARE = 1 };

static const uint32_t HOSTS[][2] = {{2, 1}, {32, 2}, {64, 16}, {1024, 16}, {4096, 16}};

static uint8_t file[1 << 24];
static struct bpf_host_object object;
static struct bpf_host_refused refused;

/* Bytes that malloc has given out. */
static size_t held(void)
{
    struct mallinfo2 info = mallinfo2();
    return info.uordblks + info.hblkhd;
}

static uint32_t hosts(void)
{
    struct bpf_host_options options = BPF_HOST_OPTIONS;
    uint32_t code = 0;
    puts("| a host of | KiB | of these its frames |\n|---|---|---|");
    for (size_t at = 0; at < sizeof HOSTS / sizeof *HOSTS; at++) {
        struct bpf_host host = {0};
        size_t before = held();
        code |= bpf_host_new(HOSTS[at][0], HOSTS[at][1], &options, &host);
        printf("| %u frames, %u tenants | %zu | %u |\n", HOSTS[at][0], HOSTS[at][1], (held() - before) >> 10, HOSTS[at][0] * 4);
        bpf_host_free(&host);
    }
    return code;
}

static uint32_t programs(struct bpf_host *host)
{
    static uint8_t text[SLOTS * 8];
    uint32_t program, code = 0;
    for (int slot = 0; slot < SLOTS; slot++)
        text[slot * 8] = slot == SLOTS - 1 ? 0x95 : 0xb7;
    size_t before = held();
    code |= bpf_host_load(host, 1, text + (SLOTS - 2) * 8, 16, 0, &program, &refused);
    printf("\na program of 2 slots holds %zu bytes", held() - before);
    before = held();
    code |= bpf_host_load(host, 1, text, sizeof text, 0, &program, &refused);
    printf(", one of 4,096 %zu\n", held() - before);
    return code;
}

/* Loads the object, and keeps the least time. */
static uint32_t load(struct bpf_host *host, double *least, uint32_t *program)
{
    double begun = used();
    uint32_t code = bpf_host_load_object(host, 0, &object, false, program, &refused);
    keep_least(least, used() - begun);
    return code;
}

static uint32_t measure(struct bpf_host *host, int rounds, size_t size, const char *name, uint32_t context)
{
    static uint8_t zeros[CONTEXT];
    double reading = 1e18, loading = 1e18, running = 1e18;
    struct bpf_host_run run = {0, 0};
    uint32_t program = 0, code = 0;
    for (int round = 0; round < rounds && code == 0; round++) {
        double begun = used();
        code |= bpf_host_read_object(file, size, name, strlen(name), context, &object, &refused);
        keep_least(&reading, used() - begun);
        code |= load(host, &loading, &program);
        begun = used();
        for (int made = 0; made < RUNS; made++)
            code |= bpf_host_run(host, 0, program, zeros, context, &run, &refused);
        keep_least(&running, (used() - begun) / RUNS);
        bpf_host_unload(host, 0, program);
        for (uint32_t map = 0; map < 8; map++)
            bpf_host_drop_map(host, 0, map);
    }
    printf("reading %.0f us, loading %.0f us, a run of %u steps %.0f ns\n", reading / 1000, loading / 1000, run.steps, running);
    return code;
}

/* What 1,000 customers hold who each loaded the object: hosts of 16 tenants, one of which is spare, with two frames for each page of each
 * tenant's maps and two more, so that no call is refused for lack of them. */
static uint32_t customers(void)
{
    static struct bpf_host each[CUSTOMERS / (TENANTS - SPARE) + 1];
    struct bpf_host_options options = BPF_HOST_OPTIONS;
    uint32_t frames = (uint32_t)BPF_HOST_ENOUGH_FRAMES(TENANTS * bpf_host_object_pages(&object));
    uint32_t program, code = 0, hosts = 0;
    size_t before = held();
    for (uint32_t customer = 0; customer < CUSTOMERS; customer++) {
        uint32_t tenant = customer % (TENANTS - SPARE);
        if (tenant == 0)
            code |= bpf_host_new(frames, TENANTS, &options, &each[hosts++]);
        code |= bpf_host_load_object(&each[hosts - 1], tenant, &object, false, &program, &refused);
    }
    printf("%u customers in %u hosts hold %zu MiB\n", CUSTOMERS, hosts, (held() - before) >> 20);
    while (hosts > 0)
        bpf_host_free(&each[--hosts]);
    return code;
}

int main(int words, char **word)
{
    struct bpf_host_options options = BPF_HOST_OPTIONS;
    struct bpf_host host = {0};
    uint32_t code = hosts();
    code |= bpf_host_new(4096, 2, &options, &host);
    code |= programs(&host);
    if (words > 4) {
        FILE *upload = fopen(word[2], "rb");
        size_t size = upload ? fread(file, 1, sizeof file, upload) : 0;
        code |= measure(&host, number_of(words, word, 1, 20), size, word[3], (uint32_t)number_of(words, word, 4, 0));
        code |= customers();
    }
    bpf_host_free(&host);
    return code != 0;
}
