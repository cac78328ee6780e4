/* Sixteen threads, each with a host of its own and that with sixteen tenants: a million runs in all. Each tenant counts its runs in a map, while
 * the scanner of its host merges what is equal, in two passes at every 64th run, so that pages are shared and part again; each run's answer and each
 * value is to be the tenant's own count. Each host is opened before its thread starts, and freed once that has ended. */
#include "../check.h"

#include <pthread.h>

enum { THREADS = 16, TENANTS = 16, RUNS = 62500 };

/* A thread, the host that it takes over, what it counted that was wrong, and how many pages shared another one's frame after all visits. */
struct worker {
    pthread_t thread;
    struct bpf_host host;
    unsigned wrong;
    uint64_t sharing;
};

/* The bytes of a text in hex, spaces left out: how many. */
static size_t text_of(const char *hex, uint8_t *bytes)
{
    size_t length = 0;
    unsigned byte;
    int read;
    while (sscanf(hex, " %2x%n", &byte, &read) == 1) {
        bytes[length++] = (uint8_t)byte;
        hex += read;
    }
    return length;
}

/* A host whose tenants have a map and the counter each: how many calls failed. */
static unsigned open_counters(struct bpf_host *host)
{
    struct bpf_host_options options = BPF_HOST_OPTIONS;
    struct bpf_host_refused refused = {0};
    uint8_t text[256];
    size_t length = text_of(COUNTER, text);
    uint32_t made;
    unsigned wrong = bpf_host_new(64, TENANTS, &options, host) != 0;
    for (uint32_t tenant = 0; tenant < TENANTS; tenant++) {
        wrong += bpf_host_create_map(host, tenant, 8, 1, true, &made, &refused) != 0;
        wrong += bpf_host_load(host, tenant, text, length, 0, &made, &refused) != 0;
    }
    return wrong;
}

/* A run of a tenant, its latest of so many: whether it is wrong. */
static unsigned run_wrong(struct bpf_host *host, uint32_t tenant, uint64_t count)
{
    struct bpf_host_run run = {0, 0};
    struct bpf_host_refused refused = {0};
    uint8_t none[1] = {0};
    uint32_t code = bpf_host_run(host, tenant, 0, none, 0, &run, &refused);
    return code != 0 || run.ret != count || run.steps != 11;
}

/* A tenant's value: whether it isn't its count. */
static unsigned value_wrong(struct bpf_host *host, uint32_t tenant, uint64_t count)
{
    uint64_t value = 0;
    uint32_t code = bpf_host_lookup(host, tenant, 0, 0, (uint8_t *)&value, sizeof value);
    return code != 0 || value != count;
}

static void *work(void *given)
{
    struct worker *worker = given;
    struct bpf_host *host = &worker->host;
    struct bpf_host_counters after = {0};
    for (uint32_t number = 0; number < RUNS; number++) {
        worker->wrong += run_wrong(host, number % TENANTS, number / TENANTS + 1);
        if (number % 64 == 0) {
            worker->wrong += bpf_host_visit(host, 2 * TENANTS, &after) != 0;
            worker->sharing += after.pages_sharing;
        }
    }
    for (uint32_t tenant = 0; tenant < TENANTS; tenant++)
        worker->wrong += value_wrong(host, tenant, RUNS / TENANTS + (tenant < RUNS % TENANTS));
    return NULL;
}

int main(void)
{
    static struct worker workers[THREADS];
    unsigned wrong = 0;
    uint64_t sharing = 0;
    for (int i = 0; i < THREADS; i++) {
        workers[i].wrong = open_counters(&workers[i].host);
        if (pthread_create(&workers[i].thread, NULL, work, &workers[i]) != 0)
            return 2;
    }
    for (int i = 0; i < THREADS; i++) {
        pthread_join(workers[i].thread, NULL);
        bpf_host_free(&workers[i].host);
        wrong += workers[i].wrong + (workers[i].sharing == 0);
        sharing += workers[i].sharing;
    }
    printf("%d threads, %d runs, pages shared %llu times: %u wrong\n", THREADS, THREADS * RUNS, (unsigned long long)sharing, wrong);
    return wrong != 0;
}
