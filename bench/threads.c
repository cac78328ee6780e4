/* How many runs several threads make in a second: on one host behind a lock, on many hosts with a lock each, or with a host for each thread:
 * threads [RUNS]
 *
 * A run is that of the counter of `examples/shared_pages.toml`, 11 steps with a lookup, a load and a store. Each thread makes RUNS runs (1,000,000),
 * for a tenant of its own, or on the many hosts each for one of a thousand tenants that is drawn, so that any thread serves any tenant. The time is
 * that from when all have started until the last one ends. Exits 1 where a call is refused, or the counters say another number than the runs. */
#define _POSIX_C_SOURCE 200809L
#include "bpf_host.h"
#include "measure.h"

#include <pthread.h>

enum { RUNS = 1000000, MOST = 8, TENANTS = 1000, OF_A_HOST = 16, HOSTS = (TENANTS + OF_A_HOST - 1) / OF_A_HOST };

enum way { ONE_HOST, MANY_HOSTS, OWN_HOSTS };

static const uint8_t COUNTER[] = {
    0x62, 0x0a, 0xfc, 0xff, 0, 0, 0, 0,                     /* *(u32 *)(r10 - 4) = 0 */
    0xbf, 0xa2, 0, 0, 0, 0, 0, 0,                           /* r2 = r10 */
    0x07, 0x02, 0, 0, 0xfc, 0xff, 0xff, 0xff,               /* r2 += -4 */
    0x18, 0x11, 0, 0, 0, 0, 0, 0, 0, 0, 0, 0, 0, 0, 0, 0,   /* r1 = map 0 */
    0x85, 0, 0, 0, 0x01, 0, 0, 0,                           /* call map_lookup_elem */
    0x55, 0x00, 0x02, 0, 0, 0, 0, 0,                        /* if r0 != 0 goto +2 */
    0xb7, 0, 0, 0, 0, 0, 0, 0,                              /* r0 = 0 */
    0x95, 0, 0, 0, 0, 0, 0, 0,                              /* exit */
    0x79, 0x01, 0, 0, 0, 0, 0, 0,                           /* r1 = *(u64 *)(r0 + 0) */
    0x07, 0x01, 0, 0, 0x01, 0, 0, 0,                        /* r1 += 1 */
    0x7b, 0x10, 0, 0, 0, 0, 0, 0,                           /* *(u64 *)(r0 + 0) = r1 */
    0xbf, 0x10, 0, 0, 0, 0, 0, 0,                           /* r0 = r1 */
    0x95, 0, 0, 0, 0, 0, 0, 0,                              /* exit */
};

/* A host and its lock. A call writes to the handle, so no two of them lie in one line of the cache. */
struct place {
    _Alignas(64) struct bpf_host host;
    pthread_mutex_t lock;
};

/* A thread, what it draws tenants by, and whether a call was refused. */
struct worker {
    _Alignas(64) pthread_t thread;
    pthread_barrier_t *start;
    enum way way;
    uint32_t number, runs, failed;
    uint64_t drawn;
};

static struct place places[HOSTS];

/* The tenant of a worker's next run, counted over all hosts. */
static uint32_t next_tenant(struct worker *worker)
{
    if (worker->way != MANY_HOSTS)
        return worker->number * (worker->way == OWN_HOSTS ? OF_A_HOST : 1);
    worker->drawn = worker->drawn * 6364136223846793005u + 1442695040888963407u;
    return (uint32_t)((worker->drawn >> 32) * TENANTS >> 32);
}

static uint32_t run_once(struct worker *worker)
{
    struct bpf_host_run run = {0, 0};
    struct bpf_host_refused refused = {0};
    uint8_t none[1] = {0};
    uint32_t tenant = next_tenant(worker);
    struct place *place = &places[tenant / OF_A_HOST];
    if (worker->way != OWN_HOSTS)
        pthread_mutex_lock(&place->lock);
    uint32_t code = bpf_host_run(&place->host, tenant % OF_A_HOST, 0, none, 0, &run, &refused);
    if (worker->way != OWN_HOSTS)
        pthread_mutex_unlock(&place->lock);
    return code;
}

static void *work(void *argument)
{
    struct worker *worker = argument;
    pthread_barrier_wait(worker->start);
    for (uint32_t run = 0; run < worker->runs; run++)
        worker->failed |= run_once(worker);
    return NULL;
}

/* Opens a host whose tenants have a map and the counter each. */
static uint32_t open_counters(struct place *place)
{
    struct bpf_host_options options = BPF_HOST_OPTIONS;
    struct bpf_host_refused refused = {0};
    uint32_t made, code = bpf_host_new(BPF_HOST_ENOUGH_FRAMES(OF_A_HOST), OF_A_HOST, &options, &place->host);
    for (uint32_t tenant = 0; tenant < OF_A_HOST; tenant++) {
        code |= bpf_host_create_map(&place->host, tenant, 8, 1, false, &made, &refused);
        code |= bpf_host_load(&place->host, tenant, COUNTER, sizeof COUNTER, 0, &made, &refused);
    }
    return code | (uint32_t)pthread_mutex_init(&place->lock, NULL);
}

/* Closes a host, and adds up what its tenants counted. */
static uint64_t close_counters(struct place *place, uint32_t *failed)
{
    uint64_t sum = 0;
    for (uint32_t tenant = 0; tenant < OF_A_HOST; tenant++) {
        uint64_t count = 0;
        *failed |= bpf_host_lookup(&place->host, tenant, 0, 0, (uint8_t *)&count, sizeof count);
        sum += count;
    }
    bpf_host_free(&place->host);
    pthread_mutex_destroy(&place->lock);
    return sum;
}

/* Millions of runs a second by so many threads. */
static double measured(uint32_t threads, enum way way, uint32_t runs, uint32_t *failed)
{
    static struct worker workers[MOST];
    uint32_t hosts = way == ONE_HOST ? 1 : way == OWN_HOSTS ? threads : HOSTS;
    uint64_t counted = 0;
    pthread_barrier_t start;
    pthread_barrier_init(&start, NULL, threads + 1);
    for (uint32_t at = 0; at < hosts; at++)
        *failed |= open_counters(&places[at]);
    for (uint32_t at = 0; at < threads; at++) {
        struct worker *worker = &workers[at];
        *worker = (struct worker){.start = &start, .way = way, .number = at, .runs = runs, .drawn = at};
        *failed |= (uint32_t)pthread_create(&worker->thread, NULL, work, worker);
    }
    double began = now();
    pthread_barrier_wait(&start);
    for (uint32_t at = 0; at < threads; at++)
        pthread_join(workers[at].thread, NULL);
    double spent = now() - began;
    for (uint32_t at = 0; at < threads; at++)
        *failed |= workers[at].failed;
    for (uint32_t at = 0; at < hosts; at++)
        counted += close_counters(&places[at], failed);
    *failed |= counted != threads * (uint64_t)runs;
    pthread_barrier_destroy(&start);
    return threads * (double)runs / spent * 1e3;
}

int main(int words, char **word)
{
    uint32_t runs = (uint32_t)number_of(words, word, 1, RUNS), failed = 0;
    printf("| threads | one host and a lock, million runs a second | %d hosts, a lock each | a host each |\n|---|---|---|---|\n", HOSTS);
    for (uint32_t threads = 1; threads <= MOST; threads *= 2) {
        double one = measured(threads, ONE_HOST, runs, &failed), many = measured(threads, MANY_HOSTS, runs, &failed);
        printf("| %u | %.1f | %.1f | %.1f |\n", threads, one, many, measured(threads, OWN_HOSTS, runs, &failed));
    }
    return failed != 0;
}
