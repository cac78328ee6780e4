/* Serves many customers from several threads: hosts of 16 tenants, each behind a lock, so that any thread takes any customer's request
 * (docs/EMBEDDING.md). At the top:
 *
 *     clang -g -O2 -mcpu=v3 -target bpf -c examples/caps.c -o caps.o
 *     cc -pthread examples/pool.c -Iinclude $(tools/static_library) -o pool && ./pool caps.o
 *
 * Four threads bring 40,000 requests to the filters of 100 customers, while a fifth one replaces each filter by a new version with the same maps. It
 * prints `passed 800, too many 39200, counted 40000`: each thread is a client of each customer, two of whose requests pass, and none is lost. */
#define _POSIX_C_SOURCE 200809L
#include "bpf_host.h"
#include <pthread.h>
#include <stdio.h>
#include <stdlib.h>
#include <string.h>

enum {
    CUSTOMERS = 100,
    TENANTS = 16, /* of a host, the most there are */
    SHARDS = (CUSTOMERS + TENANTS - 1) / TENANTS,
    QUOTA = 4, /* the most pages of 4 KiB that a customer's maps may take */
    THREADS = 4,
    REQUESTS = 10000, /* of each thread */
    LINE = 64         /* the bytes of a line of the processor's caches */
};

/* A host, what its tenants run, and the lock for both. A call writes to the handle, so no two shards have a cache line in common. */
struct shard {
    _Alignas(LINE) pthread_mutex_t lock;
    struct bpf_host host;
    uint32_t programs[TENANTS];
};

/* A `struct request` of examples/caps.c. */
struct request {
    uint32_t client, minute;
};

/* A thread, the client that it stands for, and how many of its requests passed or were too many. */
struct worker {
    _Alignas(LINE) pthread_t thread;
    uint32_t client, passed, too_many;
};

static struct shard shards[SHARDS];
static uint8_t file[1 << 20];
static struct bpf_host_object object;

/* Ends the program where it can't go on. */
static void must(uint32_t code)
{
    if (code != 0) {
        fprintf(stderr, "%s %s\n", bpf_host_code_name(code), object.why);
        exit(1);
    }
}

static struct shard *shard_of(uint32_t customer)
{
    return &shards[customer / TENANTS];
}

static void open_shards(void)
{
    struct bpf_host_options defaults = BPF_HOST_OPTIONS;
    for (int at = 0; at < SHARDS; at++) {
        must((uint32_t)pthread_mutex_init(&shards[at].lock, NULL));
        must(bpf_host_new(BPF_HOST_ENOUGH_FRAMES(TENANTS * QUOTA), TENANTS, &defaults, &shards[at].host));
    }
}

/* Reads an upload, which verifies it. That needs no host, so no lock. */
static void read_upload(const char *path)
{
    struct bpf_host_refused refused;
    FILE *upload = fopen(path, "rb");
    if (!upload) {
        perror(path);
        exit(1);
    }
    size_t size = fread(file, 1, sizeof file, upload);
    fclose(upload);
    must(bpf_host_read_object(file, size, "admit", strlen("admit"), sizeof(struct request), &object, &refused));
    must(bpf_host_object_pages(&object) > QUOTA ? BPF_HOST_NO_FRAMES : 0);
}

/* Creates a customer's maps, and loads its first program. */
static uint32_t load(uint32_t customer)
{
    struct shard *shard = shard_of(customer);
    struct bpf_host_refused refused;
    uint32_t tenant = customer % TENANTS;
    pthread_mutex_lock(&shard->lock);
    uint32_t code = bpf_host_load_object(&shard->host, tenant, &object, false, &shard->programs[tenant], &refused);
    pthread_mutex_unlock(&shard->lock);
    return code;
}

/* Replaces a customer's program by one with the same maps, which keep their values. Requests of its shard wait while the new one is verified. */
static uint32_t replace(uint32_t customer)
{
    struct shard *shard = shard_of(customer);
    struct bpf_host_refused refused;
    uint32_t tenant = customer % TENANTS;
    pthread_mutex_lock(&shard->lock);
    uint32_t code = bpf_host_replace(&shard->host, tenant, &object, &shard->programs[tenant], &refused);
    pthread_mutex_unlock(&shard->lock);
    return code;
}

/* Asks a customer's filter: the status that it answers, or 503 if its run was refused. */
static uint64_t ask(uint32_t customer, const struct request *request)
{
    struct shard *shard = shard_of(customer);
    struct bpf_host_run run = {0, 0};
    struct bpf_host_refused refused;
    uint32_t tenant = customer % TENANTS;
    pthread_mutex_lock(&shard->lock);
    uint32_t code = bpf_host_run(&shard->host, tenant, shard->programs[tenant], (const uint8_t *)request, sizeof *request, &run, &refused);
    pthread_mutex_unlock(&shard->lock);
    return code == 0 ? run.ret : 503;
}

/* Brings requests of one client, each to another customer than the one before. */
static void *work(void *argument)
{
    struct worker *worker = argument;
    for (uint32_t at = 0; at < REQUESTS; at++) {
        struct request request = {worker->client, 0};
        uint64_t status = ask((at + worker->client) * 37 % CUSTOMERS, &request);
        worker->passed += status == 200;
        worker->too_many += status == 429;
    }
    return NULL;
}

/* How many requests the filters counted, in the values of their map. */
static uint32_t counted(void)
{
    uint32_t sum = 0, map = bpf_host_map_named(&object, "windows");
    for (uint32_t customer = 0; customer < CUSTOMERS; customer++)
        for (uint32_t client = 0; client < THREADS; client++) {
            uint32_t window[2] = {0, 0};
            must(bpf_host_lookup(&shard_of(customer)->host, customer % TENANTS, map, client, (uint8_t *)window, sizeof window));
            sum += window[1];
        }
    return sum;
}

int main(int argc, char **argv)
{
    static struct worker workers[THREADS];
    uint32_t passed = 0, too_many = 0;
    if (argc != 2 || bpf_host_version() != BPF_HOST_VERSION)
        return 1;
    read_upload(argv[1]);
    open_shards();
    for (uint32_t customer = 0; customer < CUSTOMERS; customer++)
        must(load(customer));
    for (uint32_t at = 0; at < THREADS; at++) {
        workers[at].client = at;
        must((uint32_t)pthread_create(&workers[at].thread, NULL, work, &workers[at]));
    }
    for (uint32_t customer = 0; customer < CUSTOMERS; customer++)
        must(replace(customer));
    for (int at = 0; at < THREADS; at++) {
        pthread_join(workers[at].thread, NULL);
        passed += workers[at].passed, too_many += workers[at].too_many;
    }
    printf("passed %u, too many %u, counted %u\n", passed, too_many, counted());
    for (int at = 0; at < SHARDS; at++) {
        bpf_host_free(&shards[at].host);
        pthread_mutex_destroy(&shards[at].lock);
    }
    return 0;
}
