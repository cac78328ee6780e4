/* Calls of the library with a planted fault, each of which tests/isolation.c has to show: PLANT is its number. Linked with --wrap for each.
 *     1  an update is also written to the map of the next tenant
 *     2  a lookup shows how many frames are free
 *     3  a run makes one step more where pages share frames
 *     4  no run is made to its end while the next tenant's is open
 *     5  a map lacks frames where the next tenant has a second one
 *     6  no run ends
 *     7  no page is merged
 *     8  a refusal for want of frames doesn't say how many may be had
 *     9  of many runs the last one isn't made where pages share frames */
#include "bpf_host.h"

enum { NO_FRAMES = 31, NO_MAP = 34, BUSY = 36, NO_RUN = 37, TENANTS = 3, NO_PROGRAM_HAS = 99 };

uint32_t __real_bpf_host_update(struct bpf_host *host, uint32_t tenant, uint32_t map, uint32_t key, const uint8_t *value, size_t value_len,
                                struct bpf_host_refused *refused);
uint32_t __wrap_bpf_host_update(struct bpf_host *host, uint32_t tenant, uint32_t map, uint32_t key, const uint8_t *value, size_t value_len,
                                struct bpf_host_refused *refused);
uint32_t __real_bpf_host_lookup(struct bpf_host *host, uint32_t tenant, uint32_t map, uint32_t key, uint8_t *value, size_t value_len);
uint32_t __wrap_bpf_host_lookup(struct bpf_host *host, uint32_t tenant, uint32_t map, uint32_t key, uint8_t *value, size_t value_len);
uint32_t __real_bpf_host_run(struct bpf_host *host, uint32_t tenant, uint32_t program, const uint8_t *context, size_t context_len,
                             struct bpf_host_run *run, struct bpf_host_refused *refused);
uint32_t __wrap_bpf_host_run(struct bpf_host *host, uint32_t tenant, uint32_t program, const uint8_t *context, size_t context_len,
                             struct bpf_host_run *run, struct bpf_host_refused *refused);
uint32_t __real_bpf_host_run_many(struct bpf_host *host, uint32_t tenant, uint32_t program, const uint8_t *contexts, size_t contexts_len,
                                  uint64_t *rets, size_t rets_len, size_t *made, struct bpf_host_refused *refused);
uint32_t __wrap_bpf_host_run_many(struct bpf_host *host, uint32_t tenant, uint32_t program, const uint8_t *contexts, size_t contexts_len,
                                  uint64_t *rets, size_t rets_len, size_t *made, struct bpf_host_refused *refused);
uint32_t __real_bpf_host_step(struct bpf_host *host, uint32_t tenant, uint64_t steps, bool *ended, struct bpf_host_run *run);
uint32_t __wrap_bpf_host_step(struct bpf_host *host, uint32_t tenant, uint64_t steps, bool *ended, struct bpf_host_run *run);
uint32_t __real_bpf_host_create_map(struct bpf_host *host, uint32_t tenant, uint32_t value_size, uint32_t entries, bool mergeable, uint32_t *map,
                                    struct bpf_host_refused *refused);
uint32_t __wrap_bpf_host_create_map(struct bpf_host *host, uint32_t tenant, uint32_t value_size, uint32_t entries, bool mergeable, uint32_t *map,
                                    struct bpf_host_refused *refused);
uint32_t __real_bpf_host_visit(struct bpf_host *host, uint32_t visits, struct bpf_host_counters *after);
uint32_t __wrap_bpf_host_visit(struct bpf_host *host, uint32_t visits, struct bpf_host_counters *after);

static uint32_t next_tenant(uint32_t tenant)
{
    return (tenant + 1) % TENANTS;
}

uint32_t __wrap_bpf_host_update(struct bpf_host *host, uint32_t tenant, uint32_t map, uint32_t key, const uint8_t *value, size_t value_len,
                                struct bpf_host_refused *refused)
{
    struct bpf_host_refused ignored = {0};
    if (PLANT == 1)
        __real_bpf_host_update(host, next_tenant(tenant), map, key, value, value_len, &ignored);
    return __real_bpf_host_update(host, tenant, map, key, value, value_len, refused);
}

uint32_t __wrap_bpf_host_lookup(struct bpf_host *host, uint32_t tenant, uint32_t map, uint32_t key, uint8_t *value, size_t value_len)
{
    struct bpf_host_counters counters = {0};
    uint32_t code = __real_bpf_host_lookup(host, tenant, map, key, value, value_len);
    if (PLANT == 2 && code == 0 && bpf_host_counters(host, &counters) == 0)
        value[0] = (uint8_t)counters.frames_free;
    return code;
}

uint32_t __wrap_bpf_host_run(struct bpf_host *host, uint32_t tenant, uint32_t program, const uint8_t *context, size_t context_len,
                             struct bpf_host_run *run, struct bpf_host_refused *refused)
{
    struct bpf_host_counters counters = {0};
    if (PLANT == 6 || (PLANT == 4 && bpf_host_unload(host, next_tenant(tenant), NO_PROGRAM_HAS) == BUSY))
        return BUSY;
    uint32_t code = __real_bpf_host_run(host, tenant, program, context, context_len, run, refused);
    if (PLANT == 3 && code == 0 && bpf_host_counters(host, &counters) == 0)
        run->steps += counters.pages_sharing != 0;
    return code;
}

uint32_t __wrap_bpf_host_run_many(struct bpf_host *host, uint32_t tenant, uint32_t program, const uint8_t *contexts, size_t contexts_len,
                                  uint64_t *rets, size_t rets_len, size_t *made, struct bpf_host_refused *refused)
{
    struct bpf_host_counters counters = {0};
    if (PLANT == 6 || (PLANT == 4 && bpf_host_unload(host, next_tenant(tenant), NO_PROGRAM_HAS) == BUSY))
        return BUSY;
    if (PLANT == 9 && rets_len > 0 && bpf_host_counters(host, &counters) == 0 && counters.pages_sharing > 0)
        return __real_bpf_host_run_many(host, tenant, program, contexts, contexts_len - contexts_len / rets_len, rets, rets_len - 1, made, refused);
    return __real_bpf_host_run_many(host, tenant, program, contexts, contexts_len, rets, rets_len, made, refused);
}

uint32_t __wrap_bpf_host_step(struct bpf_host *host, uint32_t tenant, uint64_t steps, bool *ended, struct bpf_host_run *run)
{
    return PLANT == 6 ? NO_RUN : __real_bpf_host_step(host, tenant, steps, ended, run);
}

uint32_t __wrap_bpf_host_create_map(struct bpf_host *host, uint32_t tenant, uint32_t value_size, uint32_t entries, bool mergeable, uint32_t *map,
                                    struct bpf_host_refused *refused)
{
    uint8_t value[1];
    if (PLANT == 5 && __real_bpf_host_lookup(host, next_tenant(tenant), 1, 0, value, sizeof value) != NO_MAP)
        return NO_FRAMES;
    uint32_t code = __real_bpf_host_create_map(host, tenant, value_size, entries, mergeable, map, refused);
    if (PLANT == 8 && code == NO_FRAMES)
        refused->have = 0;
    return code;
}

uint32_t __wrap_bpf_host_visit(struct bpf_host *host, uint32_t visits, struct bpf_host_counters *after)
{
    return __real_bpf_host_visit(host, PLANT == 7 ? 0 : visits, after);
}
