/* Three filters for WebAssembly, which main.c calls: two instructions, the counter of examples/shared_pages.toml, and `done` of
 * tools/objects_sources/histogram.c, with the maps of both. */
#include "bpf_helpers.h"

int done(const void *request);

static u64 counts[1];
static u32 histogram[64];
static const int counter_map;
static u8 context[256];

__attribute__((noinline)) void *bpf_map_lookup_elem(void *map, const void *key)
{
    u32 number = *(const u32 *)key;
    if (map == &counter_map)
        return number < 1 ? &counts[number] : 0;
    return number < 64 ? &histogram[number] : 0;
}

__attribute__((export_name("context_at"))) void *context_at(void)
{
    return context;
}

__attribute__((export_name("two"))) u64 two(void)
{
    return 42;
}

__attribute__((export_name("counter"))) u64 counter(void)
{
    u32 key = 0;
    u64 *value = bpf_map_lookup_elem((void *)&counter_map, &key);
    if (!value)
        return 0;
    return ++*value;
}

__attribute__((export_name("slot"))) u64 slot(void)
{
    return (u64)done(context);
}
