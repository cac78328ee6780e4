/* refused: `rows` in .maps is no struct that describes a map; each map is a variable of its own */
#include "bpf_helpers.h"

struct map {
    __uint(type, BPF_MAP_TYPE_ARRAY);
    __type(key, u32);
    __type(value, u64);
    __uint(max_entries, 4);
};

struct map rows[2] SEC(".maps");

SEC("xdp")
u64 count(const u32 *context)
{
    u32 key = 0;
    u64 *value = bpf_map_lookup_elem(&rows[1], &key);
    return value ? *value : *context;
}
