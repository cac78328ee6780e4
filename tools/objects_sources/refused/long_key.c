/* refused: the map `rows` has keys of 8 bytes */
#include "bpf_helpers.h"

struct {
    __uint(type, BPF_MAP_TYPE_ARRAY);
    __type(key, u64);
    __type(value, u64);
    __uint(max_entries, 16);
} rows SEC(".maps");

SEC("xdp")
int count(const u32 *context)
{
    u64 *value = bpf_map_lookup_elem(&rows, context);
    return value ? *value : 0;
}
