/* refused: the field `value_size` of map `rows` says another number than one before it */
#include "bpf_helpers.h"

struct {
    __uint(type, BPF_MAP_TYPE_ARRAY);
    __type(key, u32);
    __type(value, u64);
    __uint(value_size, 64);
    __uint(max_entries, 4);
} rows SEC(".maps");

SEC("xdp")
u64 count(const u32 *context)
{
    u32 key = 0;
    u64 *value = bpf_map_lookup_elem(&rows, &key);
    return value ? *value : *context;
}
