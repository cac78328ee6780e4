/* refused: the field `pinning` of map `rows` is not taken */
#include "bpf_helpers.h"

struct {
    __uint(type, BPF_MAP_TYPE_ARRAY);
    __type(key, u32);
    __type(value, u64);
    __uint(max_entries, 16);
    __uint(pinning, 1);
} rows SEC(".maps");

SEC("xdp")
int count(const u32 *context)
{
    u64 *value = bpf_map_lookup_elem(&rows, context);
    return value ? *value : 0;
}
