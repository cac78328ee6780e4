/* refused: the map `rows` has values of 4097 bytes and 1 entries */
#include "bpf_helpers.h"

struct {
    __uint(type, BPF_MAP_TYPE_ARRAY);
    __type(key, u32);
    __type(value, u8[4097]);
    __uint(max_entries, 1);
} rows SEC(".maps");

SEC("xdp")
int count(const u32 *context)
{
    u8 *value = bpf_map_lookup_elem(&rows, context);
    return value ? *value : 0;
}
