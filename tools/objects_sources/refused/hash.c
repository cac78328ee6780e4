/* refused: the map `pairs` has type 1 */
#include "bpf_helpers.h"

struct {
    __uint(type, BPF_MAP_TYPE_HASH);
    __type(key, u32);
    __type(value, u64);
    __uint(max_entries, 16);
} pairs SEC(".maps");

SEC("xdp")
int count(const u32 *context)
{
    u64 *value = bpf_map_lookup_elem(&pairs, context);
    return value ? *value : 0;
}
