/* Two programs of one file, which share a map and a global: the tool asks for one of them. */
#include "bpf_helpers.h"
#include "hooks.h"

struct {
    __uint(type, BPF_MAP_TYPE_ARRAY);
    __type(key, u32);
    __type(value, u64);
    __uint(max_entries, 16);
} shared SEC(".maps");

u32 seen = 3;

SEC("xdp/first")
int first(const struct packet *packet)
{
    u32 key = packet->data[0] & 15;
    u64 *value = bpf_map_lookup_elem(&shared, &key);
    if (value)
        *value += seen++;
    return seen;
}

SEC("xdp/second")
int second(const struct packet *packet)
{
    u32 key = packet->data[1] & 15;
    u64 *value = bpf_map_lookup_elem(&shared, &key);
    seen += 2;
    return value ? *value + seen : 0;
}
