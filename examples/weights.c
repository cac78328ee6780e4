/* Weighs packets by a table, and adds the weights up by class: an array map, a constant table, a function, and a loop. */
#include "bpf_helpers.h"

struct packet {
    u32 length;
    u8 front[60];
};

struct {
    __uint(type, BPF_MAP_TYPE_ARRAY);
    __type(key, u32);
    __type(value, u64);
    __uint(max_entries, 4);
} totals SEC(".maps");

static const u32 weights[8] = { 1, 3, 9, 27, 81, 243, 729, 2187 };

static __noinline u32 weight_of(u8 byte)
{
    return weights[byte & 7];
}

SEC("xdp")
u64 weigh(const struct packet *packet)
{
    u32 class = packet->length & 3;
    u64 *total = bpf_map_lookup_elem(&totals, &class);
    if (!total)
        return 0;
    for (u32 at = 0; at < 60; at++)
        *total += weight_of(packet->front[at]);
    return *total;
}

char LICENSE[] SEC("license") = "GPL";
