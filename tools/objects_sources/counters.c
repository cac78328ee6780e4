/* Counts packets by protocol, and passes those whose first byte is low. */
#include "bpf_helpers.h"
#include "hooks.h"

struct {
    __uint(type, BPF_MAP_TYPE_ARRAY);
    __type(key, u32);
    __type(value, u64);
    __uint(max_entries, 256);
} counts SEC(".maps");

SEC("xdp")
int count(const struct packet *packet)
{
    u32 key = packet->data[9];
    u64 *value = bpf_map_lookup_elem(&counts, &key);
    if (!value)
        return 0;
    *value += 1;
    return packet->data[0] < 100 ? 2 : 1;
}

char LICENSE[] SEC("license") = "GPL";
