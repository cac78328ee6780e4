/* Lets the first LIMIT packets to each port below 1024 pass, and drops all others: an array map of counters. */
#include "bpf_helpers.h"

#define LIMIT 1

enum verdict { DROP, PASS };

/* What the host's program passes of a packet. */
struct packet {
    u16 port;
    u16 length;
    u32 source;
};

struct {
    __uint(type, BPF_MAP_TYPE_ARRAY);
    __type(key, u32);
    __type(value, u64);
    __uint(max_entries, 1024);
} counts SEC(".maps");

SEC("filter")
u64 admit(const struct packet *packet)
{
    u32 port = packet->port;
    u64 *count = bpf_map_lookup_elem(&counts, &port);
    if (!count)
        return DROP;
    return ++*count <= LIMIT ? PASS : DROP;
}

char LICENSE[] SEC("license") = "GPL";
