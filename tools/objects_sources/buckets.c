/* A limiter of packets by interface: a bucket of tokens that fills by one a tick, and how often each answer was given. */
#include "bpf_helpers.h"
#include "hooks.h"

struct bucket {
    u64 time;
    u64 tokens;
    u32 dropped;
};

struct {
    __uint(type, BPF_MAP_TYPE_ARRAY);
    __uint(max_entries, 64);
    __type(key, u32);
    __type(value, struct bucket);
} buckets SEC(".maps");

struct {
    __uint(type, BPF_MAP_TYPE_ARRAY);
    __uint(key_size, sizeof(u32));
    __uint(value_size, sizeof(u64));
    __uint(max_entries, 3);
    __uint(map_flags, 0);
} answers SEC(".maps");

static __always_inline int answered(u32 answer)
{
    u64 *count = bpf_map_lookup_elem(&answers, &answer);
    if (count)
        *count += 1;
    return answer;
}

SEC("tc")
int limit(const struct packet *packet)
{
    u32 key = packet->interface;
    struct bucket *bucket = bpf_map_lookup_elem(&buckets, &key);
    if (!bucket)
        return answered(2);
    u64 tokens = bucket->tokens + (packet->length - bucket->time);
    if (tokens > 8)
        tokens = 8;
    bucket->time = packet->length;
    if (!tokens) {
        bucket->dropped += 1;
        return answered(0);
    }
    bucket->tokens = tokens - 1;
    return answered(1);
}
