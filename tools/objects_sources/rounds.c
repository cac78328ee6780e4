/* A loop that stays one: the host takes it once it is lowered. */
#include "bpf_helpers.h"
#include "hooks.h"

struct {
    __uint(type, BPF_MAP_TYPE_ARRAY);
    __type(key, u32);
    __type(value, u32[8]);
    __uint(max_entries, 2);
} rows SEC(".maps");

SEC("tc")
u64 rounds(const struct packet *packet)
{
    u32 key = packet->interface & 1;
    u32 *row = bpf_map_lookup_elem(&rows, &key);
    u64 sum = 0;
    if (!row)
        return 0;
#pragma clang loop unroll(disable)
    for (u64 i = 0; i < 8; i++) {
        row[i] += packet->length >> i;
        sum = sum * 3 + row[i];
    }
    return sum;
}
