/* Maps as older libraries define them. */
#include "bpf_helpers.h"
#include "hooks.h"

struct bpf_map_def SEC("maps") users = {
    .type = BPF_MAP_TYPE_ARRAY,
    .key_size = sizeof(u32),
    .value_size = sizeof(u64),
    .max_entries = 32,
};

struct bpf_map_def SEC("maps") results = {
    .type = BPF_MAP_TYPE_ARRAY,
    .key_size = sizeof(u32),
    .value_size = 16,
    .max_entries = 4,
};

SEC("tracepoint/syscalls/sys_exit")
int result(const struct call *call)
{
    u32 user = call->user & 31, kind = call->result >> 63;
    u64 *calls = bpf_map_lookup_elem(&users, &user);
    u64 *sums = bpf_map_lookup_elem(&results, &kind);
    if (!calls || !sums)
        return 1;
    *calls += 1;
    sums[0] += call->result;
    sums[1] ^= call->number;
    return *calls;
}
