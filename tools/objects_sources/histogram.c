/* A histogram of latencies by powers of two. */
#include "bpf_helpers.h"
#include "hooks.h"

struct {
    __uint(type, BPF_MAP_TYPE_ARRAY);
    __uint(max_entries, 64);
    __type(key, u32);
    __type(value, u32);
} histogram SEC(".maps");

static __always_inline u32 log2(u64 value)
{
    u32 log = 0;
    if (value >> 32) { value >>= 32; log += 32; }
    if (value >> 16) { value >>= 16; log += 16; }
    if (value >> 8) { value >>= 8; log += 8; }
    if (value >> 4) { value >>= 4; log += 4; }
    if (value >> 2) { value >>= 2; log += 2; }
    if (value >> 1) log += 1;
    return log;
}

SEC("kprobe/blk_done")
int done(const struct request *request)
{
    u32 key = log2(request->completed - request->issued);
    u32 *count = bpf_map_lookup_elem(&histogram, &key);
    if (!count)
        return -1;
    *count += 1;
    return *count;
}
