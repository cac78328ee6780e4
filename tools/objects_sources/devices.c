/* What is known of each device, by updates of whole values. */
#include "bpf_helpers.h"
#include "hooks.h"

struct device {
    u64 bytes;
    u64 sector;
    u32 priority;
    u32 writes;
};

struct {
    __uint(type, BPF_MAP_TYPE_ARRAY);
    __uint(max_entries, 40);
    __type(key, u32);
    __type(value, struct device);
} devices SEC(".maps");

SEC("raw_tracepoint/block_rq_issue")
long issue(const struct request *request)
{
    u32 key = request->device & 63;
    struct device known = { request->bytes, request->sector, request->priority, request->is_write };
    return bpf_map_update_elem(&devices, &key, &known, request->priority & 3);
}
