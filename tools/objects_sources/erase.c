/* An update where the element is wanted not to be there, and a delete: an array refuses both. */
#include "bpf_helpers.h"
#include "hooks.h"

struct {
    __uint(type, BPF_MAP_TYPE_ARRAY);
    __type(key, u32);
    __type(value, u32);
    __uint(max_entries, 8);
} slots SEC(".maps");

SEC("lsm/erase")
long erase(const struct call *call)
{
    u32 key = call->process & 15, value = call->user;
    if (call->number & 1)
        return bpf_map_delete_elem(&slots, &key);
    return bpf_map_update_elem(&slots, &key, &value, call->number >> 1 & 3);
}
