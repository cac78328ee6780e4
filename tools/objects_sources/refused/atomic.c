/* refused: an atomic operation */
#include "bpf_helpers.h"

u64 count;

SEC("xdp")
int add(const u32 *context)
{
    __sync_fetch_and_add(&count, *context); /* refused here */
    return 0;
}
