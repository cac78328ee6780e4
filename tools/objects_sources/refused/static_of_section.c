/* refused with --section count: there are several functions, `helper` and `program` among them */
#include "bpf_helpers.h"

SEC("count") static __noinline u64 helper(u64 number)
{
    volatile u64 kept = number * 3;
    return kept;
}

SEC("count") static u64 program(const u32 *context)
{
    return helper(*context) + 1;
}
