/* refused: a function calls itself, or one that calls it */
#include "bpf_helpers.h"

static __noinline u64 sum(u64 number)
{
    if (number > 7)
        return sum(number >> 1) * 3 + sum(number >> 2); /* refused here */
    return number;
}

SEC("xdp")
u64 add(const u64 *context)
{
    return sum(*context) + 1;
}
