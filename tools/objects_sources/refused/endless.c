/* refused with --context 8: not lowered: no range ends the loop */
#include "bpf_helpers.h"

SEC("xdp")
u64 steps(const u64 *context)
{
    u64 number = *context, count = 0;
    while (number != 1) {
        number = number & 1 ? number * 3 + 1 : number >> 1; /* refused here */
        count++;
    }
    return count;
}
