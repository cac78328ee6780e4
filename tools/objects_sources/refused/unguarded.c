/* refused with --context 8: refused 19 OutsideMap at */
#include "bpf_helpers.h"

u64 numbers[8];

SEC("xdp")
u64 look(const u64 *context)
{
    return numbers[*context & 15]; /* refused here */
}
