/* refused: an address stands in a global variable */
#include "bpf_helpers.h"

u32 first, second;
u32 *volatile numbers[2] = { &first, &second };

SEC("xdp")
int load(const u32 *context)
{
    return *numbers[*context & 1];
}
