/* refused: `elsewhere` is not defined in this file */
#include "bpf_helpers.h"

int elsewhere(u32 number);

SEC("xdp")
int call(const u32 *context)
{
    return elsewhere(*context) + 1; /* refused here */
}
