/* refused: there are several functions, `first` and `second` among them */
#include "bpf_helpers.h"

SEC("xdp")
int first(const u32 *context)
{
    return *context;
}

SEC("tc")
int second(const u32 *context)
{
    return *context + 1;
}
