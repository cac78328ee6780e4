/* refused: there are several functions, `first` and `second` among them */
#include "bpf_helpers.h"

SEC("count") static u64 first(const u32 *context)
{
    return *context * 3ull;
}

SEC("count") static u64 second(const u32 *context)
{
    return *context + 1ull;
}
