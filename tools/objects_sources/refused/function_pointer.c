/* refused: the address of function `less` is taken; call it by name */
#include "bpf_helpers.h"

static __noinline u64 applied(u64 (*function)(u64), u64 number)
{
    return function(number) + 1;
}

static __noinline u64 more(u64 number)
{
    return number + 1;
}

static __noinline u64 less(u64 number)
{
    return number - 1;
}

SEC("xdp")
u64 chosen(const u32 *context)
{
    return applied(*context ? more : less, *context);
}
