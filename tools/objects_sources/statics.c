/* Static functions, which the compiler copies to where they are called, and a static counter of each. */
#include "bpf_helpers.h"
#include "hooks.h"

static u32 calls;
static u32 slow = 1;

static u64 scaled(u64 time, u32 by)
{
    calls += 1;
    return time * by + (time >> 3);
}

static u64 latency(const struct call *call)
{
    u64 time = call->end - call->begin;
    if (time > 1000000)
        slow += scaled(time, 2);
    return scaled(time, 3);
}

SEC("tracepoint/syscalls/sys_exit")
u64 trace(const struct call *call)
{
    return latency(call) + slow + calls;
}
