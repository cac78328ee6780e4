/* A moving average over sixteen requests, in sections of data with names of their own. */
#include "bpf_helpers.h"
#include "hooks.h"

SEC(".data.window") u32 window[16] = { 8, 7, 6, 5, 4, 3, 2, 1 };
SEC(".data.next") u32 next = 5;
u64 sum = 36;

SEC("fentry/submit")
u64 submit(const struct request *request)
{
    u64 at = next & 15;
    sum -= window[at];
    window[at] = request->bytes;
    sum += request->bytes;
    next = at + 1;
    return sum / 16;
}
