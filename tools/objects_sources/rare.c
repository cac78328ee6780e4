/* Functions that are rarely and often called, which clang puts into sections .text.unlikely. and .text.hot.: none of them is the program. */
#include "bpf_helpers.h"
#include "hooks.h"

__attribute__((cold, noinline)) u64 rare(u64 number)
{
    volatile u64 kept = number * 3;
    return kept;
}

__attribute__((hot, noinline)) u64 frequent(u64 number)
{
    volatile u64 kept = number + 5;
    return kept;
}

SEC("fentry/submit")
u64 submit(const struct request *request)
{
    u64 bytes = request->bytes;
    return bytes % 4 == 1 ? rare(request->sector) : frequent(bytes);
}
