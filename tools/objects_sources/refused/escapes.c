/* refused: an address of the stack is stored, or moved in a loop, out of the stack or by a number that isn't constant, and functions are called; mark these static __attribute__((always_inline)) */
#include "bpf_helpers.h"

struct request {
    u64 number;
};

static __noinline u64 chosen(u64 *word, u64 *other, u64 number)
{
    u64 *volatile kept = word;
    if (number & 1)
        kept = other;
    return *kept + number;
}

SEC("filter")
u64 escapes(const struct request *request)
{
    u64 word = request->number, other = 5;
    return chosen(&word, &other, word); /* refused here */
}
