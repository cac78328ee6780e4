/* A function that is given the address of a variable of its caller, which keeps that address too. */
#include "bpf_helpers.h"
#include "hooks.h"

struct pair {
    u64 first;
    u64 second;
};

static __noinline u64 filled(struct pair *pair, u64 number)
{
    u64 words[3];
    volatile u64 *word = words;
    word[0] = number;
    word[1] = number >> 3;
    word[2] = word[0] ^ word[1];
    pair->first = word[2] + number;
    pair->second = word[1];
    return word[0] + word[2];
}

static __noinline u64 folded(u64 number)
{
    struct pair pair;
    u64 sum = filled(&pair, number);
    sum += filled(&pair, pair.second) * 5;
    return sum + pair.first;
}

SEC("fentry/submit")
u64 submit(const struct request *request)
{
    struct pair pair;
    u64 sum = request->sector, bytes = request->bytes;
    sum += filled(&pair, sum) + bytes;
    sum += folded(pair.first) - bytes;
    sum ^= filled(&pair, bytes);
    return sum + pair.second * bytes;
}
