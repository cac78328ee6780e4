/* Numbers with a sign: with -mcpu=v4 clang loads, extends and divides them by an instruction each, and swaps bytes by one. */
#include "bpf_helpers.h"
#include "hooks.h"

/* The magnitude of a number. */
static u32 magnitude(int number)
{
    return number < 0 ? 0u - (u32)number : (u32)number;
}

/* A quotient, rounded towards zero. What comes before -mcpu=v4 has no division of numbers with a sign. */
static int quotient(int number, int by)
{
#if defined __bpf__ && !defined __BPF_FEATURE_SDIV_SMOD
    u32 quotient = magnitude(number) / magnitude(by);
    return (int)((number < 0) == (by < 0) ? quotient : 0u - quotient);
#else
    return number / by;
#endif
}

SEC("xdp")
u64 signs(const struct packet *packet)
{
    const signed char *bytes = (const signed char *)packet->data;
    short half;
    __builtin_memcpy(&half, packet->data + 4, sizeof half);
    int by = bytes[0] < 0 ? -(bytes[1] & 7) - 2 : (bytes[1] & 7) + 1;
    int first = quotient(half, by), rest = half - first * by;
    long long wide = (long long)bytes[2] * half - (short)__builtin_bswap16((u16)half);
    return (u64)(wide * 31 + first) ^ __builtin_bswap64((u64)(long long)rest) ^ __builtin_bswap32((u32)(int)half);
}
