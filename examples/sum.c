/* The sum of the context's 32-bit words that are above 9. */
typedef unsigned int u32;
typedef unsigned long long u64;

u64 sum(const u32 *context)
{
    u64 sum = 0;
#pragma clang loop unroll(full)
    for (int i = 0; i < 8; i++)
        if (context[i] > 9)
            sum += context[i];
    return sum;
}
