/* IPv4 from or to 10.0.0.7, and ARP that names it: what libpcap calls `host 10.0.0.7`. */
#include "filter.h"

#define HOST 0x0a000007

/* The barrier keeps the compiler from making one load of two, at an address that the verifier doesn't know. */
static inline __attribute__((always_inline)) u64 has_host(u32 from, u32 to)
{
    asm volatile("" : "+r"(from), "+r"(to));
    return from == HOST || to == HOST;
}

u64 host(const struct packet *packet)
{
    const u8 *bytes = packet->bytes;
    u32 kind = short_at(bytes + 12);
    if (kind == 0x0800)
        return has_host(word_at(bytes + 26), word_at(bytes + 30));
    if (kind == 0x0806 || kind == 0x8035)
        return has_host(word_at(bytes + 28), word_at(bytes + 38));
    return 0;
}
