/* TCP from or to port 80, over IPv4 or IPv6: what libpcap calls `tcp port 80`. */
#include "filter.h"

/* The ports of TCP after a header of so many words, both in one number. */
#define ARM(words) \
    case words: \
        ports = word_at(bytes + 14 + 4 * words); \
        asm volatile("" : "+r"(ports)); \
        break;

static inline __attribute__((always_inline)) u64 has_port(u32 ports)
{
    return ports >> 16 == 80 || (ports & 0xffff) == 80;
}

static inline __attribute__((always_inline)) u64 ipv4(const u8 *bytes)
{
    u32 ports = 0;
    /* Only the first fragment has the ports. */
    if (bytes[23] != 6 || (short_at(bytes + 20) & 0x1fff) != 0)
        return 0;
    switch (bytes[14] & 15) {
        ARM(5) ARM(6) ARM(7) ARM(8) ARM(9) ARM(10) ARM(11) ARM(12) ARM(13) ARM(14) ARM(15)
    }
    return has_port(ports);
}

u64 port80(const struct packet *packet)
{
    const u8 *bytes = packet->bytes;
    u32 kind = short_at(bytes + 12);
    if (kind == 0x0800)
        return ipv4(bytes);
    if (kind == 0x86dd && bytes[20] == 6)
        return has_port(word_at(bytes + 54));
    return 0;
}
