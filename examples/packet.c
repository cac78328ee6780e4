/* The port that a packet is sent to: of UDP over IPv4, whose header has 20 to 60 bytes, by its first byte. The
   packet's first 64 bytes are the context. Answers 0 for another packet. */
typedef unsigned char u8;
typedef unsigned short u16;
typedef unsigned long long u64;

/* An address moves by constants alone, so each length has an arm of its own. The barrier keeps the compiler
   from making one load of all of them, at an address that isn't known. */
#define ARM(words) \
    case words: \
        port = *(const u16 *)(packet + 4 * words + 2); \
        asm volatile("" : "+r"(port)); \
        break;

u64 port(const u8 *packet)
{
    u64 port = 0;
    if (packet[0] >> 4 != 4 || packet[9] != 17)
        return 0;
    switch (packet[0] & 15) {
        ARM(5) ARM(6) ARM(7) ARM(8) ARM(9) ARM(10) ARM(11) ARM(12) ARM(13) ARM(14) ARM(15)
    }
    return __builtin_bswap16(port);
}
