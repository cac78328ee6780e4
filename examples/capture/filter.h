/* What a filter of capture.c is given: the packet's length, and its first 248 bytes, with zeros after a shorter one. */
typedef unsigned char u8;
typedef unsigned short u16;
typedef unsigned int u32;
typedef unsigned long long u64;

struct packet {
    u64 length;
    u8 bytes[248];
};

/* Numbers of two and four bytes as they stand in a packet, the highest byte first. */
static inline __attribute__((always_inline)) u32 short_at(const u8 *bytes)
{
    return __builtin_bswap16(*(const u16 *)bytes);
}

static inline __attribute__((always_inline)) u32 word_at(const u8 *bytes)
{
    return short_at(bytes) << 16 | short_at(bytes + 2);
}
