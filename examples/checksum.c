/* The checksum of an IPv4 header of 60 bytes (RFC 1071): 0 where the header's own is right. */
typedef unsigned char u8;
typedef unsigned int u32;
typedef unsigned long long u64;

u64 checksum(const u8 *header)
{
    u32 sum = 0;
    for (int i = 0; i < 60; i += 2)
        sum += header[i] << 8 | header[i + 1];
    sum = (sum & 0xffff) + (sum >> 16);
    sum = (sum & 0xffff) + (sum >> 16);
    return ~sum & 0xffff;
}
