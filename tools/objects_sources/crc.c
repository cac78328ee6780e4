/* A checksum of the first eight bytes of a packet, by a table of sixteen entries. */
#include "bpf_helpers.h"
#include "hooks.h"

static const u32 table[16] = {
    0x00000000, 0x1db71064, 0x3b6e20c8, 0x26d930ac, 0x76dc4190, 0x6b6b51f4, 0x4db26158, 0x5005713c,
    0xedb88320, 0xf00f9344, 0xd6d6a3e8, 0xcb61b38c, 0x9b64c2b0, 0x86d3d2d4, 0xa00ae278, 0xbdbdf21c,
};

SEC("xdp")
u64 crc(const struct packet *packet)
{
    u32 crc = 0xffffffff;
#pragma clang loop unroll(full)
    for (int i = 0; i < 8; i++) {
        crc ^= packet->data[i];
        crc = crc >> 4 ^ table[crc & 15];
        crc = crc >> 4 ^ table[crc & 15];
    }
    return (u32)~crc;
}
