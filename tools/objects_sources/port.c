/* The port of a packet of UDP over IPv4 whose header has 20 bytes, and 0 of others. */
#include "bpf_helpers.h"
#include "hooks.h"

struct header {
    u8 version, service;
    u16 length, identity, fragment;
    u8 hops, protocol;
    u16 checksum;
    u32 source, target;
    u16 ports[2];
};

SEC("xdp")
int port(const struct packet *packet)
{
    const struct header *header = (const void *)packet->data;
    if (header->version != 0x45)
        return header->version == 0x46 ? -46 : 0;
    if (header->protocol != 17 && header->protocol != 6)
        return 0;
    return __builtin_bswap16(header->ports[1]);
}
