/* Frames with a tag of a virtual network: what libpcap calls `vlan`. */
#include "filter.h"

u64 vlan(const struct packet *packet)
{
    u32 kind = short_at(packet->bytes + 12);
    return kind == 0x8100 || kind == 0x88a8 || kind == 0x9100;
}
