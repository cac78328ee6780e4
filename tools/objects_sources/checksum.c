/* The checksum of a header of 20 bytes. */
#include "bpf_helpers.h"
#include "hooks.h"

SEC("tc")
u64 checksum(const struct packet *packet)
{
    u32 sum = 0;
#pragma clang loop unroll(full)
    for (int i = 0; i < 20; i += 2)
        sum += packet->data[i] << 8 | packet->data[i + 1];
    sum = (sum & 0xffff) + (sum >> 16);
    sum = (sum & 0xffff) + (sum >> 16);
    return ~sum & 0xffff;
}
