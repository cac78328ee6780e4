/* Totals in globals: of zeros, with a first number, and one that other files don't see. */
#include "bpf_helpers.h"
#include "hooks.h"

u64 packets;
u64 largest = 60;
static u64 bytes;

SEC("xdp")
u64 total(const struct packet *packet)
{
    packets += 1;
    bytes += packet->length;
    if (packet->length > largest)
        largest = packet->length;
    return bytes * 31 + packets * 7 + largest;
}
