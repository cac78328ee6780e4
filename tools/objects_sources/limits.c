/* Limits that who loads the program may set, and that the program can't. */
#include "bpf_helpers.h"
#include "hooks.h"

const volatile struct {
    u32 largest;
    u16 protocol;
    u16 flags;
    u64 mask;
} limits = { 1500, 0x0800, 3, 0xff00ff };

const volatile u8 is_strict = 1;

SEC("tc")
u64 within(const struct packet *packet)
{
    if ((packet->length & 0xfff) > limits.largest)
        return 0;
    if (is_strict && packet->protocol != limits.protocol)
        return packet->protocol & limits.mask;
    return limits.flags + packet->interface;
}
