/* Digits of a string that stands in the file. */
#include "bpf_helpers.h"
#include "hooks.h"

SEC("xdp")
u64 digits(const struct packet *packet)
{
    const char *digits = "0123456789abcdef";
    u8 byte = packet->data[3];
    return digits[byte >> 4] << 8 | digits[byte & 15];
}
