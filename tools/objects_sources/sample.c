/* One packet in about eight, by a generator whose state is a global. */
#include "bpf_helpers.h"
#include "hooks.h"

u64 state = 0x9e3779b97f4a7c15ull;

SEC("xdp")
int sample(const struct packet *packet)
{
    u64 next = state ^ packet->length;
    next ^= next << 13;
    next ^= next >> 7;
    next ^= next << 17;
    state = next;
    return (next & 7) == 0;
}
