/* Functions that stay functions: static ones, one that other files see, one with variables of its own that calls another, and one
   that is called twice; numbers in the caller live on after the calls. */
#include "bpf_helpers.h"
#include "hooks.h"

struct {
    __uint(type, BPF_MAP_TYPE_ARRAY);
    __type(key, u32);
    __type(value, u64);
    __uint(max_entries, 32);
} sums SEC(".maps");

static u64 calls;

static __noinline u64 square(u64 number)
{
    calls += 1;
    return number * number + calls;
}

static __noinline u64 added(u32 row, u64 number)
{
    u32 key = row & 31;
    u64 *sum = bpf_map_lookup_elem(&sums, &key);
    if (!sum)
        return 0;
    if (number & 1)
        return *sum += square(number);
    *sum += number;
    return *sum - square(key);
}

__noinline u64 folded(const struct packet *packet, u64 start)
{
    u64 sum = start, count = packet->data[5];
    sum += added(packet->data[0], sum + count);
    sum ^= added(packet->data[1], sum - count);
    return sum * count + packet->length;
}

SEC("tc")
u64 call(const struct packet *packet)
{
    u64 first = packet->interface, second = packet->protocol, third = packet->length;
    u64 sum = folded(packet, first);
    sum += second * square(sum & 0xffff);
    sum += third * folded(packet, sum & 0xff);
    return sum + first + calls;
}
