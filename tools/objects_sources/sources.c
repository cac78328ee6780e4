/* Counts packets and their bytes by source in a hash table, and forgets a source whose connection ends. */
#include "bpf_helpers.h"
#include "hash.h"

struct packet {
    u32 address;
    u32 length;
    u64 flags;
};

struct source {
    u64 packets;
    u64 bytes;
};

HASH_TABLE(sources, struct source, 32)

SEC("xdp")
u64 count(const struct packet *packet)
{
    u32 address = packet->address & 63;
    struct source *source = sources_find_or_add(address);
    if (!source)
        return 0;
    source->packets += 1;
    source->bytes += packet->length;
    u64 packets = source->packets;
    if (!(packet->flags & 3))
        sources_remove(address);
    return packets;
}
