/* Counts packets and their bytes in a global, which stands in map 0, and answers how many there were. Map 0: 24:1. */
typedef unsigned long long u64;

struct totals {
    u64 packets;
    u64 bytes;
    u64 largest;
} totals;

u64 count(const u64 *context)
{
    u64 bytes = context[0];
    totals.packets += 1;
    totals.bytes += bytes;
    if (totals.largest < bytes)
        totals.largest = bytes;
    return totals.packets;
}
