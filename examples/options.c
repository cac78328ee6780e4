/* The largest segment that the options of a TCP header offer (RFC 9293), 536 where they offer none, and 0 for options that
   are none. The header's 60 bytes are the context's first. */
typedef unsigned char u8;
typedef unsigned int u32;
typedef unsigned long long u64;

u64 segment(const u8 *header)
{
    u32 skip = 0;
    /* Each byte is looked at where it stands, at a constant offset in each copy of the loop. */
    for (int at = 20; at < 57; at++) {
        const u8 *option = header + at;
        if (skip) {
            skip -= 1;
            continue;
        }
        if (option[0] == 0)
            return 536;
        if (option[0] == 1)
            continue;
        if (option[0] == 2)
            return option[1] == 4 ? option[2] << 8 | option[3] : 0;
        switch (option[1]) {
        case 2:
        case 3:
        case 4:
        case 10:
        case 18:
            skip = option[1] - 1;
            break;
        default:
            return 0;
        }
    }
    return 536;
}
