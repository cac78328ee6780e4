/* Writes what is known of a flow to the element that its number names, by one update of 24 bytes, and
   answers what the update answered. Map 0: 24:200. */
typedef unsigned int u32;
typedef unsigned long long u64;

#define MAP(number) \
    ({ register u64 name asm("r1"); \
       asm(".quad 0x1118 | %1 << 32, 0" : "=r"(name) : "i"(number)); \
       name; })

static u64 (*const update)(u64 map, const u32 *key, const void *value, u64 flags) = (void *)2;

struct flow {
    u64 bytes;
    u64 packets;
    u64 last;
};

u64 record(const u64 *context)
{
    u32 key = context[0];
    struct flow flow = { context[1], context[2], context[1] / (context[2] + 1) };
    return update(MAP(0), &key, &flow, context[3]);
}
