/* Adds 1 to the word of map 0's value that the context's first word names, and answers the word that the
   second names. Map 0: 64:1. */
typedef unsigned int u32;
typedef unsigned long long u64;

#define MAP(number) \
    ({ register u64 name asm("r1"); \
       asm(".quad 0x1118 | %1 << 32, 0" : "=r"(name) : "i"(number)); \
       name; })

static u64 *(*const lookup)(u64 map, const u32 *key) = (void *)1;

u64 count(const u64 *context)
{
    u32 key = 0;
    u64 *words = lookup(MAP(0), &key);
    if (!words)
        return 0;
    words[context[0] & 7] += 1;
    if (context[1] >= 8)
        return 0;
    return words[context[1]];
}
