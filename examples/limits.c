/* A limiter of packets by their sender's number: a bucket of tokens, which fills by one a tick up to eight. Times of packets don't go back.
   Answers 1 where the packet passes, 0 where it is dropped, and 2 for a sender that has no bucket; map 1
   counts each answer. Map 0, buckets: 16:100. Map 1, counters: 8:3. */
typedef unsigned int u32;
typedef unsigned long long u64;

#define MAP(number) \
    ({ register u64 name asm("r1"); \
       asm(".quad 0x1118 | %1 << 32, 0" : "=r"(name) : "i"(number)); \
       name; })

static void *(*const lookup)(u64 map, const u32 *key) = (void *)1;

struct packet {
    u64 time;
    u32 sender;
    u32 length;
};

struct bucket {
    u64 time;
    u64 tokens;
};

static __attribute__((always_inline)) u64 counted(u32 answer)
{
    u64 *count = lookup(MAP(1), &answer);
    if (count)
        *count += 1;
    return answer;
}

u64 limit(const struct packet *packet)
{
    u32 sender = packet->sender;
    struct bucket *bucket = lookup(MAP(0), &sender);
    if (!bucket)
        return counted(2);
    u64 tokens = bucket->tokens + (packet->time - bucket->time);
    if (tokens > 8)
        tokens = 8;
    bucket->time = packet->time;
    if (tokens == 0)
        return counted(0);
    bucket->tokens = tokens - 1;
    return counted(1);
}
