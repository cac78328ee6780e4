/* The functions of examples/hash.h beside plain arrays: drawn calls on more keys than the table has slots, so that it is full at times. Then keys as
 * filters have them, which may differ in their upper bits alone, in a table with twice as many slots: nearly all find room.
 * tools/objects builds and runs this. Its status is 0 where each call answered as the arrays do, each case came up, and the keys found room. */
#include "bpf_helpers.h"
#include "hash.h"
#include <stdio.h>
#include <string.h>

/* Again, since each header of a filter may include what it needs. */
#include "bpf_helpers.h"
#include "hash.h"

enum { SLOTS = 32, KEYS = 64, CALLS = 200000 };

/* A crowd, and how many of it may find no room: of keys at random about one in a hundred does. */
enum { CROWD_SLOTS = 1024, CROWD = CROWD_SLOTS / 2, TURNED_AWAY = CROWD / 32 };

HASH_TABLE(table, u64, SLOTS);
HASH_TABLE(crowd, u64, CROWD_SLOTS);

static struct table_slot slots[SLOTS];
static struct crowd_slot crowd_slots[CROWD_SLOTS];

void *bpf_map_lookup_elem(void *map, const void *key)
{
    u32 index = *(const u32 *)key;
    if (map == &crowd)
        return index < CROWD_SLOTS ? &crowd_slots[index] : 0;
    return map == &table && index < SLOTS ? &slots[index] : 0;
}

/* A keyed table, as arrays by key: whether the key is there, and its value. */
static _Bool is_there[KEYS];
static u64 wanted[KEYS];

/* How often each case came up. */
static unsigned long found, missed, added, full, removed;

/* The keys differ in all bits. */
static u64 key_numbered(u32 number)
{
    return (number + 1) * 0xd1342543de82ef95ull;
}

/* Whether all slots that a key may have are taken by others. */
static _Bool has_no_room(u64 key)
{
    for (u32 probe = 0; probe < HASH_PROBES; probe++) {
        const struct table_slot *slot = &slots[(hash_of(key) + probe) & (SLOTS - 1)];
        if (slot->state != HASH_TAKEN || slot->key == key)
            return 0;
    }
    return 1;
}

static _Bool find(u32 number)
{
    u64 *value = table_find(key_numbered(number));
    is_there[number] ? found++ : missed++;
    return value ? is_there[number] && *value == wanted[number] : !is_there[number];
}

static _Bool find_or_add(u32 number, u64 written)
{
    u64 *value = table_find_or_add(key_numbered(number));
    if (!value) {
        full++;
        return !is_there[number] && has_no_room(key_numbered(number));
    }
    if (is_there[number] ? *value != wanted[number] : *value != 0)
        return 0;
    added += !is_there[number];
    is_there[number] = 1;
    *value = wanted[number] = written;
    return 1;
}

static _Bool removes(u32 number)
{
    table_remove(key_numbered(number));
    removed += is_there[number];
    is_there[number] = 0;
    return !table_find(key_numbered(number));
}

/* Clients in 10.0.0.0/16, and a port: the address as a number, or as a little-endian load finds it in a packet. */
static u64 address_above_port(u32 number)
{
    return (u64)(10 << 24 | number) << 32 | 443;
}

static u64 loaded_address_above_port(u32 number)
{
    return (u64)__builtin_bswap32(10 << 24 | number) << 32 | 443;
}

static u64 port_above_loaded_address(u32 number)
{
    return 443ull << 32 | __builtin_bswap32(10 << 24 | number);
}

static u64 uppermost_bits(u32 number)
{
    return (u64)number << 48;
}

static u64 name(u32 number)
{
    char letters[16];
    u64 key;
    snprintf(letters, sizeof letters, "user%04u", number);
    memcpy(&key, letters, sizeof key);
    return key;
}

static u64 plain_number(u32 number)
{
    return number;
}

static const struct {
    const char *what;
    u64 (*key)(u32 number);
} CROWDS[] = {
    {"addresses above a port", address_above_port}, {"loaded addresses above a port", loaded_address_above_port},
    {"a port above loaded addresses", port_above_loaded_address}, {"numbers in the uppermost 16 bits", uppermost_bits},
    {"names", name}, {"plain numbers", plain_number},
};

/* Whether the keys of a crowd find room, but for a few, and those that did are found. */
static _Bool finds_room(const char *what, u64 (*key)(u32))
{
    u32 turned_away = 0, lost = 0;
    memset(crowd_slots, 0, sizeof crowd_slots);
    for (u32 number = 0; number < CROWD; number++) {
        u64 *value = crowd_find_or_add(key(number));
        if (value)
            *value = number + 1;
        turned_away += !value;
    }
    for (u32 number = 0; number < CROWD; number++) {
        u64 *value = crowd_find(key(number));
        lost += value ? *value != number + 1 : 1;
    }
    if (turned_away > TURNED_AWAY || lost != turned_away)
        printf("%s: of %u keys %u find no room in %u slots, and %u aren't found\n", what, CROWD, turned_away, CROWD_SLOTS, lost);
    return turned_away <= TURNED_AWAY && lost == turned_away;
}

static _Bool crowds_find_room(void)
{
    u32 count = sizeof CROWDS / sizeof *CROWDS, right = 0;
    for (u32 at = 0; at < count; at++)
        right += finds_room(CROWDS[at].what, CROWDS[at].key);
    return right == count;
}

int main(void)
{
    u64 drawn = 1;
    for (u32 call = 0; call < CALLS; call++) {
        drawn = drawn * 6364136223846793005ull + 1442695040888963407ull;
        u32 number = drawn >> 40 & (KEYS - 1), choice = drawn >> 60;
        _Bool is_right = choice < 6 ? find(number) : choice < 12 ? find_or_add(number, drawn | 1) : removes(number);
        if (!is_right) {
            printf("call %u on key %u answers otherwise than a plain array\n", call, number);
            return 1;
        }
    }
    if (!found || !missed || !added || !full || !removed) {
        printf("a case never came up: %lu %lu %lu %lu %lu\n", found, missed, added, full, removed);
        return 1;
    }
    if (!crowds_find_room())
        return 1;
    printf("%u calls\n", CALLS);
    return 0;
}
