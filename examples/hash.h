/* Hash tables for filters, in array maps: this host has no maps of type hash. A table has keys of 64 bits, a type of values and a power of two of
 * slots; a key lies in one of eight slots that its hash names, so `find` and `remove` make at most eight lookups, and `find_or_add`
 * sixteen.
 *
 *     HASH_TABLE(flows, struct flow, 1024);           the map `flows`, a slot of which has the key, its state and the value
 *
 *     struct flow *flow = flows_find(key);            null where the key isn't there
 *     struct flow *flow = flows_find_or_add(key);     a new value has zeros; null where the eight slots have other keys
 *     flows_remove(key);
 *
 * Include bpf_helpers.h before it. The host sees a slot by bpf_host_lookup, which takes its number: u64 key, u64 state (1 where it is taken), and the
 * value.
 *
 * The hash has no secret, so whoever chooses keys can choose nine whose hashes name the same eight slots. The ninth finds no room; the others stay.
 * So where a stranger chooses the keys, answer what is safe when `find_or_add` returns null. */
#ifndef HASH_H
#define HASH_H

#define HASH_PROBES 8

/* Each probe has instructions of its own, since no jump leads back. */
#ifdef __clang__
#define HASH_UNROLL _Pragma("unroll")
#else
#define HASH_UNROLL _Pragma("GCC unroll 8")
#endif

enum hash_state { HASH_FREE, HASH_TAKEN, HASH_REMOVED };

/* The multiplier is 2^64 by the golden ratio (Knuth, The Art of Computer Programming, 6.4). A table of 2^n slots takes bits 32 to 31 + n of the
 * product, on which no higher bit of a factor has an effect, so the upper half of the key is first folded into the lower one. */
static __always_inline u32 hash_of(u64 key)
{
    return ((key ^ key >> 32) * 0x9e3779b97f4a7c15ull) >> 32;
}

#define HASH_TABLE(name, value_type, slots) \
    _Static_assert((slots) > 0 && ((slots) & ((slots) - 1)) == 0, "a hash table has a power of two of slots"); \
    struct name##_slot { \
        u64 key; \
        u64 state; \
        value_type value; \
    }; \
    struct { \
        __uint(type, BPF_MAP_TYPE_ARRAY); \
        __type(key, u32); \
        __type(value, struct name##_slot); \
        __uint(max_entries, slots); \
    } name SEC(".maps"); \
    static __always_inline struct name##_slot *name##_slot_at(u32 number) \
    { \
        u32 index = number & ((slots) - 1); \
        return bpf_map_lookup_elem(&name, &index); \
    } \
    static __always_inline struct name##_slot *name##_slot_of(u64 key) \
    { \
        HASH_UNROLL \
        for (u32 probe = 0; probe < HASH_PROBES; probe++) { \
            struct name##_slot *slot = name##_slot_at(hash_of(key) + probe); \
            if (!slot || slot->state == HASH_FREE) \
                return 0; \
            if (slot->state == HASH_TAKEN && slot->key == key) \
                return slot; \
        } \
        return 0; \
    } \
    static __always_inline value_type *name##_find(u64 key) \
    { \
        struct name##_slot *slot = name##_slot_of(key); \
        return slot ? &slot->value : 0; \
    } \
    static __always_inline value_type *name##_find_or_add(u64 key) \
    { \
        struct name##_slot *slot = name##_slot_of(key); \
        if (slot) \
            return &slot->value; \
        HASH_UNROLL \
        for (u32 probe = 0; probe < HASH_PROBES; probe++) { \
            slot = name##_slot_at(hash_of(key) + probe); \
            if (!slot) \
                return 0; \
            if (slot->state != HASH_TAKEN) { \
                slot->key = key; \
                slot->state = HASH_TAKEN; \
                slot->value = (value_type){0}; \
                return &slot->value; \
            } \
        } \
        return 0; \
    } \
    static __always_inline void name##_remove(u64 key) \
    { \
        struct name##_slot *slot = name##_slot_of(key); \
        if (slot) \
            slot->state = HASH_REMOVED; \
    }

#endif
