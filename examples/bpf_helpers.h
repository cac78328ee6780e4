/* What programs in libbpf's style need of its header <bpf/bpf_helpers.h>: sections, maps, helpers. For another target than BPF the helpers
   are functions, which who links the program has. */
#ifndef BPF_HELPERS_H
#define BPF_HELPERS_H

typedef unsigned char u8;
typedef unsigned short u16;
typedef unsigned int u32;
typedef unsigned long long u64;
typedef int s32;

#if defined(__BPF__) && !defined(__clang__)
#define SEC(name) __attribute__((section(name), used))
void *bpf_map_lookup_elem(void *map, const void *key) __attribute__((kernel_helper(1)));
long bpf_map_update_elem(void *map, const void *key, const void *value, u64 flags) __attribute__((kernel_helper(2)));
long bpf_map_delete_elem(void *map, const void *key) __attribute__((kernel_helper(3)));
#elif defined(__bpf__)
#define SEC(name) __attribute__((section(name), used))
static void *(*bpf_map_lookup_elem)(void *map, const void *key) = (void *)1;
static long (*bpf_map_update_elem)(void *map, const void *key, const void *value, u64 flags) = (void *)2;
static long (*bpf_map_delete_elem)(void *map, const void *key) = (void *)3;
#else
#define SEC(name)
void *bpf_map_lookup_elem(void *map, const void *key);
long bpf_map_update_elem(void *map, const void *key, const void *value, u64 flags);
long bpf_map_delete_elem(void *map, const void *key);
#endif

/* A number of a map is the length of an array, a type what is pointed to. */
#define __uint(name, number) int(*name)[number]
#define __type(name, type) typeof(type) *name

#define __always_inline inline __attribute__((always_inline))
#define __noinline __attribute__((noinline))

enum { BPF_MAP_TYPE_HASH = 1, BPF_MAP_TYPE_ARRAY = 2, BPF_MAP_TYPE_PERCPU_ARRAY = 6 };
enum { BPF_ANY, BPF_NOEXIST, BPF_EXIST };

struct bpf_map_def {
    u32 type;
    u32 key_size;
    u32 value_size;
    u32 max_entries;
    u32 map_flags;
};

#endif
