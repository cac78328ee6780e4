/* Caps the requests of each client: answers its status, and lets a client make LIMIT requests a minute. */
#include "bpf_helpers.h"

#define LIMIT 2

enum status { OK = 200, FORBIDDEN = 403, TOO_MANY = 429 };

/* What the host's program passes of a request. */
struct request {
    u32 client; /* the number of its key */
    u32 minute; /* since 1970; one that lies before the client's last minute counts as that */
};

/* A client's last minute, and how many requests it made in it. */
struct window {
    u32 minute;
    u32 requests;
};

struct {
    __uint(type, BPF_MAP_TYPE_ARRAY);
    __type(key, u32);
    __type(value, struct window);
    __uint(max_entries, 1024);
} windows SEC(".maps");

SEC("filter")
u64 admit(const struct request *request)
{
    u32 client = request->client;
    struct window *window = bpf_map_lookup_elem(&windows, &client);
    if (!window)
        return FORBIDDEN;
    if (window->minute < request->minute)
        *window = (struct window){request->minute, 0};
    return ++window->requests <= LIMIT ? OK : TOO_MANY;
}

char LICENSE[] SEC("license") = "GPL";
