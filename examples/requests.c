/* A filter of requests: answers the status that its client gets. Only admins may change what lies below /admin/, and each client has at most
   LIMIT requests a minute. */
#include "bpf_helpers.h"

#define LIMIT 2
#define CLIENTS 1024

enum status { OK = 200, FORBIDDEN = 403, TOO_MANY = 429 };
enum method { GET, POST };

/* What the server fills in for each request. */
struct request {
    u32 client; /* the number of its key */
    u32 minute; /* since 1970 */
    u16 method;
    u16 is_admin;
    char path[20]; /* as the server resolves it, decoded and without `//`, `.` and `..`: its first bytes, then zeros */
};

/* A client's last minute, and how many requests it made in it. */
struct window {
    u32 minute;
    u32 requests;
};

struct {
    __uint(type, BPF_MAP_TYPE_ARRAY);
    __type(key, u32);
    __type(value, struct window);
    __uint(max_entries, CLIENTS);
} windows SEC(".maps");

static __always_inline int is_below(const char *path, const char *folder, int length)
{
    for (int at = 0; at < length; at++)
        if (path[at] != folder[at])
            return 0;
    return 1;
}

SEC("filter")
u64 answer(const struct request *request)
{
    if (request->method != GET && !request->is_admin && is_below(request->path, "/admin/", 7))
        return FORBIDDEN;
    u32 client = request->client;
    struct window *window = bpf_map_lookup_elem(&windows, &client);
    if (!window)
        return FORBIDDEN;
    if (window->minute < request->minute) {
        window->minute = request->minute;
        window->requests = 0;
    }
    return ++window->requests <= LIMIT ? OK : TOO_MANY;
}

char LICENSE[] SEC("license") = "GPL";
