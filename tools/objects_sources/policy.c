/* A policy of calls by classes of users, in a table of structs. */
#include "bpf_helpers.h"
#include "hooks.h"

struct rule {
    u32 mask;
    u32 wanted;
    u64 cost;
};

static const struct rule rules[8] = {
    { 0xff, 1, 10 }, { 0xf0, 0x20, 200 }, { 3, 3, 3000 }, { 0, 0, 40000 },
    { 0x80, 0x80, 5 }, { 0x7f, 0x11, 66 }, { 0xffff, 0x1234, 777 }, { 1, 0, 8888 },
};

u64 spent[8];

SEC("lsm/call")
u64 judged(const struct call *call)
{
    u64 class = call->process & 7;
    const struct rule *rule = &rules[class];
    if ((call->number & rule->mask) != rule->wanted)
        return 1;
    spent[class] += rule->cost;
    return spent[class];
}
