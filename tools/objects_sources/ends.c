/* Functions that are given an address of their caller's stack and go down from it: from the end of an array, from a member to what holds it, and by
   an address that a function returns. */
#include "bpf_helpers.h"
#include "hooks.h"

struct node {
    u64 next;
};

struct item {
    u64 key;
    u64 value;
    struct node node;
};

static __noinline void pushed(u64 *end, u64 number)
{
    end[-1] = number;
    end[-2] = number * 3;
}

static __noinline u64 mixed(const u64 *end, u64 number)
{
    u64 words[2];
    volatile u64 *word = words;
    word[0] = number;
    word[1] = number + 1;
    return end[-1] * 5 + end[-2] + word[0] + word[1];
}

static __noinline u64 both(u64 *end, u64 number)
{
    u64 words[3];
    pushed(end, number);
    pushed(words + 3, number + 7);
    words[0] = number >> 5;
    return mixed(end, words[1]) + mixed(words + 3, words[0]);
}

static __noinline struct item *item_of(struct node *node)
{
    return (struct item *)((char *)node - __builtin_offsetof(struct item, node));
}

static __noinline void filled(struct node *node, u64 key)
{
    struct item *item = (struct item *)((char *)node - __builtin_offsetof(struct item, node));
    item->key = key;
    item->value = key * 3;
    node->next = 1;
}

static __noinline u64 weighed(struct node *node, u64 number)
{
    u64 words[2];
    volatile u64 *word = words;
    word[0] = number;
    word[1] = number ^ 5;
    struct item *item = (struct item *)((char *)node - __builtin_offsetof(struct item, node));
    return item->key * 5 + item->value + word[0] + word[1] + node->next;
}

SEC("fentry/ends")
u64 ends(const struct request *request)
{
    u64 words[2];
    pushed(words + 2, request->sector);
    return mixed(words + 2, request->bytes);
}

SEC("fentry/nested")
u64 nested(const struct request *request)
{
    u64 words[2], sum = request->bytes;
    sum += both(words + 2, request->sector);
    return sum * 3 + mixed(words + 2, sum);
}

SEC("fentry/members")
u64 members(const struct request *request)
{
    struct item item;
    filled(&item.node, request->sector);
    u64 sum = weighed(&item.node, request->bytes);
    struct item *found = item_of(&item.node);
    sum += mixed(&item.node.next, sum);
    return sum * 7 + found->key + found->value * 2;
}
