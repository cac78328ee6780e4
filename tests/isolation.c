/* Tenants are isolated: isolation [PAIRS]
 *
 * Each drawn pair of lists has the same events of one tenant, in the same order. What happens between them is drawn apart: events of
 * the two other tenants, visits, options, unmerging, counters. Each list goes to a host of its own, with other frames and other
 * options. All replies to the tenant and all its values at the end have to be the same. In one pair of a hundred one host lacks frames,
 * and the replies have to be the same up to the first one that speaks of scarce frames; none of the other pairs may have such a reply.
 * Last, a pair written by hand shows what a tenant does learn of others: how many frames may be had where it asks for too many. Exits 1
 * where anything differs, and in a whole test where so little happened that the comparison says nothing. */
#include "bpf_host.h"

#include <stdio.h>
#include <stdlib.h>
#include <string.h>

enum {
    PAIRS = 8192,        /* how many pairs a whole test has */
    RARELY = 100,        /* one pair in so many lacks frames */
    TENANTS = 3,
    MAPS = 8,
    KEYS = 5,            /* more than any map here has elements */
    PAGE = 4096,
    PLENTY = 64,         /* frames for eight maps of two pages for each tenant, and for what open runs reserve */
    MANY = 100,          /* more frames than a host has that lacks some */
    OWN = 30,            /* how many events of the tenant a list has */
    BETWEEN = 7,         /* one more than the most that happens between two of them */
    VISITS = 8,          /* the most visits of one call */
    RUNS = 4,            /* how many runs of a program one call makes */
    CONTEXT = 8,         /* the most bytes of a context here */
    STEPS = 12,          /* one more than the most steps of one call, and than the most calls that follow the beginning of a run */
    LAST = 3,            /* the events of the tenant with which frames run out at the latest */
    TWO_PAGES = 2        /* the shape of two pages, each a value's */
};

static const uint64_t to_the_end = UINT64_MAX;

/* Numbers from a fixed generator, splitmix64, by its state. */
static uint64_t next_number(uint64_t *state)
{
    uint64_t mixed = *state += 0x9e3779b97f4a7c15;
    mixed = (mixed ^ mixed >> 30) * 0xbf58476d1ce4e5b9;
    mixed = (mixed ^ mixed >> 27) * 0x94d049bb133111eb;
    return mixed ^ mixed >> 31;
}

/* A number below a limit. */
static uint32_t below(uint64_t *state, uint32_t limit)
{
    return (uint32_t)((next_number(state) >> 32) * limit >> 32);
}

struct text {
    const char *hex;
    uint32_t context_size;
};

/* Looks element 0 of map 0 up, and returns 0 where there is none. */
#define FIND "620afcff00000000bfa200000000000007020000fcffffff1811000000000000000000000000000085000000010000005500020000000000" \
    "b7000000000000009500000000000000"

static const struct text texts[] = {
    /* returns 42 */
    {"b70000002a0000009500000000000000", 0},
    /* returns a word of a value of 64 bytes or more, at an offset of the context that a mask bounds */
    {"7916000000000000" FIND "57060000380000000f6000000000000079000000000000009500000000000000", 8},
    /* returns a byte of a value, at an offset of the context that a comparison bounds */
    {"7916000000000000" FIND "25060300070000000f6000000000000071000000000000009500000000000000b7000000000000009500000000000000", 8},
    /* adds 1 to the first word of a value, stores it three times and returns it */
    {FIND "790100000000000007010000010000007b100000000000007b100000000000007b10000000000000bf100000000000009500000000000000", 0},
    /* the same with one store */
    {FIND "790100000000000007010000010000007b10000000000000bf100000000000009500000000000000", 0},
};

enum { TEXTS = sizeof texts / sizeof *texts, COUNTER = TEXTS - 1, TEXT_LEN = 128 };

/* How large the values of a shape are, and how many there are. The last shape is no map's. */
static const struct shape {
    uint32_t value_size;
    uint32_t entries;
} shapes[] = {{64, 2}, {8, 4}, {PAGE, 2}, {7, 0}};

enum { SHAPES = sizeof shapes / sizeof *shapes, MAP_SHAPES = SHAPES - 1 };

enum kind { CREATE_MAP, DROP_MAP, LOAD, UNLOAD, RUN, RUN_MANY, BEGIN, STEP, LOOKUP, UPDATE, VISIT, SET, UNMERGE, COUNTERS };

struct event {
    enum kind kind;
    uint32_t tenant;    /* TENANTS where it is no tenant's event */
    uint32_t number;    /* of a map, program, text or option */
    uint32_t key;
    uint32_t size;      /* of a value or context */
    uint64_t count;     /* of entries, steps or visits, or the value of an option */
    uint8_t byte;       /* each byte of a value or context is this; those of several contexts grow */
    bool mergeable;
};

struct reply {
    enum kind kind;
    uint32_t code;
    struct bpf_host_refused refused;
    uint32_t number;    /* of a map or program */
    bool ended;
    struct bpf_host_run run;
    uint32_t len;
    uint8_t value[PAGE];
};

/* A host, how large the values of its maps are (0 where there is no map), what it replied to the tenant, and how many pages came to
 * share frames. */
struct side {
    struct bpf_host host;
    uint32_t sizes[TENANTS][MAPS];
    struct reply replies[OWN + LAST];
    uint32_t replied;
    uint32_t merged;
};

/* The bytes of a text in hex: how many. */
static size_t bytes_of(const char *hex, uint8_t *bytes)
{
    size_t len = strlen(hex) / 2;
    for (size_t at = 0; at < len; at++) {
        char digits[3] = {hex[2 * at], hex[2 * at + 1], 0};
        bytes[at] = (uint8_t)strtoul(digits, NULL, 16);
    }
    return len;
}

static void create_map(struct side *side, const struct event *event, struct reply *reply)
{
    reply->code = bpf_host_create_map(&side->host, event->tenant, event->size, (uint32_t)event->count, event->mergeable, &reply->number,
                                      &reply->refused);
    if (reply->code == 0)
        side->sizes[event->tenant][reply->number] = event->size;
}

static void drop_map(struct side *side, const struct event *event, struct reply *reply)
{
    reply->code = bpf_host_drop_map(&side->host, event->tenant, event->number);
    if (reply->code == 0)
        side->sizes[event->tenant][event->number] = 0;
}

static void load(struct side *side, const struct event *event, struct reply *reply)
{
    uint8_t text[TEXT_LEN];
    size_t len = bytes_of(texts[event->number].hex, text);
    reply->code = bpf_host_load(&side->host, event->tenant, text, len, event->size, &reply->number, &reply->refused);
}

/* Runs a program on several contexts, of which each next one has greater bytes. The reply's number is how many runs were made, and its value the
 * numbers that are returned. */
static void run_many(struct side *side, const struct event *event, struct reply *reply)
{
    uint8_t contexts[RUNS * CONTEXT];
    uint64_t rets[RUNS] = {0};
    size_t made = 0;
    for (uint32_t at = 0; at < RUNS * event->size; at++)
        contexts[at] = (uint8_t)(event->byte + at / event->size);
    reply->code = bpf_host_run_many(&side->host, event->tenant, event->number, contexts, RUNS * event->size, rets, RUNS, &made, &reply->refused);
    reply->number = (uint32_t)made;
    reply->len = sizeof rets;
    memcpy(reply->value, rets, sizeof rets);
}

static void look_up(struct side *side, const struct event *event, struct reply *reply)
{
    uint32_t size = side->sizes[event->tenant][event->number];
    reply->code = bpf_host_lookup(&side->host, event->tenant, event->number, event->key, reply->value, size != 0 ? size : 8);
    if (reply->code == 0)
        reply->len = size;
}

static uint32_t merged_pages(const struct bpf_host_counters *counters)
{
    return counters->pages_sharing + counters->ksm_zero_pages;
}

static void visit(struct side *side, const struct event *event, struct reply *reply)
{
    struct bpf_host_counters before, after;
    reply->code = bpf_host_counters(&side->host, &before) | bpf_host_visit(&side->host, (uint32_t)event->count, &after);
    if (reply->code == 0 && merged_pages(&after) > merged_pages(&before))
        side->merged += merged_pages(&after) - merged_pages(&before);
}

/* Makes an event happen to a host. */
static void apply(struct side *side, const struct event *event, struct reply *reply)
{
    struct bpf_host *host = &side->host;
    struct bpf_host_counters counters = {0};
    uint8_t bytes[PAGE];
    memset(reply, 0, sizeof *reply);
    memset(bytes, event->byte, sizeof bytes);
    reply->kind = event->kind;
    switch (event->kind) {
    case CREATE_MAP: create_map(side, event, reply); break;
    case DROP_MAP: drop_map(side, event, reply); break;
    case LOAD: load(side, event, reply); break;
    case UNLOAD: reply->code = bpf_host_unload(host, event->tenant, event->number); break;
    case RUN: reply->code = bpf_host_run(host, event->tenant, event->number, bytes, event->size, &reply->run, &reply->refused); break;
    case RUN_MANY: run_many(side, event, reply); break;
    case BEGIN: reply->code = bpf_host_begin(host, event->tenant, event->number, bytes, event->size, &reply->refused); break;
    case STEP: reply->code = bpf_host_step(host, event->tenant, event->count, &reply->ended, &reply->run); break;
    case LOOKUP: look_up(side, event, reply); break;
    case UPDATE:
        reply->code = bpf_host_update(host, event->tenant, event->number, event->key, bytes, event->size, &reply->refused);
        break;
    case VISIT: visit(side, event, reply); break;
    case SET: reply->code = bpf_host_set(host, event->number, (uint32_t)event->count); break;
    case UNMERGE: reply->code = bpf_host_unmerge(host, &reply->refused); break;
    case COUNTERS: reply->code = bpf_host_counters(host, &counters); break;
    }
}

static bool is_same(const struct reply *reply, const struct reply *other)
{
    return reply->kind == other->kind && reply->code == other->code && reply->number == other->number && reply->ended == other->ended &&
           reply->refused.slot == other->refused.slot && reply->refused.need == other->refused.need &&
           reply->refused.have == other->refused.have && reply->run.ret == other->run.ret && reply->run.steps == other->run.steps &&
           reply->len == other->len && memcmp(reply->value, other->value, reply->len) == 0;
}

/* Whether a reply speaks of scarce frames or memory. */
static bool is_scarce(const struct reply *reply)
{
    return reply->code == 31 || reply->code == 41;
}

static bool ends_run(const struct reply *reply)
{
    return reply->code == 0 && (reply->kind == RUN || reply->kind == RUN_MANY || (reply->kind == STEP && reply->ended));
}

/* Draws the events of a tenant. Tenants have maps of few shapes and write few values, so that pages of several tenants are often alike. */
struct source {
    uint64_t draws;
    uint32_t tenant;
    uint32_t first_shape;
    uint32_t opened;    /* how many events were drawn before, up to two */
    uint32_t steps;     /* how many are left of those that follow the beginning of a run */
};

static struct event event_of(const struct source *source, enum kind kind)
{
    struct event event = {.kind = kind, .tenant = source->tenant};
    return event;
}

static struct event drawn_map(struct source *source, uint32_t shape)
{
    struct event event = event_of(source, CREATE_MAP);
    event.size = shapes[shape].value_size;
    event.count = shapes[shape].entries;
    event.mergeable = below(&source->draws, 8) > 0;
    return event;
}

/* A text for its context, rarely for another one. */
static struct event drawn_load(struct source *source, uint32_t text)
{
    struct event event = event_of(source, LOAD);
    event.number = text;
    event.size = below(&source->draws, 16) == 0 ? below(&source->draws, 300) : texts[text].context_size;
    return event;
}

/* A whole run, several, or the beginning of one, mostly on no context. Some steps are to follow a beginning. */
static struct event drawn_run(struct source *source, enum kind kind)
{
    struct event event = event_of(source, kind);
    if (kind == BEGIN)
        source->steps = below(&source->draws, STEPS);
    event.number = below(&source->draws, 8) / 6;
    event.size = below(&source->draws, event.number == 0 ? 8 : 2) == 0 ? CONTEXT : 0;
    event.byte = (uint8_t)below(&source->draws, 64);
    return event;
}

/* One step, rarely several or all. */
static struct event drawn_step(struct source *source)
{
    struct event event = event_of(source, STEP);
    switch (below(&source->draws, 16)) {
    case 0: event.count = to_the_end; break;
    case 1: case 2: case 3: event.count = below(&source->draws, STEPS); break;
    default: event.count = 1;
    }
    return event;
}

/* A value of zeros or ones. */
static struct event drawn_update(struct source *source)
{
    struct event event = event_of(source, UPDATE);
    uint32_t shape = below(&source->draws, 4) == 0 ? below(&source->draws, MAP_SHAPES) : source->first_shape;
    event.size = shapes[shape].value_size;
    event.byte = (uint8_t)below(&source->draws, 2);
    event.number = below(&source->draws, 8) / 6;
    event.key = below(&source->draws, 3);
    return event;
}

/* An event of a number, which is 0 more often than 1. */
static struct event drawn_other(struct source *source, enum kind kind)
{
    struct event event = event_of(source, kind);
    event.number = below(&source->draws, 8) / 5;
    event.key = below(&source->draws, 3);
    return event;
}

/* The next event of a tenant: first a map and a program, and then any. */
static struct event next_event(struct source *source)
{
    if (source->steps > 0) {
        source->steps--;
        return drawn_step(source);
    }
    if (source->opened < 2)
        return source->opened++ == 0 ? drawn_map(source, source->first_shape) : drawn_load(source, COUNTER);
    switch (below(&source->draws, 28)) {
    case 0: case 1: return drawn_map(source, below(&source->draws, SHAPES));
    case 2: case 3: case 4: return drawn_load(source, below(&source->draws, TEXTS));
    case 5: case 6: case 7: case 8: return drawn_run(source, BEGIN);
    case 9: case 10: return drawn_run(source, RUN);
    case 11: case 12: return drawn_run(source, RUN_MANY);
    case 13: return drawn_step(source);
    case 14: case 15: case 16: case 17: case 18: case 19: case 20: return drawn_update(source);
    case 21: case 22: case 23: return drawn_other(source, LOOKUP);
    case 24: return drawn_other(source, UNLOAD);
    default: return drawn_other(source, DROP_MAP);
    }
}

/* Draws what happens beside a tenant: events of the two others, visits, options, unmerging and counters. */
struct others {
    uint64_t draws;
    struct source first;
    struct source second;
};

static struct source drawn_source(uint64_t *draws, uint32_t tenant)
{
    struct source source = {.tenant = tenant % TENANTS};
    source.draws = next_number(draws);
    source.first_shape = below(draws, MAP_SHAPES);
    return source;
}

static struct others others_of(uint64_t seed, uint32_t tenant)
{
    struct others others = {.draws = seed};
    others.first = drawn_source(&others.draws, tenant + 1);
    others.second = drawn_source(&others.draws, tenant + 2);
    return others;
}

static struct event drawn_option(uint64_t *draws)
{
    struct event event = {.kind = SET, .tenant = TENANTS};
    event.number = below(draws, 4);
    event.count = below(draws, 5);
    return event;
}

static struct event next_of_others(struct others *others)
{
    struct event event = {.kind = VISIT, .tenant = TENANTS};
    uint32_t drawn = below(&others->draws, 32);
    if (drawn < 9)
        return next_event(&others->first);
    if (drawn < 16)
        return next_event(&others->second);
    switch (drawn) {
    case 16: return drawn_option(&others->draws);
    case 17: event.kind = UNMERGE; break;
    case 18: event.kind = COUNTERS; break;
    case 19: case 20: return (struct event){.kind = SET, .tenant = TENANTS, .number = BPF_HOST_RUN, .count = 1};
    default: event.count = 1 + below(&others->draws, VISITS);
    }
    return event;
}

static void open_host(struct side *side, uint32_t frames, uint32_t tenants, const struct bpf_host_options *options)
{
    memset(side, 0, sizeof *side);
    if (bpf_host_new(frames, tenants, options, &side->host) != 0) {
        printf("no host of %u frames\n", frames);
        exit(1);
    }
}

static void open_drawn(struct side *side, uint32_t frames, uint64_t seed)
{
    struct bpf_host_options options = BPF_HOST_OPTIONS;
    options.use_zero_pages = below(&seed, 2);
    options.max_page_sharing = 2 + below(&seed, 3);
    open_host(side, frames, TENANTS, &options);
}

static void apply_own(struct side *side, const struct event *event)
{
    apply(side, event, &side->replies[side->replied++]);
}

static void apply_some(struct side *side, struct others *others)
{
    struct reply reply;
    for (uint32_t left = below(&others->draws, BETWEEN); left > 0; left--) {
        struct event event = next_of_others(others);
        apply(side, &event, &reply);
    }
}

/* Ends an open run, makes a number free, and asks for a map of more pages than there are frames. */
static void apply_last(struct side *side, uint32_t tenant)
{
    struct event end = {.kind = STEP, .tenant = tenant, .count = to_the_end};
    struct event drop = {.kind = DROP_MAP, .tenant = tenant, .number = MAPS - 1};
    struct event create = {.kind = CREATE_MAP, .tenant = tenant, .size = PAGE, .count = MANY};
    apply_own(side, &end);
    apply_own(side, &drop);
    apply_own(side, &create);
}

/* A list: the events of the tenant that one source draws, and between them what another one draws. */
static void apply_list(struct side *side, struct source own, struct others others)
{
    for (uint32_t left = OWN; left > 0; left--) {
        apply_some(side, &others);
        struct event event = next_event(&own);
        apply_own(side, &event);
    }
}

/* Whether both hosts answer the same of each element of the tenant's maps, once its run ended that may be open. */
static bool values_agree(struct side *left, struct side *right, uint32_t tenant)
{
    static struct reply reply, other;
    struct event event = {.kind = STEP, .tenant = tenant, .count = to_the_end};
    apply(left, &event, &reply);
    apply(right, &event, &other);
    bool agree = is_same(&reply, &other);
    event.kind = LOOKUP;
    for (uint32_t at = 0; agree && at < MAPS * KEYS; at++) {
        event.number = at / KEYS;
        event.key = at % KEYS;
        apply(left, &event, &reply);
        apply(right, &event, &other);
        agree = is_same(&reply, &other);
    }
    return agree;
}

enum outcome { SAME, SCARCE, DIFFERENT };

/* How many replies to the tenants were compared, how many of them end a run, end several, or refuse, and how many pages came to share frames. */
static struct {
    uint32_t compared;
    uint32_t ended;
    uint32_t several;
    uint32_t refused;
    uint32_t merged;
} tally;

static void count(const struct reply *reply)
{
    tally.compared++;
    tally.ended += ends_run(reply);
    tally.several += reply->kind == RUN_MANY && reply->code == 0;
    tally.refused += reply->code != 0;
}

/* Compares the replies of both hosts up to the first one that is scarce. */
static enum outcome compare_replies(const struct side *left, const struct side *right)
{
    for (uint32_t at = 0; at < left->replied; at++) {
        const struct reply *reply = &left->replies[at];
        if (is_scarce(reply) || is_scarce(&right->replies[at]))
            return SCARCE;
        if (!is_same(reply, &right->replies[at]))
            return DIFFERENT;
        count(reply);
    }
    return SAME;
}

/* What becomes of the pair of a number. */
static enum outcome outcome_of(uint32_t pair)
{
    static struct side left, right;
    bool lacks = pair % RARELY == 0;
    uint32_t tenant = pair % TENANTS;
    struct source own = {.draws = pair, .tenant = tenant, .first_shape = lacks ? TWO_PAGES : pair / TENANTS % MAP_SHAPES};
    open_drawn(&left, lacks ? 2 + pair / RARELY % 12 : PLENTY, pair);
    open_drawn(&right, PLENTY + (lacks ? MANY : pair % 7), pair + 1);
    apply_list(&left, own, others_of(pair + 1000000, tenant));
    apply_list(&right, own, others_of(pair + 2000000, tenant));
    if (lacks) {
        apply_last(&left, tenant);
        apply_last(&right, tenant);
    }
    enum outcome outcome = compare_replies(&left, &right);
    if (outcome == SAME && !values_agree(&left, &right, tenant))
        outcome = DIFFERENT;
    tally.merged += left.merged;
    bpf_host_free(&left.host);
    bpf_host_free(&right.host);
    return outcome == (lacks ? SCARCE : SAME) ? outcome : DIFFERENT;
}

/* Compares so many pairs, and prints what became of them: whether none differs. */
static bool compare_pairs(uint32_t pairs)
{
    uint32_t ends[3] = {0, 0, 0};
    uint32_t first = pairs;
    for (uint32_t pair = 0; pair < pairs; pair++) {
        enum outcome outcome = outcome_of(pair);
        if (outcome == DIFFERENT && first == pairs)
            first = pair;
        ends[outcome]++;
    }
    printf("%u pairs: all replies to the tenant and all its values are the same\n", ends[SAME]);
    printf("%u pairs: the same up to the first reply that speaks of scarce frames\n", ends[SCARCE]);
    if (first < pairs)
        printf("pair %u differs\n", first);
    else
        printf("no pair differs\n");
    return first == pairs;
}

/* Prints whether so much happened that the comparison says something. */
static bool happened_enough(void)
{
    bool enough = tally.compared >= 100000 && tally.ended >= 1000 && tally.several >= 1000 && tally.refused >= 10000 && tally.merged >= 10000;
    printf("100,000 replies or more were compared, of which 1,000 or more end a run, 1,000 or more end several and 10,000 or more refuse, and "
           "10,000 pages or more were merged: %s\n", enough ? "true" : "false");
    if (!enough)
        printf("%u compared, %u end a run, %u end several, %u refuse, %u pages merged\n", tally.compared, tally.ended, tally.several, tally.refused,
               tally.merged);
    return enough;
}

/* The tenant that is answered, and the other one, which stores a value or doesn't. */
enum { ANSWERED = 0, STORES = 1 };

/* A reply in words, after a text of so many bytes. */
static void write_reply(char *text, size_t size, const struct reply *reply)
{
    size_t len = strlen(text);
    if (reply->code == 31)
        snprintf(text + len, size - len, " no frames: %u needed and %u to be had,", reply->refused.need, reply->refused.have);
    else if (reply->code != 0)
        snprintf(text + len, size - len, " refused %u,", reply->code);
    else if (reply->kind == CREATE_MAP)
        snprintf(text + len, size - len, " map %u,", reply->number);
    else if (reply->kind == LOOKUP)
        snprintf(text + len, size - len, " a value of %u,", reply->value[0]);
    else
        snprintf(text + len, size - len, " done,");
}

/* Of 12 frames one is that of zeros, and so is that of each page once it was visited twice. The tenant asks for a map of more pages
 * than there are frames; the other one's map is dropped; and the tenant writes one element and reads the other one of the same page. */
static bool is_channel(bool with_store, const char *wanted)
{
    static struct side side;
    static const struct event list[] = {
        {.kind = CREATE_MAP, .tenant = STORES, .size = PAGE, .count = 2, .mergeable = true},
        {.kind = CREATE_MAP, .tenant = ANSWERED, .size = 8, .count = 2, .mergeable = true},
        {.kind = VISIT, .tenant = TENANTS, .count = 6},
        {.kind = UPDATE, .tenant = STORES, .size = PAGE, .byte = 1},
        {.kind = CREATE_MAP, .tenant = ANSWERED, .size = PAGE, .count = MANY, .mergeable = true},
        {.kind = DROP_MAP, .tenant = STORES},
        {.kind = UPDATE, .tenant = ANSWERED, .size = 8, .byte = 1},
        {.kind = LOOKUP, .tenant = ANSWERED, .key = 1},
    };
    struct bpf_host_options options = BPF_HOST_OPTIONS;
    char text[256] = "";
    struct reply reply;
    options.use_zero_pages = 1;
    open_host(&side, 12, 2, &options);
    for (size_t at = 0; at < sizeof list / sizeof *list; at++) {
        if (list[at].kind == UPDATE && list[at].tenant == STORES && !with_store)
            continue;
        apply(&side, &list[at], &reply);
        if (list[at].tenant == ANSWERED)
            write_reply(text, sizeof text, &reply);
    }
    bpf_host_free(&side.host);
    printf("%s:%s and no more\n", with_store ? "another tenant stores" : "it doesn't store", text);
    return strcmp(text, wanted) == 0;
}

int main(int words, char **word)
{
    uint32_t pairs = words > 1 ? (uint32_t)strtoul(word[1], NULL, 10) : PAIRS;
    bool same = compare_pairs(pairs);
    bool enough = happened_enough() || pairs < PAIRS;
    bool stores = is_channel(true, " map 0, no frames: 100 needed and 10 to be had, done, a value of 0,");
    bool stores_not = is_channel(false, " map 0, no frames: 100 needed and 11 to be had, done, a value of 0,");
    if (!stores || !stores_not)
        printf("a tenant learns something else of others\n");
    return same && enough && stores && stores_not ? 0 : 1;
}
