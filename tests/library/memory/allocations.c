/* Each allocation of a list of calls refused once: a call that lacks memory returns 41 and changes nothing, and the same call succeeds
 * afterwards. Linked with -Wl,--wrap=malloc,--wrap=realloc. */
#include "bpf_host.h"

#include <stdio.h>
#include <stdlib.h>
#include <string.h>

void *__real_malloc(size_t size);
void *__real_realloc(void *block, size_t size);
void *__wrap_malloc(size_t size);
void *__wrap_realloc(void *block, size_t size);

/* How many allocations were asked for. */
static unsigned asked;

/* Which allocation from now is refused: 0 for none. */
static unsigned left_until_refused;

static int is_refused(void)
{
    asked++;
    return left_until_refused != 0 && --left_until_refused == 0;
}

void *__wrap_malloc(size_t size)
{
    return is_refused() ? NULL : __real_malloc(size);
}

void *__wrap_realloc(void *block, size_t size)
{
    return is_refused() ? NULL : __real_realloc(block, size);
}

static unsigned failures;
static unsigned lacked;

static void wanted(int holds, const char *what)
{
    if (!holds) {
        failures++;
        printf("%s\n", what);
    }
}

/* A call that may lack memory: where it did, what it writes is as it was, and it is made again, when memory is there. */
#define AGAIN(call, is_unwritten)                                              \
    do {                                                                       \
        uint32_t code = (call);                                                \
        if (code == 41) {                                                      \
            lacked++;                                                          \
            wanted(left_until_refused == 0, "41 with memory: " #call);         \
            wanted(is_unwritten, "41, and something is written: " #call);      \
            code = (call);                                                     \
        }                                                                      \
        wanted(code == 0, "not done: " #call);                                 \
    } while (0)

/* How many frames of a host are free. */
static uint32_t free_frames(struct bpf_host *host)
{
    struct bpf_host_counters counters = {0};
    wanted(bpf_host_counters(host, &counters) == 0, "no counters");
    return counters.frames_free;
}

static void calls_on_a_text(const uint8_t *text, size_t len)
{
    static const struct bpf_host_shape shapes[1] = {{8, 1}};
    struct bpf_host_refused refused = {0, 0, 0};
    uint8_t lowered[16] = {0};
    size_t written = 12345;
    AGAIN(bpf_host_verify(text, len, shapes, 1, 8, &refused), refused.slot == 0);
    AGAIN(bpf_host_lower(text, len, shapes, 1, 8, lowered, sizeof lowered, &written, &refused), written == 12345 && lowered[0] == 0);
    wanted(written == len && memcmp(lowered, text, len) == 0, "another lowered text");
}

/* An explanation without one of its allocations: 41, or a listing that says so or leaves words out. Whether that allocation was asked for. */
static int explain_without(unsigned number)
{
    static const uint8_t text[] = {0xbf, 0x12, 0, 0, 0, 0, 0, 0, 0x95, 0, 0, 0, 0, 0, 0, 0};
    static const struct bpf_host_shape shapes[1] = {{8, 1}};
    char explained[4096] = {'~'};
    size_t written = 12345;
    left_until_refused = number;
    uint32_t code = bpf_host_explain(text, sizeof text, shapes, 1, 8, explained, sizeof explained, &written);
    int was_refused = left_until_refused == 0;
    left_until_refused = 0;
    if (code == 41)
        wanted(was_refused && written == 12345 && explained[0] == '~', "41, and something is written");
    else if (strncmp(explained, "refused 41 OutOfMemory", 22) != 0)
        wanted(code == 0 && strncmp(explained, "refused 14 UnsetRegister at 1", 29) == 0, "another verdict is explained");
    return was_refused;
}

/* An object file is read without one of the allocations, or for 0 with all: 41 and nothing but words for that, or the code that is wanted and what is
 * read with all, but for words that are left out. Whether that allocation was asked for. */
static int read_without(unsigned number, const char *path, uint32_t code_wanted)
{
    static struct bpf_host_object object, before, whole;
    static uint8_t bytes[65536];
    struct bpf_host_refused refused = {0, 0, 0};
    FILE *file = fopen(path, "rb");
    size_t size = file == NULL ? 0 : fread(bytes, 1, sizeof bytes, file);
    if (file != NULL)
        fclose(file);
    wanted(size > 0 && size < sizeof bytes, "an object file that isn't there");
    memset(&object, '~', sizeof object);
    before = object;
    left_until_refused = number;
    uint32_t code = bpf_host_read_object(bytes, size, "", 0, 0, &object, &refused);
    int was_refused = left_until_refused == 0;
    left_until_refused = 0;
    if (code == 41) {
        wanted(was_refused && strcmp(object.why, "out of memory") == 0, "41 with memory, or in other words");
        memcpy(object.why, before.why, sizeof object.why);
        wanted(memcmp(&object, &before, sizeof object) == 0, "41, and something is written");
    } else {
        if (number == 0)
            whole = object;
        /* The line of C, in parentheses, is left out where there is no memory for it; where there is none for the verdict's words, they say that. */
        size_t said = code == 0 ? sizeof object.why : strcspn(object.why, "(\n");
        wanted(code == code_wanted && said > 0, "another refusal of an object file");
        if (was_refused && code != 0 && strncmp(object.why, "refused 41 OutOfMemory", 22) == 0)
            said = 0;
        wanted(memcmp(&object, &whole, offsetof(struct bpf_host_object, why) + said) == 0, "another program, or other words");
    }
    return was_refused;
}

static unsigned objects_read(const char *path, uint32_t code_wanted)
{
    unsigned number = 1;
    read_without(0, path, code_wanted);
    while (read_without(number, path, code_wanted) && number < 10000)
        number++;
    wanted(number > 1, "an object file is read without an allocation");
    return number - 1;
}

/* A program with a map, loaded for a tenant that has none: where memory lacks it has none again, so that the same call succeeds. */
static void load_an_object(struct bpf_host *host, const uint8_t *text, size_t len, const uint8_t *value)
{
    static struct bpf_host_object object;
    struct bpf_host_refused refused = {0, 0, 0};
    uint8_t found[8] = {0};
    uint32_t number = 9;
    object.context_size = 8;
    object.text_len = (uint32_t)len;
    object.maps_len = 2;
    memcpy(object.text, text, len);
    object.maps[0].shape = (struct bpf_host_shape){4, 2};
    object.maps[1].shape = (struct bpf_host_shape){8, 1};
    object.maps[1].first_len = 8;
    memcpy(object.maps[1].first, value, 8);
    AGAIN(bpf_host_load_object(host, 1, &object, true, &number, &refused), number == 9 && free_frames(host) == 7);
    wanted(number == 0, "another program of an object");
    wanted(bpf_host_lookup(host, 1, 1, 0, found, sizeof found) == 0 && memcmp(found, value, sizeof found) == 0, "another first value");
}

static void list_of_calls(void)
{
    static const uint8_t text[] = {0xb7, 0, 0, 0, 42, 0, 0, 0, 0x95, 0, 0, 0, 0, 0, 0, 0};
    static const uint8_t value[8] = {1, 2, 3, 4, 5, 6, 7, 8};
    struct bpf_host host = {0};
    struct bpf_host_options options = BPF_HOST_OPTIONS;
    struct bpf_host_refused refused = {0, 0, 0};
    struct bpf_host_run run = {0, 0};
    struct bpf_host_counters counters = {0};
    uint8_t found[8] = {0};
    uint32_t number = 9;
    bool ended = false;
    AGAIN(bpf_host_new(8, 2, &options, &host), !host.is_open);
    AGAIN(bpf_host_create_map(&host, 0, 8, 1, true, &number, &refused), number == 9 && free_frames(&host) == 7);
    wanted(number == 0, "another map");
    number = 9;
    AGAIN(bpf_host_load(&host, 0, text, sizeof text, 8, &number, &refused), number == 9);
    wanted(number == 0, "another program");
    unsigned before = asked;
    wanted(bpf_host_update(&host, 0, 0, 0, value, sizeof value, &refused) == 0 && asked == before, "an update takes memory");
    wanted(bpf_host_load(&host, 2, text, sizeof text, 8, &number, &refused) == 42 && asked == before, "no tenant, and memory is taken");
    wanted(bpf_host_load(&host, 0, text, sizeof text, 7, &number, &refused) == 39 && asked == before, "a bad size, and memory is taken");
    AGAIN(bpf_host_run(&host, 0, 0, value, 8, &run, &refused), run.ret == 0 && run.steps == 0);
    wanted(run.ret == 42 && run.steps == 2, "another run");
    before = asked;
    wanted(bpf_host_run(&host, 0, 0, value, 8, &run, &refused) == 0 && asked == before, "a second run takes memory");
    AGAIN(bpf_host_begin(&host, 0, 0, value, 8, &refused), bpf_host_step(&host, 0, 0, &ended, &run) == 37);
    AGAIN(bpf_host_step(&host, 0, 9, &ended, &run), !ended);
    wanted(ended, "the run goes on");
    before = asked;
    wanted(bpf_host_lookup(&host, 0, 0, 0, found, sizeof found - 1) == 102 && asked == before, "no room, and memory is taken");
    wanted(found[0] == 0, "a value without room");
    wanted(bpf_host_lookup(&host, 0, 0, 0, found, sizeof found) == 0 && asked == before, "a lookup takes memory");
    wanted(memcmp(found, value, sizeof found) == 0, "another value");
    AGAIN(bpf_host_visit(&host, 4, &counters), false);
    AGAIN(bpf_host_unload(&host, 0, 0), false);
    AGAIN(bpf_host_drop_map(&host, 0, 0), false);
    load_an_object(&host, text, sizeof text, value);
    bpf_host_free(&host);
    calls_on_a_text(text, sizeof text);
}

/* Programs that ran once run on while each allocation is refused, on contexts of other lengths than the run before and after an update, too: with
 * enough frames nothing that takes memory away can make them fail. A run that goes on after an update still reads its context. */
static void runs_take_no_memory(void)
{
    static const uint8_t answer[] = {0xb7, 0, 0, 0, 42, 0, 0, 0, 0x95, 0, 0, 0, 0, 0, 0, 0};
    /* r6 = r1; key 0 at r10 - 4; value 7 at r10 - 16; update of map 0; the context's number. */
    static const uint8_t updates[] = {
        0xbf, 0x16, 0, 0, 0, 0, 0, 0, 0x62, 0x0a, 0xfc, 0xff, 0, 0, 0, 0, 0x7a, 0x0a, 0xf0, 0xff, 7, 0, 0, 0,
        0x18, 0x11, 0, 0, 0, 0, 0, 0, 0, 0, 0, 0, 0, 0, 0, 0, 0xbf, 0xa2, 0, 0, 0, 0, 0, 0, 0x07, 2, 0, 0, 0xfc, 0xff, 0xff, 0xff,
        0xbf, 0xa3, 0, 0, 0, 0, 0, 0, 0x07, 3, 0, 0, 0xf0, 0xff, 0xff, 0xff, 0xb7, 4, 0, 0, 0, 0, 0, 0, 0x85, 0, 0, 0, 2, 0, 0, 0,
        0x79, 0x60, 0, 0, 0, 0, 0, 0, 0x95, 0, 0, 0, 0, 0, 0, 0,
    };
    struct bpf_host host = {0};
    struct bpf_host_options options = BPF_HOST_OPTIONS;
    struct bpf_host_refused refused = {0, 0, 0};
    uint8_t context[64] = {0};
    uint32_t number = 0;
    wanted(bpf_host_new(8, 1, &options, &host) == 0, "no host");
    wanted(bpf_host_create_map(&host, 0, 8, 1, true, &number, &refused) == 0, "no map");
    wanted(bpf_host_load(&host, 0, answer, sizeof answer, 64, &number, &refused) == 0, "the answer isn't loaded");
    wanted(bpf_host_load(&host, 0, updates, sizeof updates, 8, &number, &refused) == 0, "the update isn't loaded");
    for (unsigned round = 0; round < 9; round++) {
        struct bpf_host_run run = {0, 0};
        uint64_t rets[4] = {0};
        size_t made = 0;
        left_until_refused = round > 0;
        wanted(bpf_host_run(&host, 0, 0, context, 64, &run, &refused) == 0 && run.ret == 42, "another run of 64 bytes");
        context[0] = (uint8_t)(round + 1), context[8] = 5;
        wanted(bpf_host_run(&host, 0, 1, context, 8, &run, &refused) == 0 && run.ret == round + 1 && run.steps == 12, "another run with an update");
        wanted(bpf_host_run_many(&host, 0, 1, context, 32, rets, 4, &made, &refused) == 0 && made == 4, "refused runs with updates");
        wanted(rets[0] == round + 1 && rets[1] == 5, "other runs with updates");
        wanted(left_until_refused == (round > 0), "a later run takes memory");
    }
    left_until_refused = 0;
    bpf_host_free(&host);
}

int main(void)
{
    unsigned refused = 0;
    do {
        refused++;
        left_until_refused = refused;
        list_of_calls();
    } while (left_until_refused == 0 && refused < 10000);
    left_until_refused = 0;
    runs_take_no_memory();
    wanted(lacked == refused - 1, "an allocation was refused, and no call said so");
    wanted(refused > 10, "no allocation was refused");
    for (unsigned number = 1; explain_without(number) && number < 10000; number++)
        refused++;
    refused += objects_read("crates/bpf_object/data/globals.o", 0);
    refused += objects_read("crates/bpf_object/data/loop.o", 0);
    refused += objects_read("crates/bpf_object/data/unset.o", 14);
    refused += objects_read("crates/bpf_object/data/line.o", 103);
    printf("%u allocations refused, %u failed\n", refused - 1, failures);
    return failures != 0;
}
