/* An embeddable host of eBPF programs: 1 to 16 tenants, from 0 on, each with its own maps, its own verified programs and at most one open run, in a
 * memory whose pages are merged: what a run returns and what a map holds don't depend on that, NO_FRAMES and the counters do. Each call does what
 * docs/HOST.md says of its event.
 *
 *     struct bpf_host host = {0};                      // {} in C++
 *     struct bpf_host_options options = BPF_HOST_OPTIONS;
 *     struct bpf_host_run run = {0, 0};
 *     struct bpf_host_refused why = {0, 0, 0};
 *     uint32_t program = 0;
 *     if (bpf_host_new(64, 1, &options, &host)) ..
 *     if (bpf_host_load(&host, 0, text, sizeof text, 0, &program, &why)) ..
 *     if (bpf_host_run(&host, 0, program, context, 0, &run, &why)) ..
 *     bpf_host_free(&host);
 *
 * WHAT A CALL RETURNS. BPF_HOST_DONE, which is 0, or a refusal; bpf_host_code_name returns its name. Each call lists its refusals without BPF_HOST_,
 * in the order in which they are tested; docs/HOST.md says when 31 to 45 are returned.
 *     a rule           1 to 25: the program breaks this rule of the verifier, at the slot `refused->slot`
 *     NO_FRAMES        more frames are needed than are available: `refused->need` and `refused->have`. Never if the host has
 *                      BPF_HOST_ENOUGH_FRAMES(P) or more, P being the pages of all its maps, and of those that are to be made: for
 *                      bpf_host_load_object all of the object's (bpf_host_object_pages). Who uploads chooses maps, so refuse an object that takes
 *                      more pages than its owner may have
 *     OUT_OF_MEMORY    no other refusal applies; but calls that verify a text (bpf_host_load, _verify, _load_object, _replace) return it before
 *                      11 to 25 if there is no memory for that, bpf_host_read_object before 103 and a rule, bpf_host_explain before WRONG_LENGTH,
 *                      bpf_host_lower and bpf_host_replace before what they list after it
 *     CLOSED           the handle is closed
 *     OPEN_ALREADY     the handle is already open (bpf_host_new)
 *     WRONG_LENGTH     the buffer's length isn't the value's (bpf_host_lookup; bpf_host_update returns BAD_SHAPE), or it is too short
 *                      (bpf_host_lower, bpf_host_explain), or the contexts can't all have the same size (bpf_host_run_many), or an object has a
 *                      length greater than its array's (bpf_host_load_object, bpf_host_replace)
 *     BAD_OBJECT       the object file isn't accepted: `object->why` says why (bpf_host_read_object)
 *     HAS_MAPS         the tenant already has a map (bpf_host_load_object)
 * bpf_host_lookup and bpf_host_update allocate no memory, and bpf_host_begin, _run and _run_many only if the context is longer than those of the
 * tenant's earlier runs.
 * A call that doesn't return 0 began no run and changed nothing, neither the host nor what the caller's pointers point to, except the members of
 * `*refused` that the number concerns (slot; need and have), `*written` if a buffer is too short, `object->why`, the runs that bpf_host_run_many
 * made before the refusal and their number, and a map that bpf_host_load_object made and couldn't drop.
 *
 * A call that was refused may be repeated, after NO_FRAMES when runs have ended, visits have merged pages or a map was dropped, after OUT_OF_MEMORY
 * when there is memory; bpf_host_run_many with the contexts for which no run was made. How many frames a run needs doesn't depend on its context.
 *
 * LIMITS. A host has 2 to 4096 frames of 4096 bytes and 1 to 16 tenants; a tenant at most 8 maps, 8 loaded programs and one open run. A map has 1 to
 * 65536 values of 1 to 4096 bytes, on at most 256 pages (1 MiB): a value takes a multiple of 8 bytes there. A program has 1 to 4096 slots of 8 bytes
 * and makes at most 4096 steps a run. A context has 0 to 256 bytes, a multiple of 8. An object file has at most 16 MiB.
 *
 * WHAT THE CALLER MUST ENSURE AT EACH CALL. No proof covers it.
 *   - No pointer is null, and each points to an initialized object of its type, also if the call only writes it, as above: a `struct bpf_host`
 *     starts as all zeros, and a `bool` is true or false. An empty buffer needs a pointer that isn't null, too. Buffers of bytes need no alignment.
 *   - No two pointers of one call point to the same bytes, unless both are `const`. Until the call returns, nobody else writes to
 *     these bytes: bpf_host_run reads a context where it is.
 *   - The members of a `struct bpf_host` belong to the library: the caller neither reads nor writes them. An open handle may move to another
 *     place in memory, but only one copy is used from then on.
 *   - At most one call at a time uses a handle. Another thread may continue with it after whatever makes the calls of one thread happen before those
 *     of the other: a lock, the start or join of a thread, an atomic that releases and acquires.
 *     Each call writes to its handle: handles that several threads use are faster in different lines of the cache.
 *   - No call is made from a signal handler, or from the child of a process that had several threads when it forked.
 *   - malloc, realloc and free are the C library's, or others that align as it does, up to 16.
 *   - The thread has enough stack left: in tests bpf_host_lower, bpf_host_explain and bpf_host_read_object took at most 96 KiB, others 32.
 * bpf_host_free closes a host; one that isn't closed keeps its memory. */
#ifndef BPF_HOST_H
#define BPF_HOST_H

#include <stdbool.h>
#include <stddef.h>
#include <stdint.h>
#include <string.h>

#ifdef __cplusplus
extern "C" {
#endif

/* In C++ the functions bpf_host_run, bpf_host_shape and bpf_host_counters stand beside structs of their names. */
#if defined __cplusplus && defined __GNUC__
#pragma GCC diagnostic push
#pragma GCC diagnostic ignored "-Wshadow"
#endif

/* Compilers warn where a null pointer is passed. */
#ifdef __GNUC__
#define BPF_HOST_NONNULL __attribute__((nonnull))
#else
#define BPF_HOST_NONNULL
#endif

/* The version of this header: N of a package 0.N.0 (tools/package). The library has the same version if bpf_host_version returns this number. */
#define BPF_HOST_VERSION 5

/* The limits of a tenant and of what it is given: see above. */
enum {
    BPF_HOST_MAX_MAPS = 8,
    BPF_HOST_MAX_PROGRAMS = 8,
    BPF_HOST_MAX_TEXT = 32768,
    BPF_HOST_MAX_VALUE = 4096,
    BPF_HOST_MAX_CONTEXT = 256
};

/* How many frames a host needs so that no call is refused for lack of them, if all maps of all its tenants never take more pages than this. */
#define BPF_HOST_ENOUGH_FRAMES(pages) (2 * (pages) + 2)

/* A handle: {0} is closed. */
struct bpf_host {
    void *at;
    bool is_open;
};

/* The options of the scanner, by the names of Linux's KSM. */
struct bpf_host_options {
    uint32_t pages_to_scan;    /* 1 to 100000: for the scanner of `bpf_host serve`; bpf_host_visit takes its own number */
    uint32_t run;              /* 0: the scanner is stopped; 1: it visits */
    uint32_t use_zero_pages;   /* 1: pages of zeros share one frame */
    uint32_t max_page_sharing; /* how many pages may share a frame, 2 to 65535 */
};

/* The default options of a host, as an initializer. */
#define BPF_HOST_OPTIONS {100, 1, 0, 256}

/* The numbers of the options, for bpf_host_set. */
enum {
    BPF_HOST_PAGES_TO_SCAN = 0,
    BPF_HOST_RUN = 1,
    BPF_HOST_USE_ZERO_PAGES = 2,
    BPF_HOST_MAX_PAGE_SHARING = 3
};

/* What a call returns: 0, a rule of the verifier that a program breaks (1 to 25, docs/VERIFIER.md), or another refusal (docs/HOST.md). */
enum {
    BPF_HOST_DONE = 0,
    BPF_HOST_BAD_LENGTH = 1,
    BPF_HOST_UNKNOWN_OPCODE = 2,
    BPF_HOST_BAD_FIELD = 3,
    BPF_HOST_BAD_REGISTER = 4,
    BPF_HOST_CUT_WIDE = 5,
    BPF_HOST_BACK_JUMP = 11,
    BPF_HOST_JUMP_OUT = 12,
    BPF_HOST_FALLS_OFF = 13,
    BPF_HOST_UNSET_REGISTER = 14,
    BPF_HOST_WRONG_KIND = 15,
    BPF_HOST_OUTSIDE_CONTEXT = 16,
    BPF_HOST_OUTSIDE_STACK = 17,
    BPF_HOST_UNSET_STACK = 18,
    BPF_HOST_OUTSIDE_MAP = 19,
    BPF_HOST_MISALIGNED = 20,
    BPF_HOST_NULL_NOT_CHECKED = 21,
    BPF_HOST_FRAME_WRITTEN = 22,
    BPF_HOST_UNKNOWN_HELPER = 23,
    BPF_HOST_UNKNOWN_MAP = 24,
    BPF_HOST_POINTER_LEAKS = 25,
    BPF_HOST_NO_FRAMES = 31,
    BPF_HOST_TOO_MANY_MAPS = 32,
    BPF_HOST_BAD_SHAPE = 33,
    BPF_HOST_NO_MAP = 34,
    BPF_HOST_NO_ELEMENT = 35,
    BPF_HOST_BUSY = 36,
    BPF_HOST_NO_RUN = 37,
    BPF_HOST_NO_PROGRAM = 38,
    BPF_HOST_BAD_CONTEXT = 39,
    BPF_HOST_BAD_OPTION = 40,
    BPF_HOST_OUT_OF_MEMORY = 41,
    BPF_HOST_BAD_TENANT = 42,
    BPF_HOST_IN_USE = 43,
    BPF_HOST_PAGES_SHARED = 44,
    BPF_HOST_TOO_MANY_PROGRAMS = 45,
    BPF_HOST_CLOSED = 100,
    BPF_HOST_OPEN_ALREADY = 101,
    BPF_HOST_WRONG_LENGTH = 102,
    BPF_HOST_BAD_OBJECT = 103,
    BPF_HOST_HAS_MAPS = 104
};

/* What a refusal says besides its number. */
struct bpf_host_refused {
    uint32_t slot;
    uint32_t need;
    uint32_t have;
};

/* What a run returned, and how many steps it took. */
struct bpf_host_run {
    uint64_t ret; /* R0: of a C function that returns `int` only the lower 32 bits are the number */
    uint32_t steps;
};

/* The shape of a map: the size of a value in bytes, and the number of values. */
struct bpf_host_shape {
    uint32_t value_size;
    uint32_t entries;
};

/* A map of an object file: one that it defines, or that holds its global variables. All values begin as zeros, except value 0, which begins as the
 * bytes of `first`, unless `first_len` is 0. It is 0 or a value's size. */
struct bpf_host_object_map {
    struct bpf_host_shape shape;
    uint32_t first_len;
    char name[64]; /* UTF-8 and zeros, one at least: a longer name is cut. One with other characters than a name of C and dots is escaped for a
                      terminal, not for HTML, and if it has more than 40, the others are two dots */
    uint8_t first[BPF_HOST_MAX_VALUE];
};

/* A program of an object file, its functions in one text and its loops unrolled, and its maps by number. It has 67180 bytes, so keep it static or on
 * the heap. What follows its text, its last map and the first value of a map is left unchanged: bytes of an object that was read before. */
struct bpf_host_object {
    uint32_t context_size;
    uint32_t text_len;
    uint32_t maps_len;
    uint8_t text[BPF_HOST_MAX_TEXT];
    struct bpf_host_object_map maps[BPF_HOST_MAX_MAPS];
    char why[1024]; /* after a refusal the reason, with the line of C: UTF-8 and zeros, one at least, escaped for a terminal, not for HTML; more is
                       cut. Unchanged if nothing is refused */
};

/* The counters, by the names of the kernel's manual. */
struct bpf_host_counters {
    uint64_t full_scans;
    uint32_t pages_shared;
    uint32_t pages_sharing;
    uint32_t pages_unshared;
    uint32_t pages_volatile;
    uint32_t ksm_zero_pages;
    uint32_t stable_node_chains;
    uint32_t stable_node_dups;
    uint32_t frames_free;
};

/* The version of the library. */
uint32_t bpf_host_version(void);

/* Opens a closed handle with a new host of 2 to 4096 frames and 1 to 16 tenants. Refused: OPEN_ALREADY, BAD_SHAPE, BAD_OPTION, OUT_OF_MEMORY. */
uint32_t bpf_host_new(uint32_t frames, uint32_t tenants, const struct bpf_host_options *options, struct bpf_host *host) BPF_HOST_NONNULL;

/* Closes a handle and frees all that its host held. A closed handle stays closed. */
void bpf_host_free(struct bpf_host *host) BPF_HOST_NONNULL;

/* Makes a map of `entries` values of `value_size` bytes, all zero, and writes its number to `*map`: 0 to 7. If it is `mergeable`, visits let its
 * pages share frames with equal pages of mergeable maps, of other tenants too: then who chooses contents can make visits slow (docs/MERGING.md),
 * and may learn from the time that a store takes that another tenant has an equal page.
 * Refused: CLOSED, BAD_TENANT, BUSY, TOO_MANY_MAPS, BAD_SHAPE, NO_FRAMES. */
uint32_t bpf_host_create_map(struct bpf_host *host, uint32_t tenant, uint32_t value_size, uint32_t entries, bool mergeable, uint32_t *map,
                             struct bpf_host_refused *refused) BPF_HOST_NONNULL;

/* Removes a map that no loaded program refers to. Refused: CLOSED, BAD_TENANT, BUSY, NO_MAP, IN_USE. */
uint32_t bpf_host_drop_map(struct bpf_host *host, uint32_t tenant, uint32_t map) BPF_HOST_NONNULL;

/* Writes the shape of a map. A tenant that doesn't exist has no map. Refused: CLOSED, NO_MAP. */
uint32_t bpf_host_shape(struct bpf_host *host, uint32_t tenant, uint32_t map, struct bpf_host_shape *shape) BPF_HOST_NONNULL;

/* Verifies a program, slots of 8 bytes, for the tenant's maps and contexts of `context_size` bytes, and writes its number to `*program`: 0 to 7.
 * The text is copied. Refused: CLOSED, BAD_TENANT, BUSY, TOO_MANY_PROGRAMS, BAD_CONTEXT, a rule, OUT_OF_MEMORY. */
uint32_t bpf_host_load(struct bpf_host *host, uint32_t tenant, const uint8_t *text, size_t text_len, uint32_t context_size, uint32_t *program,
                       struct bpf_host_refused *refused) BPF_HOST_NONNULL;

/* Removes a program. Refused: CLOSED, BAD_TENANT, BUSY, NO_PROGRAM. */
uint32_t bpf_host_unload(struct bpf_host *host, uint32_t tenant, uint32_t program) BPF_HOST_NONNULL;

/* Runs a program on a context, from its first instruction to its end: a begin and all its steps. Refused: CLOSED, BAD_TENANT, BUSY, NO_PROGRAM,
 * BAD_CONTEXT, NO_FRAMES, OUT_OF_MEMORY. */
uint32_t bpf_host_run(struct bpf_host *host, uint32_t tenant, uint32_t program, const uint8_t *context, size_t context_len,
                      struct bpf_host_run *run, struct bpf_host_refused *refused) BPF_HOST_NONNULL;

/* Runs a program once for each of `rets_len` contexts of one size, stored one after the other, and writes what each run returns: short runs take
 * less time this way than with one call each. It stops at the first refusal. `*made` is written in any case: how many runs were made, all if it
 * returns 0, and else the first ones; the other members of `rets` are unchanged. Refused: WRONG_LENGTH if the contexts can't all have the same
 * size, and what bpf_host_run refuses, but nothing besides that and CLOSED if `rets_len` is 0. */
uint32_t bpf_host_run_many(struct bpf_host *host, uint32_t tenant, uint32_t program, const uint8_t *contexts, size_t contexts_len, uint64_t *rets,
                           size_t rets_len, size_t *made, struct bpf_host_refused *refused) BPF_HOST_NONNULL;

/* Opens a run of a program on a context, which is copied, and reserves the frames that it may need. It ends only by bpf_host_step, within 4096 steps,
 * or with its host: until then the tenant's calls that list BUSY are refused, with BUSY if nothing that they list before it applies. Refused: CLOSED,
 * BAD_TENANT, BUSY, NO_PROGRAM, BAD_CONTEXT, NO_FRAMES, OUT_OF_MEMORY. */
uint32_t bpf_host_begin(struct bpf_host *host, uint32_t tenant, uint32_t program, const uint8_t *context, size_t context_len,
                        struct bpf_host_refused *refused) BPF_HOST_NONNULL;

/* Makes at most `steps` steps of the tenant's open run. `*ended` says whether the run ended with them; if so, `*run` is written. Refused:
 * CLOSED, BAD_TENANT, NO_RUN; only CLOSED if `steps` is 0, which ends nothing. */
uint32_t bpf_host_step(struct bpf_host *host, uint32_t tenant, uint64_t steps, bool *ended, struct bpf_host_run *run) BPF_HOST_NONNULL;

/* Copies a value of a map to a buffer of exactly its size. Refused: CLOSED, BAD_TENANT, NO_MAP, NO_ELEMENT, WRONG_LENGTH. */
uint32_t bpf_host_lookup(struct bpf_host *host, uint32_t tenant, uint32_t map, uint32_t key, uint8_t *value, size_t value_len) BPF_HOST_NONNULL;

/* Writes a value of a map, from a buffer of exactly its size. One available frame is asked for, or two if a value may lie on two pages, also where
 * none is taken. Refused: CLOSED, BAD_TENANT, BUSY, NO_MAP, NO_ELEMENT, BAD_SHAPE, NO_FRAMES. */
uint32_t bpf_host_update(struct bpf_host *host, uint32_t tenant, uint32_t map, uint32_t key, const uint8_t *value, size_t value_len,
                         struct bpf_host_refused *refused) BPF_HOST_NONNULL;

/* Lets the scanner make `visits` visits, of one page each, and then writes the counters. Pages share frames by visits alone, so call it from time to
 * time if maps are mergeable. Unless the option `run` is 1, as in BPF_HOST_OPTIONS, no page is visited. Refused: CLOSED. */
uint32_t bpf_host_visit(struct bpf_host *host, uint32_t visits, struct bpf_host_counters *after) BPF_HOST_NONNULL;

/* Sets an option. Refused: CLOSED, BAD_OPTION, PAGES_SHARED. */
uint32_t bpf_host_set(struct bpf_host *host, uint32_t option, uint32_t value) BPF_HOST_NONNULL;

/* Gives each page that shares a frame a frame of its own, and stops the scanner: the option `run` is 2. Refused: CLOSED, NO_FRAMES. */
uint32_t bpf_host_unmerge(struct bpf_host *host, struct bpf_host_refused *refused) BPF_HOST_NONNULL;

/* Writes the counters. Refused: CLOSED. */
uint32_t bpf_host_counters(struct bpf_host *host, struct bpf_host_counters *counters) BPF_HOST_NONNULL;

/* CALLS ON A TEXT ALONE. They need no handle, and several threads may make them at the same time. `shapes` has the shapes of the maps that the
 * text may use, by number; a shape of two zeros means that there is no such map. */

/* Verifies a text for maps of these shapes and contexts of `context_size` bytes, with the answer that bpf_host_load gives a tenant with such maps.
 * Refused: TOO_MANY_MAPS, BAD_SHAPE, BAD_CONTEXT, a rule, OUT_OF_MEMORY. */
uint32_t bpf_host_verify(const uint8_t *text, size_t text_len, const struct bpf_host_shape *shapes, size_t shapes_len, uint32_t context_size,
                         struct bpf_host_refused *refused) BPF_HOST_NONNULL;

/* Makes a text with the same runs that the verifier accepts, with reordered blocks and several copies of loops (docs/LOWER.md), and writes its
 * length in bytes to `*written`: at most 32768. A text that is already accepted is copied unchanged. WRONG_LENGTH if `lowered_len` is less: then
 * `lowered` stays unchanged. Refused: TOO_MANY_MAPS, BAD_SHAPE, BAD_CONTEXT, OUT_OF_MEMORY, and the rule by which bpf_host_verify refuses the text,
 * if lowering doesn't help. */
uint32_t bpf_host_lower(const uint8_t *text, size_t text_len, const struct bpf_host_shape *shapes, size_t shapes_len, uint32_t context_size,
                        uint8_t *lowered, size_t lowered_len, size_t *written, struct bpf_host_refused *refused) BPF_HOST_NONNULL;

/* Writes what the program `explain` prints of a text, accepted or refused, without colours (docs/EXPLAIN.md): UTF-8 with no zero at its end, and
 * its length in bytes to `*written`. WRONG_LENGTH if `explained_len` is less: then `explained` stays unchanged. If memory runs out, OUT_OF_MEMORY,
 * or the output says so or is shorter. */
uint32_t bpf_host_explain(const uint8_t *text, size_t text_len, const struct bpf_host_shape *shapes, size_t shapes_len, uint32_t context_size,
                          char *explained, size_t explained_len, size_t *written) BPF_HOST_NONNULL;

/* CALLS FOR AN OBJECT FILE, as made by `clang -g -O2 -target bpf -c`. */

/* Reads an object file, makes one text of the function that `name` selects (the name of its section, or else its own; if empty, the only function)
 * and of those that it calls, lowers it as bpf_host_lower does, and writes the text that the verifier accepts, and its maps. No handle is needed, and
 * several threads may call it at the same time. Refused: BAD_CONTEXT, BAD_OBJECT, a rule, OUT_OF_MEMORY; then `object->why` has the words of the
 * program `bpf_object`, with the instruction and its line of C (a rule's slot is that of the text before lowering), or says that memory ran out for
 * them, and nothing else in `*object` changed. */
uint32_t bpf_host_read_object(const uint8_t *file, size_t file_len, const char *name, size_t name_len, uint32_t context_size,
                              struct bpf_host_object *object, struct bpf_host_refused *refused) BPF_HOST_NONNULL;

/* Makes the maps of an object that was read, by number and with their initial values, and loads its program, which is verified again: for a tenant
 * that has no map, since a text refers to maps by number; it may have programs. bpf_host_load loads a further program of the same file, from the text
 * that is read under its name: its maps have the same numbers. If making a map or loading the program is refused, the tenant's maps are dropped,
 * except one to which an older program refers, even in an instruction that is never reached. Refused: CLOSED, WRONG_LENGTH if a length exceeds its
 * array, HAS_MAPS, and what bpf_host_create_map, bpf_host_update and bpf_host_load refuse. */
uint32_t bpf_host_load_object(struct bpf_host *host, uint32_t tenant, const struct bpf_host_object *object, bool mergeable, uint32_t *program,
                              struct bpf_host_refused *refused) BPF_HOST_NONNULL;

/* The number of the map of an object that was read with a name, or `maps_len` if it has none of that name. */
static inline uint32_t bpf_host_map_named(const struct bpf_host_object *object, const char *name)
{
    for (uint32_t number = 0; number < object->maps_len && number < BPF_HOST_MAX_MAPS; number++)
        if (strncmp(object->maps[number].name, name, sizeof object->maps[number].name) == 0)
            return number;
    return object->maps_len;
}

/* How many pages of 4096 bytes the maps of an object that was read take. */
static inline uint64_t bpf_host_object_pages(const struct bpf_host_object *object)
{
    uint64_t pages = 0;
    for (uint32_t number = 0; number < object->maps_len && number < BPF_HOST_MAX_MAPS; number++) {
        uint64_t stride = (object->maps[number].shape.value_size + 7ull) / 8 * 8;
        pages += (stride * object->maps[number].shape.entries + 4095) / 4096;
    }
    return pages;
}

/* Whether two objects that were read have the same maps by number: names, of C and dots, of less than 63 bytes and not of 40 and two dots, so that
 * none was cut or escaped, shapes and initial values. Then bpf_host_replace can put one in place of the other. Their context sizes may differ, and
 * what the bytes of a value mean isn't compared: members of a struct that change places are seen by nobody. */
static inline bool bpf_host_same_maps(const struct bpf_host_object *one, const struct bpf_host_object *other)
{
    static const char plain[] = "ABCDEFGHIJKLMNOPQRSTUVWXYZabcdefghijklmnopqrstuvwxyz0123456789_.";
    bool same = one->maps_len == other->maps_len && one->maps_len <= BPF_HOST_MAX_MAPS;
    for (uint32_t number = 0; same && number < one->maps_len; number++) {
        const struct bpf_host_object_map *a = &one->maps[number], *b = &other->maps[number];
        same = memcmp(a->name, b->name, sizeof a->name) == 0 && a->name[sizeof a->name - 2] == 0 && a->name[sizeof a->name - 1] == 0 &&
               a->name[strspn(a->name, plain)] == 0 && memcmp(a->name + 40, "..", 3) != 0 &&
               a->shape.value_size == b->shape.value_size && a->shape.entries == b->shape.entries &&
               a->first_len == b->first_len && a->first_len <= sizeof a->first && memcmp(a->first, b->first, a->first_len) == 0;
    }
    return same;
}

/* Replaces the program with the number `*program` by that of an object with the same maps, which keep their values and aren't compared: it is loaded
 * beside the old one, then that is removed, and the new number is written. If it is refused, the old program stays. Refused: WRONG_LENGTH if the
 * text's length exceeds its array, what bpf_host_load refuses, and then NO_PROGRAM. */
static inline uint32_t bpf_host_replace(struct bpf_host *host, uint32_t tenant, const struct bpf_host_object *object, uint32_t *program,
                                        struct bpf_host_refused *refused)
{
    uint32_t next = 0;
    if (object->text_len > sizeof object->text)
        return BPF_HOST_WRONG_LENGTH;
    uint32_t code = bpf_host_load(host, tenant, object->text, object->text_len, object->context_size, &next, refused);
    if (code != BPF_HOST_DONE)
        return code;
    /* The new number was free before, so no program had it. */
    code = BPF_HOST_NO_PROGRAM;
    if (next != *program)
        code = bpf_host_unload(host, tenant, *program);
    if (code == BPF_HOST_DONE)
        *program = next;
    else
        bpf_host_unload(host, tenant, next);
    return code;
}

/* The name of what a call returned. */
static inline const char *bpf_host_code_name(uint32_t code)
{
    switch (code) {
    case BPF_HOST_DONE: return "Done";
    case BPF_HOST_BAD_LENGTH: return "BadLength";
    case BPF_HOST_UNKNOWN_OPCODE: return "UnknownOpcode";
    case BPF_HOST_BAD_FIELD: return "BadField";
    case BPF_HOST_BAD_REGISTER: return "BadRegister";
    case BPF_HOST_CUT_WIDE: return "CutWide";
    case BPF_HOST_BACK_JUMP: return "BackJump";
    case BPF_HOST_JUMP_OUT: return "JumpOut";
    case BPF_HOST_FALLS_OFF: return "FallsOff";
    case BPF_HOST_UNSET_REGISTER: return "UnsetRegister";
    case BPF_HOST_WRONG_KIND: return "WrongKind";
    case BPF_HOST_OUTSIDE_CONTEXT: return "OutsideContext";
    case BPF_HOST_OUTSIDE_STACK: return "OutsideStack";
    case BPF_HOST_UNSET_STACK: return "UnsetStack";
    case BPF_HOST_OUTSIDE_MAP: return "OutsideMap";
    case BPF_HOST_MISALIGNED: return "Misaligned";
    case BPF_HOST_NULL_NOT_CHECKED: return "NullNotChecked";
    case BPF_HOST_FRAME_WRITTEN: return "FrameWritten";
    case BPF_HOST_UNKNOWN_HELPER: return "UnknownHelper";
    case BPF_HOST_UNKNOWN_MAP: return "UnknownMap";
    case BPF_HOST_POINTER_LEAKS: return "PointerLeaks";
    case BPF_HOST_NO_FRAMES: return "NoFrames";
    case BPF_HOST_TOO_MANY_MAPS: return "TooManyMaps";
    case BPF_HOST_BAD_SHAPE: return "BadShape";
    case BPF_HOST_NO_MAP: return "NoMap";
    case BPF_HOST_NO_ELEMENT: return "NoElement";
    case BPF_HOST_BUSY: return "Busy";
    case BPF_HOST_NO_RUN: return "NoRun";
    case BPF_HOST_NO_PROGRAM: return "NoProgram";
    case BPF_HOST_BAD_CONTEXT: return "BadContext";
    case BPF_HOST_BAD_OPTION: return "BadOption";
    case BPF_HOST_OUT_OF_MEMORY: return "OutOfMemory";
    case BPF_HOST_BAD_TENANT: return "BadTenant";
    case BPF_HOST_IN_USE: return "InUse";
    case BPF_HOST_PAGES_SHARED: return "PagesShared";
    case BPF_HOST_TOO_MANY_PROGRAMS: return "TooManyPrograms";
    case BPF_HOST_CLOSED: return "Closed";
    case BPF_HOST_OPEN_ALREADY: return "OpenAlready";
    case BPF_HOST_WRONG_LENGTH: return "WrongLength";
    case BPF_HOST_BAD_OBJECT: return "BadObject";
    case BPF_HOST_HAS_MAPS: return "HasMaps";
    default: return "Unknown";
    }
}

#if defined __cplusplus && defined __GNUC__
#pragma GCC diagnostic pop
#endif

#ifdef __cplusplus
}
#endif

#endif
