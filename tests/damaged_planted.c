/* Calls of the library with a planted fault, each of which tests/damaged.c has to show: PLANT is its number. Linked with --wrap for each.
 *     1  a run of more than ten steps returns something else
 *     2  such a run changes a byte of a map of many values
 *     3  such a run counts a step too many
 *     4  a run reads the byte after its context
 *     5  a file is read to the byte after its end
 *     6  a text is read to the byte after its end
 *     7  where a file is refused, the object changes
 *     8  where a text is refused, a map changes
 *     9  where a text is refused, a program stays
 *    10  a file is refused by a number that no call returns
 *    11  where an object is loaded, another tenant's map changes
 *    12  a refusal names no slot
 *    13  a map that is dropped stays
 *    14  quotients, remainders and moves are computed without their signs
 *    15  a lowered text sets r0 to other numbers */
#include "bpf_host.h"

#include <string.h>

enum { MANY_STEPS = 10, MANY_VALUES = 100, SLOT = 8, LONGEST = 32768, LARGEST_VALUE = 4096 };

uint32_t __real_bpf_host_run(struct bpf_host *host, uint32_t tenant, uint32_t program, const uint8_t *context, size_t context_len,
                             struct bpf_host_run *run, struct bpf_host_refused *refused);
uint32_t __wrap_bpf_host_run(struct bpf_host *host, uint32_t tenant, uint32_t program, const uint8_t *context, size_t context_len,
                             struct bpf_host_run *run, struct bpf_host_refused *refused);
uint32_t __real_bpf_host_read_object(const uint8_t *file, size_t file_len, const char *name, size_t name_len, uint32_t context_size,
                                     struct bpf_host_object *object, struct bpf_host_refused *refused);
uint32_t __wrap_bpf_host_read_object(const uint8_t *file, size_t file_len, const char *name, size_t name_len, uint32_t context_size,
                                     struct bpf_host_object *object, struct bpf_host_refused *refused);
uint32_t __real_bpf_host_load(struct bpf_host *host, uint32_t tenant, const uint8_t *text, size_t text_len, uint32_t context_size,
                              uint32_t *program, struct bpf_host_refused *refused);
uint32_t __wrap_bpf_host_load(struct bpf_host *host, uint32_t tenant, const uint8_t *text, size_t text_len, uint32_t context_size,
                              uint32_t *program, struct bpf_host_refused *refused);
uint32_t __real_bpf_host_load_object(struct bpf_host *host, uint32_t tenant, const struct bpf_host_object *object, bool mergeable,
                                     uint32_t *program, struct bpf_host_refused *refused);
uint32_t __wrap_bpf_host_load_object(struct bpf_host *host, uint32_t tenant, const struct bpf_host_object *object, bool mergeable,
                                     uint32_t *program, struct bpf_host_refused *refused);
uint32_t __real_bpf_host_lower(const uint8_t *text, size_t text_len, const struct bpf_host_shape *shapes, size_t shapes_len, uint32_t context_size,
                               uint8_t *lowered, size_t lowered_len, size_t *written, struct bpf_host_refused *refused);
uint32_t __wrap_bpf_host_lower(const uint8_t *text, size_t text_len, const struct bpf_host_shape *shapes, size_t shapes_len, uint32_t context_size,
                               uint8_t *lowered, size_t lowered_len, size_t *written, struct bpf_host_refused *refused);
uint32_t __real_bpf_host_drop_map(struct bpf_host *host, uint32_t tenant, uint32_t map);
uint32_t __wrap_bpf_host_drop_map(struct bpf_host *host, uint32_t tenant, uint32_t map);

/* Reads a byte that isn't the caller's. */
static void read_byte(const uint8_t *at)
{
    *(const volatile uint8_t *)at;
}

/* Adds 1 to the last byte of the last value of a tenant's first map, if it has so many: several changes don't undo each other. */
static void change_map(struct bpf_host *host, uint32_t tenant, uint32_t values)
{
    struct bpf_host_shape shape = {0};
    struct bpf_host_refused ignored = {0};
    uint8_t value[LARGEST_VALUE];
    if (bpf_host_shape(host, tenant, 0, &shape) != 0 || shape.entries < values)
        return;
    bpf_host_lookup(host, tenant, 0, shape.entries - 1, value, shape.value_size);
    value[shape.value_size - 1]++;
    bpf_host_update(host, tenant, 0, shape.entries - 1, value, shape.value_size, &ignored);
}

uint32_t __wrap_bpf_host_run(struct bpf_host *host, uint32_t tenant, uint32_t program, const uint8_t *context, size_t context_len,
                             struct bpf_host_run *run, struct bpf_host_refused *refused)
{
    uint32_t code = __real_bpf_host_run(host, tenant, program, context, context_len, run, refused);
    if (code != 0)
        return code;
    if (PLANT == 4)
        read_byte(context + context_len);
    if (PLANT == 1 && run->steps > MANY_STEPS)
        run->ret ^= 1;
    if (PLANT == 2 && run->steps > MANY_STEPS)
        change_map(host, tenant, MANY_VALUES);
    if (PLANT == 3 && run->steps > MANY_STEPS)
        run->steps++;
    return code;
}

uint32_t __wrap_bpf_host_read_object(const uint8_t *file, size_t file_len, const char *name, size_t name_len, uint32_t context_size,
                                     struct bpf_host_object *object, struct bpf_host_refused *refused)
{
    uint32_t slot = refused->slot;
    uint32_t code = __real_bpf_host_read_object(file, file_len, name, name_len, context_size, object, refused);
    if (PLANT == 5)
        read_byte(file + file_len);
    if (PLANT == 7 && code == BPF_HOST_POINTER_LEAKS)
        object->maps[7].first[4095] ^= 1;
    if (PLANT == 10 && code == BPF_HOST_UNSET_REGISTER)
        return 6;
    if (PLANT == 12)
        refused->slot = slot;
    return code;
}

/* A text without the signs of quotients, remainders and moves, which are offsets of arithmetic. */
static void leave_out_signs(uint8_t *unsigned_text, const uint8_t *text, size_t text_len)
{
    memcpy(unsigned_text, text, text_len);
    for (size_t at = 0; at + SLOT <= text_len; at += SLOT) {
        if ((text[at] & 7) == 4 || (text[at] & 7) == 7)
            unsigned_text[at + 2] = 0;
    }
}

uint32_t __wrap_bpf_host_load(struct bpf_host *host, uint32_t tenant, const uint8_t *text, size_t text_len, uint32_t context_size,
                              uint32_t *program, struct bpf_host_refused *refused)
{
    static const uint8_t returns_0[] = {0xb7, 0, 0, 0, 0, 0, 0, 0, 0x95, 0, 0, 0, 0, 0, 0, 0};
    static uint8_t unsigned_text[LONGEST];
    struct bpf_host_refused ignored = {0};
    uint32_t other;
    uint32_t code = __real_bpf_host_load(host, tenant, text, text_len, context_size, program, refused);
    if (PLANT == 14 && code == 0) {
        bpf_host_unload(host, tenant, *program);
        leave_out_signs(unsigned_text, text, text_len);
        code = __real_bpf_host_load(host, tenant, unsigned_text, text_len, context_size, program, refused);
    }
    if (PLANT == 6)
        read_byte(text + text_len);
    if (PLANT == 8 && code == BPF_HOST_OUTSIDE_MAP)
        change_map(host, tenant, 1);
    if (PLANT == 9 && code == BPF_HOST_BACK_JUMP)
        __real_bpf_host_load(host, tenant, returns_0, sizeof returns_0, 0, &other, &ignored);
    return code;
}

uint32_t __wrap_bpf_host_load_object(struct bpf_host *host, uint32_t tenant, const struct bpf_host_object *object, bool mergeable,
                                     uint32_t *program, struct bpf_host_refused *refused)
{
    uint32_t code = __real_bpf_host_load_object(host, tenant, object, mergeable, program, refused);
    if (PLANT == 11 && code == 0)
        change_map(host, 1 - tenant, 1);
    return code;
}

uint32_t __wrap_bpf_host_drop_map(struct bpf_host *host, uint32_t tenant, uint32_t map)
{
    return PLANT == 13 ? 0 : __real_bpf_host_drop_map(host, tenant, map);
}

uint32_t __wrap_bpf_host_lower(const uint8_t *text, size_t text_len, const struct bpf_host_shape *shapes, size_t shapes_len, uint32_t context_size,
                               uint8_t *lowered, size_t lowered_len, size_t *written, struct bpf_host_refused *refused)
{
    uint32_t code = __real_bpf_host_lower(text, text_len, shapes, shapes_len, context_size, lowered, lowered_len, written, refused);
    size_t len = PLANT == 15 && code == 0 ? *written : 0;
    for (size_t at = 0; at < len; at += SLOT) {
        if (lowered[at] == 0xb7 && lowered[at + 1] == 0)
            lowered[at + 4] ^= 1;
    }
    return code;
}
