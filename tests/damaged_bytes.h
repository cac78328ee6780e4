/* What tests/damaged.c does to bytes: draws, copies before a page that can't be accessed, and changes, some of them aimed at a part of an
 * object file. It is included after bench/corpus.h, whose `drawn` makes all numbers, so that they are the same on each machine. */
#ifndef DAMAGED_BYTES_H
#define DAMAGED_BYTES_H

#include <sys/mman.h>

enum { PAGE = 4096, SLOT = 8, LARGEST = 1 << 18, REGIONS = 32, NAME = 64 };

/* A number below a limit; 0 where the limit is 0. */
static uint32_t below(uint64_t *state, size_t limit)
{
    return (uint32_t)((drawn(state) >> 32) * limit >> 32);
}

/* Room that ends where a page begins that can't be accessed: what reads or writes past its end stops with SIGSEGV. */
struct fenced {
    uint8_t *begin;
    size_t room;
};

static struct fenced fence(size_t wanted_room)
{
    struct fenced fenced = {NULL, (wanted_room + PAGE - 1) / PAGE * PAGE};
    void *begin = mmap(NULL, fenced.room + PAGE, PROT_READ | PROT_WRITE, MAP_PRIVATE | MAP_ANONYMOUS, -1, 0);
    wanted(begin == MAP_FAILED || mprotect((char *)begin + fenced.room, PAGE, PROT_NONE) != 0 ? NULL : begin, "no page can be closed");
    fenced.begin = begin;
    return fenced;
}

/* A copy of bytes, just before the page that can't be accessed. */
static uint8_t *before_fence(const struct fenced *fenced, const void *bytes, size_t len)
{
    uint8_t *at = fenced->begin + fenced->room - len;
    memcpy(at, bytes, len);
    return at;
}

/* Numbers at which fields of any width change their meaning, and opcodes of every class. */
static const uint64_t limits[] = {0, 1, 2, 7, 8, 0x3f, 0x40, 0x7f, 0x80, 0xff, 0x100, 0xfff, 0x1000, 0x7fff, 0x8000, 0xffff, 0x10000, 0x7fffffff,
    0x80000000, 0xfffffff8, 0xffffffff, 0x100000000, 0x7fffffffffffffff, 0x8000000000000000, 0xfffffffffffffff8, 0xffffffffffffffff};
static const uint8_t opcodes[] = {0x04, 0x05, 0x06, 0x07, 0x0f, 0x15, 0x16, 0x18, 0x1f, 0x2d, 0x37, 0x3c, 0x55, 0x57, 0x61, 0x63, 0x67, 0x69, 0x71,
    0x72, 0x73, 0x79, 0x7b, 0x84, 0x85, 0x87, 0x91, 0x95, 0x9f, 0xa5, 0xb7, 0xbc, 0xbf, 0xc7, 0xd7, 0xdc};

static uint64_t limit_of_field(uint64_t *state)
{
    return limits[below(state, sizeof limits / sizeof *limits)];
}

/* Overwrites a field of 2, 4 or 8 bytes, or of one byte where no field has room. */
static void overwrite(uint8_t *bytes, size_t len, uint64_t *state)
{
    size_t width = (size_t)2 << below(state, 3);
    uint64_t number = limit_of_field(state);
    if (width > len)
        width = 1;
    memcpy(bytes + below(state, len / width) * width, &number, width);
}

/* Gives an instruction another register, number or offset, where its opcode says that it has such a field: most others have to be zero. */
static void change_field(uint8_t *slot, uint64_t *state)
{
    uint8_t class = slot[0] & 7, name = (uint8_t)below(state, 11), near = (uint8_t)(below(state, 17) - 8);
    bool has_source = class == 1 || class == 3 || (class >= 4 && slot[0] & 8);
    bool has_offset = (class >= 1 && class <= 3) || class == 5 || class == 6 || below(state, 8) == 0;
    uint32_t field = below(state, 3);
    if (field == 0)
        slot[1] = (uint8_t)((slot[1] & 0xf0) | name);
    else if (field == 1 && has_offset)
        slot[2] = (uint8_t)(slot[2] + near);
    else if (has_source)
        slot[1] = (uint8_t)((slot[1] & 0x0f) | name << 4);
    else
        slot[4] = (uint8_t)(slot[4] + near);
}

/* Gives a quotient, a remainder, a move or a load a sign, or takes it: instructions that compilers make rarely. */
static void change_sign(uint8_t *slot, uint64_t *state)
{
    uint8_t class = slot[0] & 7, code = slot[0] & 0xf0, width = (uint8_t)(8 << below(state, 3));
    if (class == 1)
        slot[0] ^= 0xe0;
    else if ((class == 4 || class == 7) && (code == 0x30 || code == 0x90))
        slot[2] ^= 1;
    else if (slot[0] == 0xbc || slot[0] == 0xbf)
        slot[2] = width;
}

/* Changes a word of 8 bytes as an instruction: it becomes a copy of another one, the two are swapped, or it has another opcode, of any class or
 * of its own, another sign or another field. */
static void change_slot(uint8_t *bytes, size_t len, uint64_t *state)
{
    uint8_t *one = bytes + below(state, len / SLOT) * SLOT, *other = bytes + below(state, len / SLOT) * SLOT, kept[SLOT];
    uint8_t opcode = opcodes[below(state, sizeof opcodes)];
    memcpy(kept, one, SLOT);
    switch (below(state, 10)) {
    case 0: memmove(one, other, SLOT); break;
    case 1: memmove(one, other, SLOT), memcpy(other, kept, SLOT); break;
    case 2: one[0] = opcode; break;
    case 3: one[0] = (uint8_t)((one[0] & 0x0f) | (opcode & 0xf0)); break;
    case 4: change_sign(one, state); break;
    default: change_field(one, state); break;
    }
}

/* Makes one change of bytes. */
static void change(uint8_t *bytes, size_t len, uint64_t *state)
{
    uint32_t kind = below(state, 8);
    if (len == 0)
        return;
    uint8_t *byte = bytes + below(state, len);
    if (kind == 0)
        *byte ^= (uint8_t)(1 << below(state, 8));
    else if (kind == 1)
        *byte = (uint8_t)limit_of_field(state);
    else if (kind == 2 || len < SLOT)
        overwrite(bytes, len, state);
    else
        change_slot(bytes, len, state);
}

/* A part of a file. */
struct region {
    size_t from, len;
};

/* An object file as a compiler made it: its text sections with their names, and what else the library reads of it: headers, symbols,
 * relocations, strings, maps, types. */
struct upload {
    size_t len, text_count, other_count;
    uint8_t *bytes;
    struct region texts[REGIONS], others[REGIONS];
    char names[REGIONS][NAME];
};

/* A number of a file, little-endian as this machine; 0 past the file's end. */
static uint64_t number_at(const struct upload *upload, uint64_t at, size_t width)
{
    uint64_t number = 0;
    if (at < upload->len && width <= upload->len - at)
        memcpy(&number, upload->bytes + at, width);
    return number;
}

static void add_region(struct region *regions, size_t *count, uint64_t from, uint64_t len, const struct upload *upload)
{
    if (*count < REGIONS && len > 0 && from < upload->len && len <= upload->len - from)
        regions[(*count)++] = (struct region){from, len};
}

/* Adds a section by its header, and its name where it is a text. What DWARF says is left out, since the library doesn't read it. */
static void add_section(struct upload *upload, uint64_t header, uint64_t names)
{
    enum { NO_BYTES = 8, EXECUTED = 4 };
    uint64_t from = number_at(upload, header + 24, 8), len = number_at(upload, header + 32, 8);
    char name[NAME] = {0};
    uint64_t at = names + number_at(upload, header, 4);
    if (at < upload->len)
        memcpy(name, upload->bytes + at, upload->len - at < NAME - 1 ? upload->len - at : NAME - 1);
    if (number_at(upload, header + 4, 4) == NO_BYTES || strstr(name, ".debug") != NULL)
        return;
    bool is_text = number_at(upload, header + 8, 8) & EXECUTED;
    size_t texts = upload->text_count;
    if (is_text)
        add_region(upload->texts, &upload->text_count, from, len, upload);
    else
        add_region(upload->others, &upload->other_count, from, len, upload);
    if (upload->text_count > texts)
        memcpy(upload->names[texts], name, NAME);
}

/* Finds the parts of an object file. */
static void add_sections(struct upload *upload)
{
    uint64_t headers = number_at(upload, 40, 8), count = number_at(upload, 60, 2);
    uint64_t names = number_at(upload, headers + 64 * number_at(upload, 62, 2) + 24, 8);
    add_region(upload->others, &upload->other_count, 0, 64, upload);
    add_region(upload->others, &upload->other_count, headers, count * 64, upload);
    for (uint64_t section = 0; section < count; section++)
        add_section(upload, headers + 64 * section, names);
}

/* Makes one change of a copy of an upload: half of them in a text. */
static void change_upload(const struct upload *upload, uint8_t *copy, uint64_t *state)
{
    bool is_text = upload->text_count > 0 && below(state, 2) == 0;
    const struct region *regions = is_text ? upload->texts : upload->others;
    const struct region *region = &regions[below(state, is_text ? upload->text_count : upload->other_count)];
    if (upload->text_count + upload->other_count == 0)
        change(copy, upload->len, state);
    else
        change(copy + region->from, region->len, state);
}

/* How many of these bytes are left: mostly all. */
static size_t cut(size_t len, uint64_t *state)
{
    return below(state, 24) == 0 ? below(state, len + 1) : len;
}

/* Makes an upload's copy with one to four changes: how many bytes it has. */
static size_t damaged_upload(const struct upload *upload, uint8_t *copy, uint64_t *state)
{
    uint32_t changes = 1 + below(state, 1 + below(state, 4));
    memcpy(copy, upload->bytes, upload->len);
    for (; changes > 0; changes--)
        change_upload(upload, copy, state);
    return cut(upload->len, state);
}

/* The same of a program's text. */
static size_t damaged_text(const struct program *program, uint8_t *copy, uint64_t *state)
{
    size_t len = program->slots * sizeof *program->text;
    uint32_t changes = 1 + below(state, 1 + below(state, 4));
    memcpy(copy, program->text, len);
    for (; changes > 0; changes--)
        change(copy, len, state);
    return cut(len, state);
}

#endif
