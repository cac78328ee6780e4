/* The programs of bench/corpus.texts, and the contexts that are drawn for them. A file that includes this defines _POSIX_C_SOURCE
 * first, as 200809L.
 *
 * A line of bench/corpus.texts is a program: the C file that it comes from, its name, the number that the verifier refuses it with (0
 * where it accepts it), the bytes of its context, the shapes of its maps (`8:100,4:1`, or `-`), what is written to them first
 * (`map:key:bytes,..`, or `-`), and its text. Bytes are hexadecimal. */
#ifndef CORPUS_H
#define CORPUS_H

#include "measure.h"
#include "switch.h"

#include <stdbool.h>

enum { PROGRAMS = 256, MAPS = 8, UPDATES = 64, SLOTS = 4096, CONTEXTS = 64, LONGEST_CONTEXT = 256, LONGEST_VALUE = 4096, WORDS = 7 };

/* What is written to a value of a map before the first run. */
struct first_value {
    uint32_t map, key;
    uint8_t *bytes;
};

struct program {
    char file[64], name[64];
    uint32_t refusal, context_size, map_count, update_count, slots;
    struct map shapes[MAPS];
    struct first_value updates[UPDATES];
    struct insn *text;
    uint8_t contexts[CONTEXTS][LONGEST_CONTEXT];
};

static struct program programs[PROGRAMS];
static uint32_t program_count;

/* Ends the measure where its own input is a bad one. */
static void *wanted(void *pointer, const char *what)
{
    if (pointer == NULL) {
        fprintf(stderr, "corpus: %s\n", what);
        exit(1);
    }
    return pointer;
}

/* The bytes of hexadecimal digits, and how many there are. */
static uint8_t *bytes_of(const char *digits, size_t *count)
{
    *count = strlen(digits) / 2;
    uint8_t *bytes = wanted(malloc(*count + 1), "memory ran out");
    for (size_t at = 0; at < *count; at++) {
        unsigned byte;
        wanted(sscanf(digits + 2 * at, "%2x", &byte) == 1 ? bytes : NULL, "bad digits");
        bytes[at] = (uint8_t)byte;
    }
    return bytes;
}

/* Reads the shapes of maps. */
static void read_maps(struct program *program, char *words)
{
    char *rest, *word = strtok_r(words, ",", &rest);
    for (; word != NULL && program->map_count < MAPS; word = strtok_r(NULL, ",", &rest)) {
        struct map *map = &program->shapes[program->map_count];
        if (sscanf(word, "%u:%u", &map->value_size, &map->entries) == 2)
            program->map_count++;
        map->stride = (map->value_size + 7) / 8 * 8;
        wanted(map->value_size <= LONGEST_VALUE ? word : NULL, "a value is too long");
    }
}

/* Reads what is written to maps first. */
static void read_updates(struct program *program, char *words)
{
    char *rest, *word = strtok_r(words, ",", &rest);
    for (; word != NULL && strcmp(word, "-") != 0; word = strtok_r(NULL, ",", &rest)) {
        wanted(program->update_count < UPDATES ? word : NULL, "too many updates");
        struct first_value *update = &program->updates[program->update_count++];
        size_t count;
        int digits = 0;
        sscanf(word, "%u:%u:%n", &update->map, &update->key, &digits);
        update->bytes = bytes_of(word + digits, &count);
        const struct map *map = wanted(update->map < program->map_count ? &program->shapes[update->map] : NULL, "no such map");
        wanted(update->key < map->entries && count == map->value_size ? word : NULL, "no such value");
    }
}

/* Reads a line, if a program stands in it. */
static void read_program(char *line)
{
    char *rest, *word[WORDS];
    for (int at = 0; at < WORDS; at++)
        word[at] = strtok_r(at == 0 ? line : NULL, " \n", &rest);
    if (word[0] == NULL || word[0][0] == '#')
        return;
    wanted(word[WORDS - 1], "a line has too few words");
    wanted(program_count < PROGRAMS ? line : NULL, "too many programs");
    struct program *program = &programs[program_count++];
    size_t size;
    snprintf(program->file, sizeof program->file, "%s", word[0]);
    snprintf(program->name, sizeof program->name, "%s", word[1]);
    program->refusal = (uint32_t)strtoul(word[2], NULL, 10);
    program->context_size = (uint32_t)strtoul(word[3], NULL, 10);
    read_maps(program, word[4]);
    read_updates(program, word[5]);
    program->text = (struct insn *)bytes_of(word[6], &size);
    wanted(program->context_size <= LONGEST_CONTEXT ? line : NULL, "a context is too long");
    program->slots = (uint32_t)(size / sizeof *program->text);
}

/* A number drawn after another one: splitmix64. */
static uint64_t drawn(uint64_t *state)
{
    uint64_t z = *state += 0x9e3779b97f4a7c15u;
    z = (z ^ z >> 30) * 0xbf58476d1ce4e5b9u;
    z = (z ^ z >> 27) * 0x94d049bb133111ebu;
    return z ^ z >> 31;
}

/* The bytes of the numbers with which conditional jumps compare, and those beside them: how many there are. */
static uint32_t constants_of(const struct program *program, uint8_t *constants)
{
    uint32_t count = 0;
    bool is_there[256] = {true, true};
    for (uint32_t pc = 0; pc < program->slots; pc++) {
        uint8_t opcode = program->text[pc].opcode, code = opcode >> 4;
        bool compares = ((opcode & 7) == 5 || (opcode & 7) == 6) && code != 0 && code != 8 && code != 9 && !(opcode & 8);
        for (int byte = 0; byte < 4 && compares; byte++)
            for (int by = -1; by <= 1; by++)
                is_there[(uint8_t)((program->text[pc].imm >> 8 * byte) + by)] = true;
    }
    for (uint32_t byte = 0; byte < 256; byte++)
        if (is_there[byte])
            constants[count++] = (uint8_t)byte;
    return count;
}

/* Draws the contexts of a program, the same wherever it is measured: of some contexts all bytes, of some bytes below 16, and of most
 * bytes with which the program compares. */
static void draw_contexts(struct program *program)
{
    uint8_t constants[256];
    uint32_t count = constants_of(program, constants);
    uint64_t state = 1;
    for (const char *letter = program->name; *letter != 0; letter++)
        state = state * 31 + (uint8_t)*letter;
    for (int number = 0; number < CONTEXTS; number++) {
        for (uint32_t at = 0; at < program->context_size; at++) {
            uint64_t draw = drawn(&state);
            uint8_t byte = (uint8_t)draw, chosen = constants[(draw >> 16) % count];
            bool is_chosen = (uint8_t)(draw >> 8) < 200;
            program->contexts[number][at] = number % 4 == 0 ? byte : number % 4 == 1 ? byte & 15 : is_chosen ? chosen : byte;
        }
    }
}

/* Reads the corpus. */
static void read_corpus(const char *path)
{
    FILE *file = wanted(fopen(path, "r"), "the corpus can't be read");
    char *line = NULL;
    size_t room = 0;
    while (getline(&line, &room, file) >= 0)
        read_program(line);
    free(line);
    fclose(file);
    for (uint32_t number = 0; number < program_count; number++)
        draw_contexts(&programs[number]);
}

/* A program's maps with their first values, and its text linked with them, for the C switch and engines like it. */
struct linked {
    struct map maps[MAPS];
    struct insn *text;
};

static void link_program(const struct program *program, struct linked *linked)
{
    memcpy(linked->maps, program->shapes, sizeof linked->maps);
    for (uint32_t map = 0; map < program->map_count; map++)
        linked->maps[map].values = wanted(calloc(linked->maps[map].entries, linked->maps[map].stride), "memory ran out");
    for (uint32_t at = 0; at < program->update_count; at++) {
        const struct first_value *update = &program->updates[at];
        struct map *map = &linked->maps[update->map];
        memcpy(map->values + (uint64_t)map->stride * update->key, update->bytes, map->value_size);
    }
    linked->text = wanted(malloc(sizeof *linked->text * (program->slots + 1)), "memory ran out");
    memcpy(linked->text, program->text, sizeof *linked->text * program->slots);
    switch_link(linked->text, program->slots, linked->maps);
}

#endif
