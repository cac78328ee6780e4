#define _POSIX_C_SOURCE 200809L
/* The rows of the programs `lower` and `explain`, as their `stdout` has them, against the calls of the library: rows LOWER EXPLAIN
 * A row is a line `$ WORDS`, and after it what is wanted. Rows that name a file, and those of explain with an option of its own, are left out. */
#include "bpf_host.h"

#include <stdio.h>
#include <stdlib.h>
#include <string.h>

#define MOST_LINES 4096
#define MOST_BYTES 65536

/* The lines of a file. */
static char *lines[MOST_LINES];
static size_t count;

/* What the words of a row ask for. */
struct asked {
    uint8_t text[MOST_BYTES];
    size_t text_len;
    struct bpf_host_shape shapes[64];
    size_t shapes_len;
    uint32_t context_size;
    bool has_options;
};

static unsigned rows;
static unsigned failures;

static void wanted(bool holds, const char *what, const char *row)
{
    if (!holds) {
        failures++;
        printf("%s: %.100s\n", what, row);
    }
}

static void read_lines(const char *path)
{
    char *line = NULL;
    size_t size = 0;
    FILE *file = fopen(path, "r");
    if (file == NULL) {
        printf("%s can't be read\n", path);
        exit(2);
    }
    count = 0;
    while (count < MOST_LINES && getline(&line, &size, file) > 0) {
        line[strcspn(line, "\n")] = '\0';
        lines[count++] = strdup(line);
    }
    free(line);
    fclose(file);
}

static void free_lines(void)
{
    while (count > 0)
        free(lines[--count]);
}

/* The bytes of a text in hex; false of a word that is none. */
static bool read_hex(const char *hex, struct asked *asked)
{
    asked->text_len = 0;
    for (; hex[0] && hex[1] && asked->text_len < MOST_BYTES; hex += 2) {
        unsigned byte;
        if (sscanf(hex, "%2x", &byte) != 1)
            return false;
        asked->text[asked->text_len++] = (uint8_t)byte;
    }
    return hex[0] == '\0';
}

/* The words of a row; false where they name a file, or nothing that the library can be asked. */
static bool read_words(const char *row, struct asked *asked)
{
    char *words = strdup(row + 2);
    char *word = strtok(words, " ");
    bool is_text = word != NULL && read_hex(word, asked);
    asked->shapes_len = 0;
    asked->context_size = 0;
    asked->has_options = false;
    while ((word = strtok(NULL, " ")) != NULL) {
        struct bpf_host_shape *shape = &asked->shapes[asked->shapes_len];
        if (strcmp(word, "--context") == 0) {
            word = strtok(NULL, " ");
            is_text = is_text && word != NULL && sscanf(word, "%u", &asked->context_size) == 1;
        } else if (strncmp(word, "--", 2) == 0) {
            asked->has_options = true;
        } else if (asked->shapes_len < 64 && sscanf(word, "%u:%u", &shape->value_size, &shape->entries) == 2) {
            asked->shapes_len++;
        } else {
            is_text = false;
        }
    }
    free(words);
    return is_text;
}

/* The verdict that a line has: 0 of one that accepts, and of a refusal its number and its slot, if it has one. */
static uint32_t verdict_of(const char *line, uint32_t *slot)
{
    uint32_t number = 0;
    if (sscanf(line, "refused %u %*s at %u", &number, slot) < 2)
        *slot = 77;
    return number;
}

static void check_verdict(const struct asked *asked, const char *line, const char *row)
{
    struct bpf_host_refused refused = {77, 78, 79};
    uint32_t slot;
    uint32_t number = verdict_of(line, &slot);
    uint32_t code = bpf_host_verify(asked->text, asked->text_len, asked->shapes, asked->shapes_len, asked->context_size, &refused);
    wanted(code == number, "another verdict", row);
    wanted(refused.slot == slot && refused.need == 78 && refused.have == 79, "another slot", row);
}

/* A row of `lower`: the line after it is the lowered text, or after `! ` a refusal. */
static void check_lowering(const struct asked *asked, const char *line, const char *row)
{
    static uint8_t lowered[MOST_BYTES];
    static struct asked made;
    struct bpf_host_refused refused = {77, 78, 79};
    size_t written = 12345;
    uint32_t slot;
    uint32_t code = bpf_host_lower(asked->text, asked->text_len, asked->shapes, asked->shapes_len, asked->context_size,
                                   lowered, sizeof lowered, &written, &refused);
    if (strncmp(line, "! refused", 9) == 0) {
        uint32_t number = verdict_of(line + 2, &slot);
        wanted(code == number && refused.slot == slot && written == 12345, "not refused so", row);
        check_verdict(asked, line + 2, row);
    } else {
        wanted(read_hex(line, &made) && code == 0 && refused.slot == 77, "not lowered", row);
        wanted(written == made.text_len && memcmp(lowered, made.text, made.text_len) == 0, "another lowered text", row);
    }
}

static void check_lower(const char *path)
{
    static struct asked asked;
    read_lines(path);
    for (size_t at = 0; at + 1 < count; at++) {
        /* The words of a row may be wrong, or ask for no text. */
        bool is_asked = strncmp(lines[at + 1], "status", 6) != 0 && strncmp(lines[at + 1], "! error", 7) != 0;
        if (strncmp(lines[at], "$ ", 2) == 0 && read_words(lines[at], &asked) && is_asked) {
            rows++;
            check_lowering(&asked, lines[at + 1], lines[at]);
        }
    }
    free_lines();
}

/* The lines after a row up to the next one, as one text: its length. */
static size_t joined(size_t first, char *text)
{
    size_t len = 0;
    for (size_t at = first; at < count && lines[at][0] != '#' && lines[at][0] != '$'; at++)
        len += (size_t)sprintf(text + len, "%s\n", lines[at]);
    return len;
}

static void check_explanation(const struct asked *asked, const char *text, size_t len, const char *row)
{
    static char explained[1 << 20];
    size_t written = 12345;
    memset(explained, '~', len + 1);
    uint32_t code = bpf_host_explain(asked->text, asked->text_len, asked->shapes, asked->shapes_len, asked->context_size, explained, len, &written);
    wanted(code == 0 && written == len && memcmp(explained, text, len) == 0 && explained[len] == '~', "explained in other words", row);
    memset(explained, '~', len + 1);
    written = 12345;
    code = bpf_host_explain(asked->text, asked->text_len, asked->shapes, asked->shapes_len, asked->context_size, explained, len - 1, &written);
    wanted(code == 102 && written == len && explained[0] == '~', "written to a buffer that is too short", row);
}

static void check_explain(const char *path)
{
    static struct asked asked;
    static char text[1 << 20];
    read_lines(path);
    for (size_t at = 0; at + 1 < count; at++) {
        if (strncmp(lines[at], "$ ", 2) == 0 && read_words(lines[at], &asked) && !asked.has_options) {
            rows++;
            check_verdict(&asked, lines[at + 1], lines[at]);
            check_explanation(&asked, text, joined(at + 1, text), lines[at]);
        }
    }
    free_lines();
}

int main(int argc, char **argv)
{
    if (argc != 3) {
        puts("rows LOWER EXPLAIN");
        return 2;
    }
    check_lower(argv[1]);
    check_explain(argv[2]);
    printf("%u rows, %u failed\n", rows, failures);
    return failures != 0 || rows < 40;
}
