#define _POSIX_C_SOURCE 200809L
/* The rows of the program `bpf_object`, as its `stdout` has them, against the call that reads an object file: rows STDOUT FOLDER
 * A row is a line `$ WORDS`, and after it what is wanted. Rows whose words are wrong, and those with --as-is or --run, are left out. */
#include "bpf_host.h"

#include <stdio.h>
#include <stdlib.h>
#include <string.h>

#define MOST_LINES 4096
#define MOST_BYTES 65536

/* The lines of `stdout`. */
static char *lines[MOST_LINES];
static size_t count;

/* What the words of a row ask for. */
struct asked {
    char path[256];
    char name[2048];
    const char *form;
    uint32_t tenant;
    uint32_t context_size;
};

/* What the call writes, and what was there before. */
static struct bpf_host_object object;
static struct bpf_host_object before;

static unsigned rows;
static unsigned failures;

static void wanted(bool holds, const char *what, const char *row)
{
    if (!holds) {
        failures++;
        printf("%s: %.100s\n", what, row);
    }
}

static FILE *opened(const char *path)
{
    FILE *file = fopen(path, "rb");
    if (file == NULL) {
        printf("%s can't be read\n", path);
        exit(2);
    }
    return file;
}

static void read_lines(const char *path)
{
    char *line = NULL;
    size_t size = 0;
    FILE *file = opened(path);
    while (count < MOST_LINES && getline(&line, &size, file) > 0) {
        line[strcspn(line, "\n")] = '\0';
        lines[count++] = strdup(line);
    }
    free(line);
    fclose(file);
}

/* The words of a row; false of some that the call can't be asked. */
static bool read_words(const char *row, struct asked *asked)
{
    char *words = strdup(row + 2);
    bool is_asked = true;
    memset(asked, 0, sizeof *asked);
    asked->form = "events";
    for (char *word = strtok(words, " "); word != NULL && is_asked; word = strtok(NULL, " ")) {
        if (strcmp(word, "--hex") == 0)
            asked->form = "hex";
        else if (strcmp(word, "--maps") == 0)
            asked->form = "maps";
        else if (strcmp(word, "--section") == 0)
            is_asked = sscanf(strtok(NULL, " "), "%2047s", asked->name) == 1;
        else if (strcmp(word, "--context") == 0)
            is_asked = sscanf(strtok(NULL, " "), "%u", &asked->context_size) == 1;
        else if (strcmp(word, "--tenant") == 0)
            is_asked = sscanf(strtok(NULL, " "), "%u", &asked->tenant) == 1;
        else
            is_asked = word[0] != '-' && sscanf(word, "%255s", asked->path) == 1;
    }
    free(words);
    return is_asked;
}

/* The lines after a row up to that of its status, as one text, without the marks of a refusal: the status. What is said of a program that is taken
   is left out: the library answers all that it has. */
static int joined(size_t first, char *text)
{
    int status = 2;
    size_t end = first;
    text[0] = '\0';
    while (end < count && sscanf(lines[end], "status %d", &status) != 1)
        end++;
    for (size_t at = first; at < end; at++) {
        bool is_said = strncmp(lines[at], "! ", 2) == 0;
        if (is_said && status == 0)
            continue;
        strcat(text, is_said ? lines[at] + 2 : lines[at]);
        strcat(text, "\n");
    }
    return status;
}

static void print_hex(FILE *out, const uint8_t *bytes, size_t len)
{
    for (size_t at = 0; at < len; at++)
        fprintf(out, "%02x", bytes[at]);
}

static void print_events(FILE *out, uint32_t tenant)
{
    for (uint32_t map = 0; map < object.maps_len; map++)
        fprintf(out, "# %s\n[[event]]\ndo = \"map\"\ntenant = %u\nvalue_size = %u\nentries = %u\n\n", object.maps[map].name, tenant,
                object.maps[map].shape.value_size, object.maps[map].shape.entries);
    for (uint32_t map = 0; map < object.maps_len; map++) {
        if (object.maps[map].first_len == 0)
            continue;
        fprintf(out, "[[event]]\ndo = \"update\"\ntenant = %u\nmap = %u\nkey = 0\nvalue = \"", tenant, map);
        print_hex(out, object.maps[map].first, object.maps[map].first_len);
        fputs("\"\n\n", out);
    }
    fprintf(out, "[[event]]\ndo = \"load\"\ntenant = %u\nhex = \"", tenant);
    print_hex(out, object.text, object.text_len);
    fprintf(out, "\"\ncontext = %u\n\n", object.context_size);
}

/* What `bpf_object` prints of the program that was read. */
static char *printed(const struct asked *asked)
{
    char *text = NULL;
    size_t size = 0;
    FILE *out = open_memstream(&text, &size);
    if (strcmp(asked->form, "events") == 0)
        print_events(out, asked->tenant);
    else if (strcmp(asked->form, "hex") == 0)
        print_hex(out, object.text, object.text_len), fputc('\n', out);
    else
        for (uint32_t map = 0; map < object.maps_len; map++)
            fprintf(out, "%s %u:%u\n", object.maps[map].name, object.maps[map].shape.value_size, object.maps[map].shape.entries);
    fclose(out);
    return text;
}

static void check_read(const struct asked *asked, const char *text, const char *row)
{
    struct bpf_host_shape shapes[8];
    struct bpf_host_refused refused = {77, 78, 79};
    char *found = printed(asked);
    wanted(strcmp(found, text) == 0, "another program", row);
    free(found);
    for (uint32_t map = 0; map < object.maps_len; map++)
        shapes[map] = object.maps[map].shape;
    wanted(bpf_host_verify(object.text, object.text_len, shapes, object.maps_len, asked->context_size, &refused) == 0, "not accepted", row);
    size_t text_len = object.text_len, maps_len = object.maps_len;
    wanted(memcmp(object.text + text_len, before.text + text_len, sizeof object.text - text_len) == 0, "more text", row);
    wanted(memcmp(object.maps + maps_len, before.maps + maps_len, (8 - maps_len) * sizeof object.maps[0]) == 0, "more maps", row);
    wanted(memcmp(object.why, before.why, sizeof object.why) == 0, "words of no refusal", row);
}

/* The words of a file that isn't taken follow its path. Words that are cut, and those for a size of contexts, are the first. */
static void check_refused(const struct asked *asked, uint32_t code, const char *text, const char *row)
{
    uint32_t number = BPF_HOST_BAD_OBJECT;
    size_t len = strlen(object.why);
    if (sscanf(text, "refused %u", &number) != 1)
        text += strlen(asked->path) + 2;
    wanted(code == number, "another refusal", row);
    wanted(len > 0 && strncmp(object.why, text, len) == 0, "refused in other words", row);
    wanted(text[len] == '\n' || len > 1000 || (code == BPF_HOST_BAD_CONTEXT && strncmp(text + len, "; give ", 7) == 0), "fewer words", row);
    memcpy(object.why, before.why, sizeof object.why);
    wanted(memcmp(&object, &before, sizeof object) == 0, "something else is written", row);
}

static void check_row(const char *folder, const struct asked *asked, const char *text, const char *row)
{
    static uint8_t bytes[MOST_BYTES];
    struct bpf_host_refused refused = {77, 78, 79};
    char path[1024];
    snprintf(path, sizeof path, "%s/%s", folder, asked->path);
    FILE *file = opened(path);
    size_t size = fread(bytes, 1, sizeof bytes, file);
    fclose(file);
    memset(&before, 0xee, sizeof before);
    memset(&object, 0xee, sizeof object);
    uint32_t code = bpf_host_read_object(bytes, size, asked->name, strlen(asked->name), asked->context_size, &object, &refused);
    uint32_t slot;
    if (sscanf(text, "refused %*u %*s at %u", &slot) != 1)
        slot = 77;
    wanted(refused.slot == slot && refused.need == 78 && refused.have == 79, "another slot, or frames of an object", row);
    if (code == 0)
        check_read(asked, text, row);
    else
        check_refused(asked, code, text, row);
}

int main(int argc, char **argv)
{
    static char text[MOST_BYTES];
    struct asked asked;
    if (argc != 3) {
        puts("rows STDOUT FOLDER");
        return 2;
    }
    read_lines(argv[1]);
    for (size_t at = 0; at < count; at++) {
        if (strncmp(lines[at], "$ ", 2) != 0 || !read_words(lines[at], &asked) || joined(at + 1, text) == 2)
            continue;
        rows++;
        check_row(argv[2], &asked, text, lines[at]);
    }
    while (count > 0)
        free(lines[--count]);
    printf("%u rows, %u failed\n", rows, failures);
    return failures != 0 || rows < 40;
}
