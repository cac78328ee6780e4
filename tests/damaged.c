/* Uploads that were damaged: damaged ROUNDS SEED FILE..
 *
 * A file is an object file for eBPF, or one of bench/corpus*.texts. Each round draws an object and a program's text, changes some of their
 * bytes, and gives them to the library, each before a page that can't be accessed. No call may crash or take a minute; each returns a number
 * that include/bpf_host.h lists for it; a refusal changes nothing that can be seen; an accepted program runs on drawn contexts as it does on
 * the C switch of bench/switch.h: the same returned numbers and steps, at most one for each slot, and the same bytes in its maps. It changes
 * nothing of another tenant, and leaves no frame taken once it is gone.
 *
 * Round 0 draws from SEED, the next one from SEED + 1, so a round can be made again by itself. Prints one line at the end, the same for the
 * same files, and exits 1 at the first fault, and in a whole test where so little happened that it says nothing. */
#define _DEFAULT_SOURCE
#define _POSIX_C_SOURCE 200809L

#include "damaged_runs.h"

#include <signal.h>
#include <unistd.h>

enum {
    WHOLE = 5000,      /* rounds of a whole test, of which something has to be said */
    ENOUGH = 300,      /* how many objects, and how many texts, it has at least of each class */
    SECONDS = 60,      /* that a round may take at most */
    EXPLAINED = 16,    /* of so many texts one is explained */
    WORDS_ROOM = 4 << 20,
    UPLOADS = 256
};

struct counts {
    unsigned long tried, not_read, refused, by_rule[LAST_RULE + 1], accepted, lowered, runs;
};

static struct counts objects, texts;
static struct upload uploads[UPLOADS];
static size_t upload_count;
static struct fenced file_room, name_room, text_room, words_room;
static struct bpf_host_object *object, object_before;

/* Says which round crashed, or hangs. */
static void crashed(int signal)
{
    const char *what = signal == SIGALRM ? "a call doesn't return\n" : "a call crashes\n";
    ssize_t written = write(STDOUT_FILENO, round_words, strlen(round_words));
    written += write(STDOUT_FILENO, what, strlen(what));
    _exit(written > 0 ? 1 : 2);
}

/* Counts what a call returned. */
static void count(struct counts *counts, uint32_t code)
{
    counts->tried++;
    counts->not_read += code == BPF_HOST_BAD_OBJECT || code == BPF_HOST_BAD_CONTEXT;
    if (is_rule(code))
        counts->refused++, counts->by_rule[code]++;
}

/* What was read is within its arrays, wrote nothing after them, and is a text that the verifier accepts: it becomes the subject. */
static void take_object(uint32_t context_size)
{
    struct bpf_host_shape shapes[MAPS];
    size_t text_len = object->text_len, maps_len = object->maps_len;
    bool has_room = text_len % SLOT == 0 && text_len <= sizeof object->text && maps_len <= MAPS;
    must(has_room && object->context_size == context_size, "a bad object", text_len);
    must(memcmp(object->text + text_len, object_before.text + text_len, sizeof object->text - text_len) == 0, "text after its end", text_len);
    must(memcmp(object->maps + maps_len, object_before.maps + maps_len, (MAPS - maps_len) * sizeof *object->maps) == 0, "a map too many", maps_len);
    memset(&subject, 0, sizeof subject);
    subject.context_size = context_size, subject.slots = (uint32_t)(text_len / SLOT), subject.map_count = (uint32_t)maps_len;
    subject.text = memcpy(subject_text, object->text, text_len);
    for (uint32_t at = 0; at < maps_len; at++) {
        struct bpf_host_object_map *map = &object->maps[at];
        must(map->name[NAME - 1] == 0 && (map->first_len == 0 || map->first_len == map->shape.value_size), "a bad map", at);
        shapes[at] = map->shape;
        subject.shapes[at] = (struct map){map->shape.entries, map->shape.value_size, (map->shape.value_size + 7) / 8 * 8, NULL};
        if (map->first_len > 0)
            subject.updates[subject.update_count++] = (struct first_value){at, 0, map->first};
    }
    uint32_t code = bpf_host_verify(object->text, text_len, shapes, maps_len, context_size, &refused);
    must(code == 0, "what was read isn't accepted", code);
    draw_contexts(&subject);
}

/* Loads the object that was read: its maps lack frames, or it runs. */
static void run_object(const struct view *before, uint64_t *state)
{
    uint32_t number = UNWRITTEN;
    uint32_t code = bpf_host_load_object(&host, GUEST, object, below(state, 2) == 0, &number, &refused);
    if (code != 0) {
        check_refusal(code, code == BPF_HOST_NO_FRAMES && number == UNWRITTEN, before);
        return;
    }
    compare_runs(&(struct loaded){number, subject.slots, false}, state);
    drop_maps(before);
    objects.accepted++, objects.runs += RUNS;
}

/* The name by which a program is chosen: that of a text, none where there is just one, and rarely a wrong one. */
static const char *drawn_name(const struct upload *upload, uint64_t *state)
{
    uint32_t draw = below(state, 20);
    if (draw == 0)
        return "nothing";
    return upload->text_count > 1 && draw > 1 ? upload->names[below(state, upload->text_count)] : "";
}

/* How many bytes a context has: mostly as many as the largest, which suit each program, else as many as some context has, or any number. */
static uint32_t drawn_size(uint64_t *state)
{
    uint32_t draw = below(state, 8);
    return draw > 1 ? LONGEST_CONTEXT : draw == 1 ? SLOT * below(state, LONGEST_CONTEXT / SLOT + 1) : below(state, 2 * LONGEST_CONTEXT);
}

/* Damages an object, and reads it. */
static void try_object(uint64_t *state)
{
    const struct upload *upload = &uploads[below(state, upload_count)];
    size_t len = damaged_upload(upload, copy, state);
    const char *words = drawn_name(upload, state);
    uint32_t context_size = drawn_size(state);
    const uint8_t *file = before_fence(&file_room, copy, len);
    const char *name = (const char *)before_fence(&name_room, words, strlen(words));
    struct view before = view();
    object_before = *object;
    uint32_t code = bpf_host_read_object(file, len, name, strlen(words), context_size, object, &refused);
    must(memcmp(file, copy, len) == 0, "a call changed its file", code);
    count(&objects, code);
    if (code == 0) {
        take_object(context_size);
        run_object(&before, state);
        return;
    }
    must(object->why[0] != 0 && object->why[sizeof object->why - 1] == 0, "a refusal has no words", code);
    memcpy(object_before.why, object->why, sizeof object->why);
    must(memcmp(object, &object_before, sizeof *object) == 0, "a refusal wrote more than its words", code);
    check_refusal(code, is_rule(code) || code == BPF_HOST_BAD_CONTEXT || code == BPF_HOST_BAD_OBJECT, &before);
}

/* Makes the maps that a program of the corpus has. */
static void make_maps(struct bpf_host_shape *shapes, bool mergeable)
{
    uint32_t number, code = 0;
    for (uint32_t map = 0; map < subject.map_count; map++) {
        shapes[map] = (struct bpf_host_shape){subject.shapes[map].value_size, subject.shapes[map].entries};
        code |= bpf_host_create_map(&host, GUEST, shapes[map].value_size, shapes[map].entries, mergeable, &number, &refused);
    }
    for (uint32_t at = 0; at < subject.update_count; at++) {
        const struct first_value *first = &subject.updates[at];
        code |= bpf_host_update(&host, GUEST, first->map, first->key, first->bytes, shapes[first->map].value_size, &refused);
    }
    must(code == 0, "no map", code);
}

/* The text that was damaged becomes the subject. */
static void take_text(size_t len)
{
    subject.text = memcpy(subject_text, copy, len);
    subject.slots = (uint32_t)(len / SLOT);
}

/* Lowers a text that is refused. Where that helps, the lowered text runs as the damaged one does; else the refusal is the same. */
static void try_lowered(const uint8_t *text, size_t len, const struct bpf_host_shape *shapes, uint32_t refusal, uint64_t *state)
{
    struct loaded loaded = {UNWRITTEN, 0, true};
    size_t written = UNWRITTEN;
    uint8_t *lowered = text_room.begin;
    uint32_t maps = subject.map_count, size = subject.context_size, slot = refused.slot;
    uint32_t code = bpf_host_lower(text, len, shapes, maps, size, lowered, text_room.room, &written, &refused);
    if (code != 0) {
        must(code == refusal && refused.slot == slot && written == UNWRITTEN, "bpf_host_lower refuses in another way", code);
        return;
    }
    must(written % SLOT == 0 && written <= text_room.room, "a lowered text has no such length", written);
    code = bpf_host_load(&host, GUEST, lowered, written, size, &loaded.number, &refused);
    must(code == 0, "a lowered text is refused", code);
    loaded.slots = (uint32_t)(written / SLOT);
    take_text(len);
    compare_runs(&loaded, state);
    texts.lowered++, texts.runs += RUNS;
}

/* Explains a text into a buffer that is too short, and then into one that has just as many bytes. */
static void try_explained(const uint8_t *text, size_t len, const struct bpf_host_shape *shapes)
{
    size_t written = 0, again = 0;
    uint32_t maps = subject.map_count, size = subject.context_size;
    char *end = (char *)words_room.begin + words_room.room;
    uint32_t code = bpf_host_explain(text, len, shapes, maps, size, end, 0, &written);
    must(code == BPF_HOST_WRONG_LENGTH && written <= words_room.room, "words of no length", written);
    code = bpf_host_explain(text, len, shapes, maps, size, end - written, written, &again);
    must(code == 0 && again == written, "other words", again);
}

/* Damages a program of the corpus, and loads it: what the host answers, bpf_host_verify does too. */
static void try_text(uint64_t *state)
{
    struct bpf_host_shape shapes[MAPS];
    uint32_t number = UNWRITTEN;
    subject = programs[below(state, program_count)];
    size_t len = damaged_text(&subject, copy, state);
    const uint8_t *text = before_fence(&file_room, copy, len);
    struct view empty = view();
    make_maps(shapes, below(state, 2) == 0);
    struct view before = view();
    struct bpf_host_refused verified = refused;
    uint32_t code = bpf_host_load(&host, GUEST, text, len, subject.context_size, &number, &refused);
    uint32_t same = bpf_host_verify(text, len, shapes, subject.map_count, subject.context_size, &verified);
    must(code == same && verified.slot == refused.slot, "bpf_host_verify answers something else", same);
    count(&texts, code);
    if (code == 0) {
        take_text(len);
        compare_runs(&(struct loaded){number, subject.slots, false}, state);
        texts.accepted++, texts.runs += RUNS;
    } else {
        check_refusal(code, is_rule(code) && number == UNWRITTEN, &before);
        refused = verified;
        try_lowered(text, len, shapes, code, state);
    }
    if (below(state, EXPLAINED) == 0)
        try_explained(text, len, shapes);
    must(memcmp(text, copy, len) == 0, "a call changed its text", code);
    drop_maps(&empty);
}

/* Opens the host. Each tenant has a program that returns 0, and the one whom no upload may change has a map. */
static void open_host(void)
{
    static const uint8_t text[] = {0xb7, 0, 0, 0, 0, 0, 0, 0, 0x95, 0, 0, 0, 0, 0, 0, 0}, value[] = {1, 2, 3, 4, 5, 6, 7, 8};
    struct bpf_host_options options = BPF_HOST_OPTIONS;
    uint32_t number, code = bpf_host_new(FRAMES, TENANTS, &options, &host);
    for (uint32_t tenant = 0; tenant < TENANTS && code == 0; tenant++)
        code = bpf_host_load(&host, tenant, text, sizeof text, 0, &number, &refused);
    code |= bpf_host_create_map(&host, HOME, sizeof value, 4, true, &number, &refused);
    code |= bpf_host_update(&host, HOME, 0, 1, value, sizeof value, &refused);
    must(code == 0, "no host", code);
}

/* Reads an object file, or the texts of a corpus. */
static void read_uploads(const char *path)
{
    const char *dot = strrchr(path, '.');
    if (dot != NULL && strcmp(dot, ".texts") == 0) {
        read_corpus(path);
        return;
    }
    FILE *file = wanted(fopen(path, "rb"), "an object can't be read");
    struct upload *upload = wanted(upload_count < UPLOADS ? &uploads[upload_count++] : NULL, "too many objects");
    upload->len = fread(copy, 1, sizeof copy, file);
    fclose(file);
    must(upload->len < sizeof copy, "an object is too long", upload->len);
    upload->bytes = memcpy(wanted(malloc(upload->len + 1), "memory ran out"), copy, upload->len);
    add_sections(upload);
}

/* Makes a round of its own seed. */
static void make_round(uint64_t seed)
{
    uint64_t state = seed;
    snprintf(round_words, sizeof round_words, "the round of seed %llu: ", (unsigned long long)seed);
    alarm(SECONDS);
    if (upload_count > 0)
        try_object(&state);
    if (program_count > 0)
        try_text(&state);
}

/* Prints what became of what was read. */
static void print_counts(const struct counts *counts)
{
    const char *between = "";
    printf("%lu refused (", counts->refused);
    for (int rule = 0; rule <= LAST_RULE; rule++) {
        if (counts->by_rule[rule] > 0)
            printf("%s%d: %lu", between, rule, counts->by_rule[rule]), between = ", ";
    }
    printf("), %lu accepted, ", counts->accepted);
}

/* Whether enough happened that a test without a fault says something. */
static bool says_something(void)
{
    bool by_objects = objects.not_read >= ENOUGH && objects.refused >= ENOUGH && objects.accepted >= ENOUGH;
    return (upload_count == 0 || by_objects) && (program_count == 0 || (texts.refused >= ENOUGH && texts.accepted >= ENOUGH));
}

int main(int words, char **word)
{
    static const int signals[] = {SIGSEGV, SIGBUS, SIGILL, SIGFPE, SIGABRT, SIGALRM};
    uint64_t rounds = strtoull(wanted(words > 3 ? word[1] : NULL, "damaged ROUNDS SEED FILE.."), NULL, 10), seed = strtoull(word[2], NULL, 10);
    for (size_t at = 0; at < sizeof signals / sizeof *signals; at++)
        signal(signals[at], crashed);
    for (int at = 3; at < words; at++)
        read_uploads(word[at]);
    file_room = fence(LARGEST), name_room = fence(NAME), context_room = fence(LONGEST_CONTEXT);
    text_room = fence(SLOTS * SLOT), words_room = fence(WORDS_ROOM);
    struct fenced object_room = fence(sizeof *object);
    object = (void *)(object_room.begin + object_room.room - sizeof *object);
    open_host();
    for (uint64_t round = 0; round < rounds; round++)
        make_round(seed + round);
    must(rounds < WHOLE || says_something(), "too little happened", rounds);
    bpf_host_free(&host);
    printf("%lu objects: %lu not read, ", objects.tried, objects.not_read);
    print_counts(&objects);
    printf("%lu lack frames, %lu runs compared; ", objects.tried - objects.not_read - objects.refused - objects.accepted, objects.runs);
    printf("%lu texts: ", texts.tried);
    print_counts(&texts);
    printf("%lu lowered, %lu runs compared; no fault\n", texts.lowered, texts.runs);
    return 0;
}
