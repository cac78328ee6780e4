/* Calls on a text alone: verdicts, lowered texts, buffers that are too short, and what stays as it was. Rows of the programs `lower` and
 * `explain` are compared in texts/rows.c. */
#include "check.h"

/* r0 = 0; r0 += 1; if r0 < 3 goto -2; exit: the first row of crates/lower/rows with a loop, and what it becomes. */
#define LOOP "b700000000000000 0700000001000000 a500feff03000000 9500000000000000"
#define LOOP_LOWERED "b700000000000000 0700000001000000 3500040003000000 0700000001000000 3500020003000000 0700000001000000 " \
    "a500010003000000 9500000000000000 0500fcff00000000"

/* Returns the second eight bytes of its context. */
#define SECOND_WORD "7910080000000000 9500000000000000"

static const struct bpf_host_shape NO_SHAPES[1];

/* The verdict on a text in hex; `last_refused` has what it says beside its number. */
static uint32_t verdict(const char *hex, const struct bpf_host_shape *shapes, size_t shapes_len, uint32_t context_size)
{
    uint8_t text[512];
    last_refused = (struct bpf_host_refused){77, 78, 79};
    uint32_t code = bpf_host_verify(text, bytes_of(hex, text), shapes, shapes_len, context_size, &last_refused);
    CHECK(last_refused.need, 78);
    CHECK(last_refused.have, 79);
    if (code == 0 || code > 25)
        CHECK(last_refused.slot, 77);
    return code;
}

static void test_verdicts(void)
{
    const struct bpf_host_shape counter[] = {{8, 1}};
    const struct bpf_host_shape second[] = {{0, 0}, {8, 1}};
    const struct bpf_host_shape odd[] = {{8, 1}, {4097, 1}};
    const struct bpf_host_shape nine[9] = {{8, 1}};
    CHECK(verdict(RETURN_42, NO_SHAPES, 0, 0), 0);
    CHECK(verdict(COUNTER, counter, 1, 0), 0);
    CHECK(verdict(COUNTER, NO_SHAPES, 0, 0), 24);
    CHECK(last_refused.slot, 3);
    CHECK(verdict(COUNTER, second, 2, 0), 24);
    CHECK(verdict(SECOND_WORD, NO_SHAPES, 0, 16), 0);
    CHECK(verdict(SECOND_WORD, NO_SHAPES, 0, 8), 16);
    CHECK(last_refused.slot, 0);
    CHECK(verdict(LOOP, NO_SHAPES, 0, 0), 11);
    CHECK(last_refused.slot, 2);
    CHECK(verdict("", NO_SHAPES, 0, 0), 1);
    CHECK(verdict(RETURN_42, NO_SHAPES, 0, 7), 39);
    CHECK(verdict(RETURN_42, NO_SHAPES, 0, 264), 39);
    CHECK(verdict(RETURN_42, odd, 2, 7), 33);
    CHECK(verdict(RETURN_42, nine, 8, 0), 0);
    CHECK(verdict(RETURN_42, nine, 9, 7), 32);
}

/* What a call leaves in a buffer of so many bytes, of which the first are to be these and the others as they were. */
static void check_buffer(const uint8_t *buffer, size_t size, const uint8_t *wanted, size_t len)
{
    CHECK(memcmp(buffer, wanted, len), 0);
    for (size_t at = len; at < size; at++)
        CHECK(buffer[at], 0xee);
}

/* Lowers a text into a buffer of a length, which is to give this code and leave these bytes. */
static void check_lowered(const uint8_t *text, size_t text_len, size_t lowered_len, uint32_t code, const uint8_t *wanted, size_t wanted_len,
                          size_t need)
{
    uint8_t buffer[512];
    size_t written = 12345;
    struct bpf_host_refused refused = {77, 78, 79};
    memset(buffer, 0xee, sizeof buffer);
    CHECK(bpf_host_lower(text, text_len, NO_SHAPES, 0, 0, buffer, lowered_len, &written, &refused), code);
    CHECK(written, need);
    CHECK(refused.slot, 77);
    CHECK(refused.need, 78);
    check_buffer(buffer, sizeof buffer, wanted, wanted_len);
}

static void test_lowered_texts(void)
{
    uint8_t text[512];
    uint8_t lowered[512];
    size_t text_len = bytes_of(LOOP, text);
    size_t len = bytes_of(LOOP_LOWERED, lowered);
    check_lowered(text, text_len, 512, 0, lowered, len, len);
    check_lowered(text, text_len, len, 0, lowered, len, len);
    check_lowered(text, text_len, len - 1, 102, lowered, 0, len);
    check_lowered(text, text_len, 0, 102, lowered, 0, len);
    text_len = bytes_of(RETURN_42, text);
    check_lowered(text, text_len, text_len, 0, text, text_len, text_len);
}

/* A text isn't lowered: nothing is written but what the refusal says beside its number. */
static void check_not_lowered(const char *hex, uint32_t context_size, uint32_t code, uint32_t slot)
{
    uint8_t text[512];
    uint8_t buffer[512];
    size_t written = 12345;
    struct bpf_host_refused refused = {77, 78, 79};
    memset(buffer, 0xee, sizeof buffer);
    CHECK(bpf_host_lower(text, bytes_of(hex, text), NO_SHAPES, 0, context_size, buffer, sizeof buffer, &written, &refused), code);
    CHECK(written, 12345);
    CHECK(refused.slot, slot);
    CHECK(refused.need, 78);
    check_buffer(buffer, sizeof buffer, buffer, 0);
}

/* Explains a text into a buffer of a length. */
static void check_explained(const char *hex, size_t explained_len, uint32_t code, const char *wanted)
{
    uint8_t text[512];
    uint8_t buffer[4096];
    size_t written = 12345;
    memset(buffer, 0xee, sizeof buffer);
    CHECK(bpf_host_explain(text, bytes_of(hex, text), NO_SHAPES, 0, 0, (char *)buffer, explained_len, &written), code);
    CHECK(written, strlen(wanted));
    check_buffer(buffer, sizeof buffer, (const uint8_t *)wanted, code == 0 ? strlen(wanted) : 0);
}

static void test_explained_texts(void)
{
    static const char wanted[] = "accepted slots 2 instructions 2 reserve 0\n"
        "   0  b70000002a000000  r0 = 42\n"
        "   1  9500000000000000  exit                            ; r0 = 42\n";
    size_t len = strlen(wanted);
    check_explained(RETURN_42, 4096, 0, wanted);
    check_explained(RETURN_42, len, 0, wanted);
    check_explained(RETURN_42, len - 1, 102, wanted);
    check_explained(RETURN_42, 0, 102, wanted);
}

/* A text of more than 4096 slots is refused for its length, by the same words however long it is. */
static void check_explained_alike(size_t len, size_t longer_len)
{
    static const uint8_t text[8 * 40000 + 3];
    char words[4096];
    char longer_words[4096];
    size_t written = 0;
    size_t longer_written = 0;
    CHECK(bpf_host_explain(text, len, NO_SHAPES, 0, 0, words, sizeof words, &written), 0);
    CHECK(bpf_host_explain(text, longer_len, NO_SHAPES, 0, 0, longer_words, sizeof longer_words, &longer_written), 0);
    CHECK(strncmp(words, "refused 1 BadLength at 0\n", strlen("refused 1 BadLength at 0\n")), 0);
    CHECK(longer_written == written && memcmp(longer_words, words, written) == 0, true);
}

void test_texts(void)
{
    test_verdicts();
    test_lowered_texts();
    check_not_lowered("0500ffff00000000", 0, 11, 0);
    check_not_lowered(SECOND_WORD, 8, 16, 0);
    check_not_lowered(RETURN_42, 4, 39, 77);
    test_explained_texts();
    check_explained_alike(8 * 4097, 8 * 40000);
    check_explained_alike(8 * 4096 + 3, 8 * 40000 + 3);
}
