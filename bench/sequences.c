/* Which instructions follow each other in the runs of the corpus: sequences [FIRST [TEXTS]]
 *
 * Each program of bench/corpus.texts (or of TEXTS) runs on its 64 contexts by the C switch, and each pair and triple of instructions that
 * stand one after the other in the text is counted as often as it is run so. Prints the FIRST most frequent ones (20), with their share of
 * all steps, their mean share of a program's steps, by which they are ordered, and what share of the dispatches an interpreter saves that
 * makes one instruction of each sequence down to that row: sequences are looked for from the first step on, and none overlap. Then prints what
 * the pairs save that have a code of their own. */
#define _POSIX_C_SOURCE 200809L
#include <stdint.h>

struct insn;
static void note(const struct insn *insn);
#define SWITCH_STEP(i) note(i)
#include "corpus.h"

#include <stdbool.h>

enum { FIRST = 20, MOST_FIRST = 256, CODES = 96, CALL = 0x85, LONGEST = 3 };

/* How a sequence is marked that is made one instruction: always, or where it works on one register. */
enum { UNMARKED, ALWAYS, ON_ONE_REGISTER };

/* A step: the number of its code, whether its instruction stands after the one before, and whether the field dst of both is the same. */
struct step {
    uint8_t code;
    bool follows, on_one_register;
};

/* The steps of all runs of a program. */
struct trace {
    struct step *steps;
    size_t count, room;
};

/* A sequence of codes, and its shares. */
struct sequence {
    uint8_t code[LONGEST];
    double of_all, of_programs;
};

static struct trace traces[PROGRAMS];
static uint32_t trace_count;
static struct trace *noted;
static const struct insn *last;

/* The opcodes by the numbers of their codes. A call has its helper's number above the opcode. */
static uint16_t opcodes[CODES];
static uint32_t code_count;

/* The shares of each sequence, and how it is marked. Pairs have code 0 last. */
static double of_all[CODES][CODES][CODES], of_programs[CODES][CODES][CODES];
static uint8_t marks[CODES][CODES][CODES];

static uint8_t code_of(const struct insn *insn)
{
    uint16_t opcode = insn->opcode == CALL ? (uint16_t)(CALL | insn->imm << 8) : insn->opcode;
    uint32_t code = 0;
    while (code < code_count && opcodes[code] != opcode)
        code++;
    if (code == code_count) {
        wanted(code < CODES ? opcodes : NULL, "too many codes");
        opcodes[code_count++] = opcode;
    }
    return (uint8_t)code;
}

/* Keeps a step of the run. */
static void note(const struct insn *insn)
{
    if (noted->count == noted->room) {
        noted->room = noted->room * 2 + 1024;
        noted->steps = wanted(realloc(noted->steps, noted->room * sizeof *noted->steps), "memory ran out");
    }
    bool follows = last != NULL && insn == last + (last->opcode == WIDE ? 2 : 1);
    noted->steps[noted->count++] = (struct step){code_of(insn), follows, last != NULL && insn->dst == last->dst};
    last = insn;
}

/* Runs a program on its contexts. */
static void trace_runs(const struct program *program)
{
    struct linked linked;
    uint32_t steps;
    link_program(program, &linked);
    noted = &traces[trace_count++];
    for (int run = 0; run < CONTEXTS; run++) {
        last = NULL;
        switch_run(linked.text, program->contexts[run], &steps);
    }
}

/* Whether so many steps that end here stand one after the other. */
static bool is_straight(const struct trace *trace, size_t at, int length)
{
    if (at + 1 < (size_t)length)
        return false;
    for (int back = 0; back < length - 1; back++)
        if (!trace->steps[at - (size_t)back].follows)
            return false;
    return true;
}

/* The sum of a table's number for each sequence that ends at a step, and where it stands. */
static double *counted(double (*table)[CODES][CODES], const struct step *end, int length)
{
    const struct step *first = end - (length - 1);
    return &table[first[0].code][first[1].code][length == LONGEST ? first[2].code : 0];
}

/* Adds a program's sequences to the shares. */
static void add_program(const struct trace *trace, int length, double all_steps)
{
    for (size_t at = 0; at < trace->count; at++)
        if (is_straight(trace, at, length)) {
            *counted(of_all, &trace->steps[at], length) += 1 / all_steps;
            *counted(of_programs, &trace->steps[at], length) += 1.0 / (double)trace->count / trace_count;
        }
}

static int by_share(const void *a, const void *b)
{
    double x = ((const struct sequence *)a)->of_programs, y = ((const struct sequence *)b)->of_programs;
    return (x < y) - (x > y);
}

/* The sequences that were counted, the most frequent ones first: how many there are. */
static size_t sorted(struct sequence **sequences)
{
    size_t count = 0;
    *sequences = wanted(malloc(sizeof **sequences * CODES * CODES * CODES), "memory ran out");
    for (size_t at = 0; at < (size_t)CODES * CODES * CODES; at++) {
        double share = (&of_programs[0][0][0])[at];
        if (share > 0)
            (*sequences)[count++] = (struct sequence){{(uint8_t)(at / CODES / CODES), (uint8_t)(at / CODES % CODES), (uint8_t)(at % CODES)},
                                                      (&of_all[0][0][0])[at], share};
    }
    qsort(*sequences, count, sizeof **sequences, by_share);
    return count;
}

/* Whether the sequence of so many steps that ends here is made one instruction. */
static bool is_made_one(const struct step *end, int length)
{
    const struct step *first = end - (length - 1);
    int mark = marks[first[0].code][first[1].code][length == LONGEST ? first[2].code : 0];
    return mark == ALWAYS || (mark == ON_ONE_REGISTER && end->on_one_register);
}

/* How many dispatches of a program are saved where the marked sequences are made one instruction. */
static double saved_in(const struct trace *trace, int length)
{
    size_t free = 0;
    double saved = 0;
    for (size_t at = 0; at < trace->count; at++)
        if (at + 1 >= free + (size_t)length && is_straight(trace, at, length) && is_made_one(&trace->steps[at], length)) {
            saved += length - 1;
            free = at + 1;
        }
    return saved;
}

/* Prints what a code does, in few words. */
static void print_code(uint8_t code)
{
    static const char *const SIGNS[16] = {"+=", "-=", "*=", "/=", "|=", "&=", "<<=", ">>=", "neg", "%=", "^=", "=", "s>>=", "swap", "?", "?"};
    static const char *const TESTS[16] = {"goto", "==", ">", ">=", "&", "!=", "s>", "s>=", "call", "exit", "<", "<=", "s<", "s<=", "?", "?"};
    static const char *const SIZES[4] = {"u32", "u16", "u8", "u64"}, *const HELPERS[4] = {"call", "lookup", "update", "delete"};
    uint16_t opcode = opcodes[code];
    const char *operand = opcode & 8 ? "reg" : "imm", *size = SIZES[opcode >> 3 & 3];
    switch (opcode & 7) {
    case 0: printf("wide"); break;
    case 1: printf("load %s", size); break;
    case 2: printf("store %s imm", size); break;
    case 3: printf("store %s reg", size); break;
    case 4: printf("w %s %s", SIGNS[opcode >> 4 & 15], operand); break;
    case 7: printf("r %s %s", SIGNS[opcode >> 4 & 15], operand); break;
    default:
        if ((opcode & 255) == CALL)
            printf("%s", HELPERS[opcode >> 8 & 3]);
        else if ((opcode & 247) == 5 || opcode == 0x95)
            printf("%s", TESTS[opcode >> 4 & 15]);
        else
            printf("if %s %s %s", (opcode & 7) == 5 ? "r" : "w", TESTS[opcode >> 4 & 15], operand);
    }
}

/* What the operations are called in the names of the codes of pairs, and their opcodes; one with an immediate and one with a register
 * have one name. */
static const char CODE_FILE[] = "crates/bpf_decode/src/code.rt";
static const struct form {
    const char *name;
    uint8_t opcode, other;
} FORMS[] = {
    {"Mov64", 0xb7, 0xbf}, {"Add64", 0x07, 0x0f}, {"Mul64", 0x27, 0x2f}, {"And64", 0x57, 0x5f}, {"Or64", 0x47, 0x4f}, {"Lsh64", 0x67, 0x6f},
    {"Rsh64", 0x77, 0x7f}, {"Arsh64", 0xc7, 0xcf}, {"Mov32", 0xb4, 0xbc}, {"And32", 0x54, 0x5c}, {"Or32", 0x44, 0x4c}, {"Lsh32", 0x64, 0x6c},
    {"Rsh32", 0x74, 0x7c}, {"Arsh32", 0xc4, 0xcc}, {"LoadImmediate", 0x18, 0x18}, {"LoadByte", 0x71, 0x71}, {"LoadWord", 0x61, 0x61},
    {"LoadDoubleWord", 0x79, 0x79}, {"StoreDoubleWord", 0x7a, 0x7b}, {"JumpByOffset", 0x05, 0x05}, {"Equal64", 0x15, 0x1d},
    {"NotEqual64", 0x55, 0x5d}, {"Less64", 0xa5, 0xad}, {"Greater64", 0x25, 0x2d}, {"Equal32", 0x16, 0x1e}, {"Less32", 0xa6, 0xae},
    {"Lookup", CALL, CALL}, {"Exit", 0x95, 0x95},
};

/* Whether a code is of a form; of the calls only those of the helper that looks up are of one. */
static bool is_of(const struct form *form, uint32_t code)
{
    uint32_t opcode = code & 255;
    return (opcode == form->opcode || opcode == form->other) && (opcode != CALL || (code >> 8 & 3) == LOOKUP);
}

/* Marks the codes that two forms have, one after the other. */
static void mark_pair(const struct form *first, const struct form *second, int mark)
{
    for (uint32_t a = 0; a < code_count; a++)
        for (uint32_t b = 0; b < code_count; b++)
            if (is_of(first, opcodes[a]) && is_of(second, opcodes[b]))
                marks[a][b][0] = (uint8_t)mark;
}

/* How the file of codes lists the pair of a name: among the codes, and among those on one register. */
static int listed(const char *text, const char *name)
{
    char code[64], member[64];
    snprintf(code, sizeof code, " %s,\n", name);
    snprintf(member, sizeof member, " Code::%s\n", name);
    if (strstr(text, code) == NULL)
        return UNMARKED;
    return strstr(text, member) == NULL ? ALWAYS : ON_ONE_REGISTER;
}

/* Marks each pair that has a code of its own: how many there are. */
static int mark_pairs(const char *text)
{
    enum { COUNT = sizeof FORMS / sizeof *FORMS };
    int pairs = 0;
    memset(marks, 0, sizeof marks);
    for (int at = 0; at < COUNT * COUNT; at++) {
        char name[48];
        snprintf(name, sizeof name, "%s%s", FORMS[at / COUNT].name, FORMS[at % COUNT].name);
        int mark = listed(text, name);
        mark_pair(&FORMS[at / COUNT], &FORMS[at % COUNT], mark);
        pairs += mark != UNMARKED;
    }
    return pairs;
}

static double steps_of_all(void)
{
    double all = 0;
    for (uint32_t number = 0; number < trace_count; number++)
        all += (double)traces[number].count;
    return all;
}

/* What the marked sequences save: percents of a program's dispatches, and of all. */
static void add_saved(int length, double *of_program, double *of_steps)
{
    *of_program = *of_steps = 0;
    for (uint32_t number = 0; number < trace_count; number++) {
        double of_this = saved_in(&traces[number], length);
        *of_steps += 100 * of_this / steps_of_all();
        *of_program += 100 * of_this / (double)traces[number].count / trace_count;
    }
}

/* Prints a row: a sequence, its shares, and what the rows down to it save. */
static void print_row(const struct sequence *sequence, int length)
{
    double saved, mean;
    add_saved(length, &mean, &saved);
    printf("| `");
    for (int at = 0; at < length; at++) {
        print_code(sequence->code[at]);
        printf(at + 1 < length ? "; " : "` |");
    }
    printf(" %.2f | %.2f | %.2f | %.2f |\n", 100 * sequence->of_programs, 100 * sequence->of_all, mean, saved);
}

static void print_table(int length, size_t first)
{
    struct sequence *sequences;
    memset(marks, 0, sizeof marks);
    memset(of_all, 0, sizeof of_all);
    memset(of_programs, 0, sizeof of_programs);
    for (uint32_t number = 0; number < trace_count; number++)
        add_program(&traces[number], length, steps_of_all());
    size_t count = sorted(&sequences);
    printf("\n%zu %s of codes are run.\n\n", count, length == 2 ? "pairs" : "triples");
    printf("| %s | %% of a program's steps | %% of all steps | saved down to here, %% of a program's steps | %% of all steps |\n", length == 2 ? "pair" : "triple");
    printf("|---|---|---|---|---|\n");
    for (size_t row = 0; row < count && row < first; row++) {
        const uint8_t *code = sequences[row].code;
        marks[code[0]][code[1]][length == LONGEST ? code[2] : 0] = ALWAYS;
        print_row(&sequences[row], length);
    }
    free(sequences);
}

/* Prints what the interpreter's own pairs save. */
static void print_chosen(void)
{
    static char text[65536];
    double mean, saved;
    FILE *file = wanted(fopen(CODE_FILE, "r"), CODE_FILE);
    text[fread(text, 1, sizeof text - 1, file)] = 0;
    fclose(file);
    int pairs = mark_pairs(text);
    add_saved(2, &mean, &saved);
    printf("\nThe %d pairs of %s save %.2f %% of a program's dispatches, and %.2f %% of all.\n", pairs, CODE_FILE, mean, saved);
}

int main(int words, char **word)
{
    int first = number_of(words, word, 1, FIRST);
    size_t straight = 0;
    read_corpus(words > 2 && strchr(word[2], '/') ? word[2] : "bench/corpus.texts");
    for (uint32_t number = 0; number < program_count; number++)
        if (programs[number].refusal == 0)
            trace_runs(&programs[number]);
    for (uint32_t number = 0; number < trace_count; number++)
        for (size_t at = 0; at < traces[number].count; at++)
            straight += traces[number].steps[at].follows;
    printf("%u programs make %.0f steps of %u codes, on %d contexts each; ", trace_count, steps_of_all(), code_count, CONTEXTS);
    printf("%.1f %% of the steps stand after the one before. %u programs are left out, which the verifier refuses.\n",
           100 * (double)straight / steps_of_all(), program_count - trace_count);
    print_table(2, (size_t)first);
    print_table(3, (size_t)first);
    print_chosen();
    return 0;
}
