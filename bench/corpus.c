/* How long whole runs of compiled programs take, in nanoseconds, by the library with a call each and with one for 64, by the C switch of switch.h,
 * and by DPDK's interpreter where it is built in (dpdk.h): corpus [ROUNDS [REPEATS [TEXTS]]]
 *
 * TEXTS is bench/corpus.texts if it is left out. Each program runs on 64 drawn contexts first, by all engines, whose answers, numbers of steps and
 * maps are compared. Then the engines take turns: in each of ROUNDS rounds (9) each goes over the contexts REPEATS times (20), and the medians of
 * a program's rounds count: of its times, and of each round's time over that of the C switch. Programs that the verifier refuses are listed with
 * its numbers. With 0 rounds each engine goes over the contexts once for callgrind, which dumps what it counted there. Exits 1 where engines
 * differ, a call is refused, or the verifier answers another number than the text's line has. */
#define _POSIX_C_SOURCE 200809L
#include "engines.h"

#if __has_include(<valgrind/callgrind.h>)
#include <valgrind/callgrind.h>
#else
#define CALLGRIND_TOGGLE_COLLECT
#define CALLGRIND_DUMP_STATS_AT(name) (void)(name)
#endif

enum { ROUNDS = 9, REPEATS = 20 };

static struct loaded loadeds[PROGRAMS];
static uint32_t loaded_count;
static volatile uint64_t returned;

/* Loads a program by all engines, or says what the verifier answers. */
static void take_program(const struct program *program)
{
    uint32_t code = take(program, &loadeds[loaded_count]);
    failed |= code != program->refusal;
    if (code == 0)
        loaded_count++;
    else
        printf("refused: %s %s, %u slots: %u %s at %u\n", program->file, program->name, program->slots, code, bpf_host_code_name(code), refused.slot);
}

static void print_row(const struct loaded *loaded)
{
    const double *ns = loaded->ns;
    printf("| %s | %s | %u |", loaded->program->file, loaded->program->name, loaded->program->slots);
    print_number(loaded->steps, 1);
    for (int engine = 0; engine < COMPILED; engine++)
        print_number(ns[engine], 1);
    for (int engine = 0; engine < COMPILED; engine++)
        print_number(ns[engine] / loaded->steps, 2);
    print_number(loaded->ratio[LIBRARY], 2);
    print_number(loaded->ratio[DPDK], 2);
    print_number(loaded->ratio[MANY], 2);
    printf("\n");
}

/* The geometric means of an engine's times over those of the C switch. */
struct means {
    uint32_t programs;
    double ratio, of_least;
};

/* The means for programs of so many steps. */
static struct means means_of(enum engine engine, double least, double below)
{
    struct means sums = {0, 0, 0};
    for (const struct loaded *loaded = loadeds; loaded < loadeds + loaded_count; loaded++)
        if (has(loaded, engine) && loaded->steps >= least && loaded->steps < below) {
            sums.programs++;
            sums.ratio += log(loaded->ratio[engine]);
            sums.of_least += log(loaded->least[engine] / loaded->least[SWITCH]);
        }
    return (struct means){sums.programs, exp(sums.ratio / sums.programs), exp(sums.of_least / sums.programs)};
}

static void print_means(void)
{
    static const struct {
        const char *name;
        double least, below;
    } ROWS[] = {{"all", 0, INFINITY}, {"below 20", 0, 20}, {"20 to 60", 20, 60}, {"60 to 300", 60, 300}, {"300 or more", 300, INFINITY}};
    printf("\n| steps a run | programs | library / switch | by the least | 64 a call / switch | by the least | programs of DPDK | DPDK / switch | by the least |\n");
    printf("|---|---|---|---|---|---|---|---|---|\n");
    for (size_t at = 0; at < sizeof ROWS / sizeof *ROWS; at++) {
        struct means library = means_of(LIBRARY, ROWS[at].least, ROWS[at].below), dpdk = means_of(DPDK, ROWS[at].least, ROWS[at].below);
        struct means many = means_of(MANY, ROWS[at].least, ROWS[at].below);
        printf("| %s | %u |", ROWS[at].name, library.programs);
        print_number(library.ratio, 2);
        print_number(library.of_least, 2);
        print_number(many.ratio, 2);
        print_number(many.of_least, 2);
        printf(" %u |", dpdk.programs);
        print_number(dpdk.ratio, 2);
        print_number(dpdk.of_least, 2);
        printf("\n");
    }
}

/* Lets callgrind count the contexts of a program by each engine, once they are in the caches. */
static void count(uint32_t number)
{
    struct loaded *loaded = &loadeds[number];
    printf("counted: %u %s %s %.0f\n", number, loaded->program->file, loaded->program->name, loaded->steps * CONTEXTS);
    for (int engine = 0; engine < ENGINES; engine++) {
        char name[64];
        if (!has(loaded, (enum engine)engine))
            continue;
        snprintf(name, sizeof name, "%s %u", ENGINE_NAMES[engine], number);
        CALLGRIND_TOGGLE_COLLECT;
        returned = runs((enum engine)engine, loaded, 1);
        CALLGRIND_TOGGLE_COLLECT;
        CALLGRIND_DUMP_STATS_AT(name);
    }
}

static void print_table(int rounds, int repeats)
{
    printf("| file | program | slots | steps a run | library, ns a run | C switch | DPDK | 64 a call | library, ns a step | C switch | DPDK | 64 a call "
           "| library / switch | DPDK / switch | 64 a call / switch |\n");
    printf("|---|---|---|---|---|---|---|---|---|---|---|---|---|---|---|\n");
    for (struct loaded *loaded = loadeds; loaded < loadeds + loaded_count; loaded++) {
        measure_runs(loaded, rounds, repeats);
        print_row(loaded);
    }
    print_means();
}

int main(int words, char **word)
{
    int rounds = number_of(words, word, 1, ROUNDS), repeats = number_of(words, word, 2, REPEATS);
    read_corpus(words > 3 ? word[3] : "bench/corpus.texts");
    for (uint32_t number = 0; number < program_count; number++)
        take_program(&programs[number]);
    if (rounds > 0)
        print_table(rounds < MOST_ROUNDS ? rounds : MOST_ROUNDS, repeats);
    for (uint32_t number = 0; number < loaded_count && rounds == 0; number++)
        count(number);
    for (uint32_t number = 0; number < loaded_count; number++)
        release(&loadeds[number]);
    if (failed)
        printf("a call was refused, a program isn't refused as it should be, or engines differ\n");
    return failed != 0;
}
