/* What the tests share. */
#ifndef CHECK_H
#define CHECK_H

#include "bpf_host.h"

#include <stdio.h>
#include <string.h>

extern unsigned checks;
extern unsigned failures;

/* Counts a check, and prints one that fails. */
void check_at(const char *file, int line, const char *what, unsigned long long found, unsigned long long wanted);

#define CHECK(found, wanted) check_at(__FILE__, __LINE__, #found, (unsigned long long)(found), (unsigned long long)(wanted))

/* The bytes of a text in hex, spaces left out: how many. */
size_t bytes_of(const char *hex, uint8_t *bytes);

/* Opens a handle with the options of a host that is given none. */
void open_host(struct bpf_host *host, uint32_t frames, uint32_t tenants);

/* Loads a text in hex: what the call returns. `last_refused` has what it says beside its number. */
uint32_t load_hex(struct bpf_host *host, uint32_t tenant, const char *hex, uint32_t context_size);

extern struct bpf_host_refused last_refused;

/* Makes a map that may be merged: what the call returns. */
uint32_t make_map(struct bpf_host *host, uint32_t tenant, uint32_t value_size, uint32_t entries);

/* Runs a program on a context in hex, which is to return this after so many steps. */
void check_run(struct bpf_host *host, uint32_t tenant, const char *context, uint64_t ret, uint32_t steps);

/* A value in a map is to be this, in hex. */
void check_value(struct bpf_host *host, uint32_t tenant, uint32_t map, uint32_t key, const char *hex);

/* The counters after so many visits. */
struct bpf_host_counters after_visits(struct bpf_host *host, uint32_t visits);

/* The counter: adds 1 to the value of key 0, and returns it. */
#define COUNTER "620afcff00000000 bfa2000000000000 07020000fcffffff 1811000000000000 0000000000000000 8500000001000000 " \
    "5500020000000000 b700000000000000 9500000000000000 7901000000000000 0701000001000000 7b10000000000000 bf10000000000000 9500000000000000"

/* The first ten slots of two programs that read a value at an offset from their context. */
#define FIND_VALUE "7916000000000000 620afcff00000000 bfa2000000000000 07020000fcffffff 1811000000000000 0000000000000000 8500000001000000 " \
    "5500020000000000 b700000000000000 9500000000000000 "

/* A program that writes a value under a key, with flags. */
#define UPDATE(KEY, FLAGS) "620afcff" KEY " 7a0ae0ff07000000 7a0ae8ff08000000 7a0af0ff09000000 bfa2000000000000 07020000fcffffff " \
    "bfa3000000000000 07030000e0ffffff b7040000" FLAGS " 1811000000000000 0000000000000000 8500000002000000 9500000000000000"

/* Returns 42. */
#define RETURN_42 "b70000002a000000 9500000000000000"

void test_rows_of_programs(void);
void test_rows_of_merging(void);
void test_refusals(void);
void test_handles(void);
void test_texts(void);
void test_objects(void);

#endif
