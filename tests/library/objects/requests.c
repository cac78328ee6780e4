/* The filter of examples/requests.c on requests one after the other: requests FILE, its object. The wanted answers are those that its rules give
 * when they are read: a status for each. Exits 1 where another one comes. */
#include "bpf_host.h"

#include <stdio.h>
#include <stdlib.h>

/* As in examples/requests.c. */
struct request {
    uint32_t client, minute;
    uint16_t method, is_admin;
    char path[20];
};

static const struct {
    struct request request;
    uint64_t answer;
} ROWS[] = {
    {{7, 1, 0, 0, "/a"}, 200},
    {{7, 1, 0, 0, "/a"}, 200},
    {{7, 1, 0, 0, "/a"}, 429}, /* the third one of a minute */
    {{8, 1, 0, 0, "/a"}, 200}, /* another client's first one */
    {{7, 2, 0, 0, "/a"}, 200}, /* the next minute */
    {{9, 2, 1, 0, "/admin/x"}, 403}, /* what lies there admins change, and all read */
    {{9, 2, 1, 1, "/admin/x"}, 200},
    {{9, 2, 0, 0, "/admin/x"}, 200},
    {{9, 3, 1, 0, "/admins"}, 200}, /* not below /admin/ */
    {{9, 3, 1, 0, "/admin"}, 200},
    {{9, 3, 1, 0, "/a"}, 429},
    {{1023, 3, 0, 0, "/a"}, 200},
    {{1024, 3, 0, 0, "/a"}, 403}, /* there is no client 1,024 */
};

static void must(uint32_t code)
{
    if (code != 0) {
        printf("requests: a call answers %u %s\n", code, bpf_host_code_name(code));
        exit(1);
    }
}

int main(int words, char **word)
{
    static struct bpf_host_object object;
    static uint8_t bytes[1 << 16];
    struct bpf_host host = {0};
    struct bpf_host_options options = BPF_HOST_OPTIONS;
    struct bpf_host_refused refused = {0};
    uint32_t program = 0;
    FILE *file = words > 1 ? fopen(word[1], "rb") : NULL;
    size_t len = file ? fread(bytes, 1, sizeof bytes, file) : 0;
    if (file)
        fclose(file);
    must(bpf_host_read_object(bytes, len, "answer", 6, sizeof(struct request), &object, &refused));
    must(bpf_host_new(8, 1, &options, &host));
    must(bpf_host_load_object(&host, 0, &object, false, &program, &refused));
    for (size_t row = 0; row < sizeof ROWS / sizeof *ROWS; row++) {
        struct bpf_host_run run = {0};
        must(bpf_host_run(&host, 0, program, (const uint8_t *)&ROWS[row].request, sizeof(struct request), &run, &refused));
        if (run.ret != ROWS[row].answer) {
            printf("requests: row %zu answers %llu\n", row, (unsigned long long)run.ret);
            return 1;
        }
    }
    bpf_host_free(&host);
    printf("%zu requests\n", sizeof ROWS / sizeof *ROWS);
    return 0;
}
