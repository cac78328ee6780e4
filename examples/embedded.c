/* Runs a customer's filter from an object file in a program of C, and then further ones, each in place of the one before (docs/EMBEDDING.md). At the
 * top:
 *
 *     clang -g -O2 -mcpu=v3 -target bpf -c examples/caps.c -o caps.o
 *     cc examples/embedded.c -Iinclude $(tools/static_library) -o embedded && ./embedded caps.o
 *
 * It prints 200, since a client's first request passes, and `requests: 1`, which the filter's map holds then: with three files that have the same
 * maps, 200, 200 and 429, as the count goes on. Of a file that is refused it prints why, with the line of C, and goes on with the one before. */
#include "bpf_host.h"
#include <stdio.h>
#include <stdlib.h>
#include <string.h>

enum {
    TENANTS = 2, /* a customer, and a spare tenant for a new version with other maps */
    QUOTA = 4    /* the most pages of 4 KiB that the maps of an upload may take */
};

/* The bytes of an upload, its program, and the program that runs: static, since they are large. A thread that reads uploads has its own. */
static uint8_t file[1 << 20];
static struct bpf_host_object object, running;
static struct bpf_host_refused refused;

/* A `struct request` of client 7. */
static const uint8_t request[8] = {7};

/* Says why an upload is refused, and what a program exits with that has none to run. */
static int reject(uint32_t code)
{
    printf("%s\n", bpf_host_code_name(code));
    if (code == BPF_HOST_NO_FRAMES)
        printf("its maps take %u pages of 4 KiB, and it may have %d\n", (unsigned)bpf_host_object_pages(&object), QUOTA);
    else
        printf("%s\n", object.why);
    object.why[0] = 0;
    return 1;
}

/* Ends the program where it can't go on: no upload leads here. */
static void must(uint32_t code)
{
    if (code != 0) {
        fprintf(stderr, "%s\n", bpf_host_code_name(code));
        exit(1);
    }
}

/* Receives an upload, and returns how many bytes it has. One that is too long counts as empty, and is then refused. */
static size_t receive(const char *path)
{
    FILE *upload = fopen(path, "rb");
    if (!upload) {
        perror(path);
        exit(1);
    }
    size_t size = fread(file, 1, sizeof file, upload);
    if (fgetc(upload) != EOF)
        size = 0;
    fclose(upload);
    return size;
}

/* Reads an upload, which verifies it, and refuses maps beyond the quota: so no customer takes the frames of another. */
static uint32_t read_upload(size_t size)
{
    uint32_t code;
    code = bpf_host_read_object(file, size, "admit", strlen("admit"), sizeof request, &object, &refused);
    if (code == 0 && bpf_host_object_pages(&object) > QUOTA)
        code = BPF_HOST_NO_FRAMES;
    return code;
}

/* Loads what was read for the spare tenant, with maps of its own, whose pages aren't to share frames with equal ones (false), and frees the other
 * one's program and maps. */
static uint32_t load_apart(struct bpf_host *host, uint32_t *tenant, uint32_t *program)
{
    uint32_t spare = 1 - *tenant, next = 0;
    uint32_t code = bpf_host_load_object(host, spare, &object, false, &next, &refused);
    if (code != 0)
        return code;
    must(bpf_host_unload(host, *tenant, *program));
    for (uint32_t map = 0; map < running.maps_len; map++)
        must(bpf_host_drop_map(host, *tenant, map));
    *tenant = spare, *program = next;
    return 0;
}

/* Replaces the program that runs by an upload, whose maps keep their values if they are the same; if that is refused, it stays. */
static void replace(struct bpf_host *host, size_t size, uint32_t *tenant, uint32_t *program)
{
    uint32_t code = read_upload(size);
    if (code == 0 && bpf_host_same_maps(&object, &running))
        code = bpf_host_replace(host, *tenant, &object, program, &refused);
    else if (code == 0)
        code = load_apart(host, tenant, program);
    if (code == 0)
        running = object;
    else
        reject(code);
}

/* The status that a filter answers, which may be any number. */
static unsigned status_of(uint64_t answer)
{
    return answer == 200 || answer == 403 || answer == 429 ? (unsigned)answer : 500;
}

/* Prints how many requests client 7 made, if the program has the map of examples/caps.c. */
static void print_requests(struct bpf_host *host, uint32_t tenant)
{
    uint32_t window[2] = {0, 0}, map = bpf_host_map_named(&running, "windows");
    if (bpf_host_lookup(host, tenant, map, 7, (uint8_t *)window, sizeof window) == 0)
        printf("requests: %u\n", window[1]);
}

int main(int argc, char **argv)
{
    size_t size = argc > 1 ? receive(argv[1]) : 0;
    struct bpf_host host = {0};
    struct bpf_host_options defaults = BPF_HOST_OPTIONS;
    struct bpf_host_run run = {0, 0};
    uint32_t code, tenant = 0, program = 0;
    unsigned status;
    if (bpf_host_version() != BPF_HOST_VERSION)
        return 1;
    must(bpf_host_new(BPF_HOST_ENOUGH_FRAMES(TENANTS * QUOTA), TENANTS, &defaults, &host));
    code = read_upload(size);
    if (code == 0)
        code = bpf_host_load_object(&host, tenant, &object, false, &program, &refused);
    if (code != 0)
        return reject(code);                                                                 /* object.why has the line of C */
    running = object;
    for (int upload = 2;; upload++) {
        code = bpf_host_run(&host, tenant, program, request, sizeof request, &run, &refused);   /* for each request */
        status = code == 0 ? status_of(run.ret) : 503;                                           /* a refused run didn't start */
        printf("%u\n", status);
        if (upload >= argc)
            break;
        replace(&host, receive(argv[upload]), &tenant, &program);
    }
    print_requests(&host, tenant);
    bpf_host_free(&host);
    return 0;
}
