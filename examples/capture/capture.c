/* Runs the packets of a capture through a filter of each tenant, beside libpcap's own filters:
 *
 *     capture FILE.pcap FILTER.hex EXPRESSION [FILTER.hex EXPRESSION]..
 *
 * Each tenant has one filter in hex text, which is given a packet's length and its first 248 bytes, and accepts the packet if it
 * doesn't return 0; and a map, whose pages the scanner merges with those of other tenants. EXPRESSION is the same filter for libpcap.
 * Prints how many packets each accepts, the counters of merging, and how many packets were filtered in a second. Ends with status 1
 * where a packet is judged otherwise than by libpcap. */
#include <pcap/pcap.h>
#include <stdio.h>
#include <stdlib.h>
#include <string.h>
#include <time.h>

#include "bpf_host.h"

enum { TENANTS = 16, FRAMES = 256, CONTEXT = 256, VISIT_EACH = 1024, VISITS = 64, ROUNDS = 20, MAX_HEX = 1 << 16 };

struct tenant {
    const char *name;
    uint32_t program;
    struct bpf_program expression;
    unsigned long accepted, wanted, wrong;
};

static void fail(const char *what, const char *why)
{
    fprintf(stderr, "capture: %s: %s\n", what, why);
    exit(2);
}

static void check(uint32_t code, const char *what)
{
    if (code != 0)
        fail(what, bpf_host_code_name(code));
}

/* Reads a hex text. Answers how many bytes it has. */
static size_t read_hex(const char *path, uint8_t *text)
{
    unsigned byte;
    size_t len = 0;
    FILE *file = fopen(path, "r");
    if (!file)
        fail(path, "can't be opened");
    while (len < MAX_HEX && fscanf(file, " %2x", &byte) == 1)
        text[len++] = (uint8_t)byte;
    fscanf(file, " ");
    if (!feof(file))
        fail(path, "it is no hex text, or too long");
    fclose(file);
    return len;
}

static void load(struct bpf_host *host, uint32_t number, struct tenant *tenant, const char *path)
{
    static uint8_t text[MAX_HEX];
    struct bpf_host_refused refused = {0};
    uint32_t map = 0;
    size_t len = read_hex(path, text);
    tenant->name = path;
    check(bpf_host_create_map(host, number, 4096, 4, true, &map, &refused), "a map");
    check(bpf_host_load(host, number, text, len, CONTEXT, &tenant->program, &refused), path);
}

/* The context of a packet: its length, and its first bytes. */
static void fill(uint8_t *context, const struct pcap_pkthdr *header, const u_char *bytes)
{
    uint64_t length = header->len;
    size_t len = header->caplen < CONTEXT - 8 ? header->caplen : CONTEXT - 8;
    memset(context, 0, CONTEXT);
    memcpy(context, &length, 8);
    memcpy(context + 8, bytes, len);
}

/* The contexts of packets, and which of libpcap's filters accept each: a bit for each tenant. */
struct packets {
    uint8_t (*contexts)[CONTEXT];
    uint16_t *accepted;
    size_t len, room;
};

/* Reads all packets, and counts those that libpcap's filters accept. */
static struct packets read_packets(pcap_t *capture, struct tenant *tenants, uint32_t count)
{
    struct packets all = {0};
    struct pcap_pkthdr *header;
    const u_char *bytes;
    int found;
    while ((found = pcap_next_ex(capture, &header, &bytes)) == 1) {
        if (all.len == all.room) {
            all.room = all.room ? 2 * all.room : 1024;
            all.contexts = realloc(all.contexts, all.room * CONTEXT);
            all.accepted = realloc(all.accepted, all.room * sizeof *all.accepted);
            if (!all.contexts || !all.accepted)
                fail("packets", "no memory");
        }
        fill(all.contexts[all.len], header, bytes);
        all.accepted[all.len] = 0;
        for (uint32_t t = 0; t < count; t++) {
            bool accepts = pcap_offline_filter(&tenants[t].expression, header, bytes) != 0;
            tenants[t].wanted += accepts;
            all.accepted[all.len] |= (uint16_t)(accepts << t);
        }
        all.len++;
    }
    if (found != PCAP_ERROR_BREAK)
        fail("packets", pcap_geterr(capture));
    return all;
}

/* Runs each tenant's filter on each packet, while the scanner merges. */
static void filter_all(struct bpf_host *host, struct tenant *tenants, uint32_t count, struct packets all)
{
    struct bpf_host_counters after = {0};
    struct bpf_host_refused refused = {0};
    struct bpf_host_run run = {0};
    for (size_t p = 0; p < all.len; p++) {
        for (uint32_t t = 0; t < count; t++) {
            check(bpf_host_run(host, t, tenants[t].program, all.contexts[p], CONTEXT, &run, &refused), "a run");
            tenants[t].accepted += run.ret != 0;
            tenants[t].wrong += (run.ret != 0) != (all.accepted[p] >> t & 1);
        }
        if (p % VISIT_EACH == 0)
            check(bpf_host_visit(host, VISITS, &after), "a visit");
    }
}

static double seconds(void)
{
    struct timespec now;
    clock_gettime(CLOCK_MONOTONIC, &now);
    return (double)now.tv_sec + (double)now.tv_nsec / 1e9;
}

int main(int argc, char **argv)
{
    static struct tenant tenants[TENANTS];
    char error[PCAP_ERRBUF_SIZE];
    struct bpf_host host = {0};
    struct bpf_host_options options = {.pages_to_scan = 100, .run = 1, .max_page_sharing = 256};
    struct bpf_host_counters counters = {0};
    uint32_t count = (uint32_t)(argc - 2) / 2;
    int differs = 0;
    if (argc < 4 || argc % 2 != 0 || count > TENANTS)
        fail("usage", "capture FILE.pcap FILTER.hex EXPRESSION [FILTER.hex EXPRESSION]..");
    pcap_t *capture = pcap_open_offline(argv[1], error);
    if (!capture)
        fail(argv[1], error);
    check(bpf_host_new(FRAMES, count, &options, &host), "a host");
    for (uint32_t t = 0; t < count; t++) {
        load(&host, t, &tenants[t], argv[2 + 2 * t]);
        if (pcap_compile(capture, &tenants[t].expression, argv[3 + 2 * t], 1, PCAP_NETMASK_UNKNOWN) != 0)
            fail(argv[3 + 2 * t], pcap_geterr(capture));
    }
    struct packets all = read_packets(capture, tenants, count);
    double begin = seconds();
    for (int round = 0; round < ROUNDS; round++)
        filter_all(&host, tenants, count, all);
    double spent = seconds() - begin;
    for (uint32_t t = 0; t < count; t++) {
        unsigned long accepted = tenants[t].accepted / ROUNDS;
        printf("tenant %u %s: %lu of %zu packets, %lu by libpcap\n", t, tenants[t].name, accepted, all.len, tenants[t].wanted);
        differs |= accepted != tenants[t].wanted || tenants[t].wrong != 0;
        pcap_freecode(&tenants[t].expression);
    }
    check(bpf_host_counters(&host, &counters), "the counters");
    printf("pages_shared %u\npages_sharing %u\n", counters.pages_shared, counters.pages_sharing);
    fprintf(stderr, "%.0f packets in a second, through %u filters each\n", (double)all.len * ROUNDS / spent, count);
    bpf_host_free(&host);
    pcap_close(capture);
    free(all.contexts);
    free(all.accepted);
    return differs;
}
