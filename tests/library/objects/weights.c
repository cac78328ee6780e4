/* examples/weights.c, as clang compiles it, and a copy that reads outside of its table: weights WEIGHTS WIDER */
#include "../check.h"

unsigned checks;
unsigned failures;

void check_at(const char *file, int line, const char *what, unsigned long long found, unsigned long long wanted)
{
    checks++;
    if (found != wanted) {
        failures++;
        printf("%s:%d: %s is %llu, not %llu\n", file, line, what, found, wanted);
    }
}

static struct bpf_host_object object;

/* Reads a file for contexts of 64 bytes: what the call returns. */
static uint32_t read_path(const char *path, struct bpf_host_refused *refused)
{
    static uint8_t bytes[65536];
    FILE *file = fopen(path, "rb");
    size_t size = file == NULL ? 0 : fread(bytes, 1, sizeof bytes, file);
    if (file != NULL)
        fclose(file);
    return bpf_host_read_object(bytes, size, "weigh", 5, 64, &object, refused);
}

static void check_maps(void)
{
    static const uint8_t weights[32] = {1, 0, 0, 0, 3, 0, 0, 0, 9, 0, 0, 0, 27, 0, 0, 0, 81, 0, 0, 0, 243, 0, 0, 0, 217, 2, 0, 0, 139, 8, 0, 0};
    CHECK(object.maps_len, 2);
    CHECK(strcmp(object.maps[0].name, "totals"), 0);
    CHECK(object.maps[0].shape.value_size, 8);
    CHECK(object.maps[0].shape.entries, 4);
    CHECK(object.maps[0].first_len, 0);
    CHECK(strcmp(object.maps[1].name, ".rodata"), 0);
    CHECK(object.maps[1].shape.value_size, 32);
    CHECK(object.maps[1].shape.entries, 1);
    CHECK(object.maps[1].first_len, 32);
    CHECK(memcmp(object.maps[1].first, weights, 32), 0);
}

int main(int argc, char **argv)
{
    static const uint8_t packet[64] = {0x40, 0, 0, 0, 1, 2, 3};
    static const char why[] = "refused 19 OutsideMap at 22 (wider.c:20: return weights[byte & 15];)\n";
    struct bpf_host host = {0};
    struct bpf_host_options options = BPF_HOST_OPTIONS;
    struct bpf_host_refused refused = {77, 78, 79};
    struct bpf_host_run run = {0, 0};
    uint32_t program = 99;
    if (argc != 3) {
        puts("weights WEIGHTS WIDER");
        return 2;
    }
    CHECK(read_path(argv[1], &refused), 0);
    check_maps();
    CHECK(bpf_host_new(64, 1, &options, &host), 0);
    CHECK(bpf_host_load_object(&host, 0, &object, true, &program, &refused), 0);
    CHECK(bpf_host_run(&host, 0, program, packet, 64, &run, &refused), 0);
    CHECK(run.ret, 96);
    CHECK(read_path(argv[2], &refused), BPF_HOST_OUTSIDE_MAP);
    CHECK(refused.slot, 22);
    CHECK(strncmp(object.why, why, sizeof why - 1), 0);
    bpf_host_free(&host);
    printf("%u checks, %u failed\n", checks, failures);
    return failures != 0;
}
