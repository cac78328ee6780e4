/* Object files: what a refusal leaves, and a program that is loaded with its maps. The rows of `bpf_object` are compared in objects/rows.c. */
#include "check.h"

_Static_assert(sizeof(struct bpf_host_object_map) == 4172, "a map of an object is laid out as the library has it");
_Static_assert(sizeof(struct bpf_host_object) == 67180, "an object is laid out as the library has it");

static struct bpf_host_object object;
static uint8_t bytes[65536];

/* The bytes of an object file of crates/bpf_object: how many. */
static size_t read_file(const char *path)
{
    FILE *file = fopen(path, "rb");
    CHECK(file != NULL, true);
    size_t size = file == NULL ? 0 : fread(bytes, 1, sizeof bytes, file);
    if (file != NULL)
        fclose(file);
    return size;
}

/* Reads what `bytes` begins with: what the call returns. */
static uint32_t read_object(size_t size, const char *name, uint32_t context_size)
{
    last_refused = (struct bpf_host_refused){77, 78, 79};
    return bpf_host_read_object(bytes, size, name, strlen(name), context_size, &object, &last_refused);
}

/* A tenant has no map. */
static void check_no_maps(struct bpf_host *host, uint32_t tenant)
{
    struct bpf_host_shape shape = {0};
    for (uint32_t map = 0; map < 8; map++)
        CHECK(bpf_host_shape(host, tenant, map, &shape), 34);
}

/* A refusal by a number, in words that begin so, writes nothing else. */
static void check_refused(size_t size, const char *name, uint32_t context_size, uint32_t code, const char *why)
{
    static struct bpf_host_object before;
    memset(&before, 0xee, sizeof before);
    memset(&object, 0xee, sizeof object);
    CHECK(read_object(size, name, context_size), code);
    CHECK(strncmp(object.why, why, strlen(why)), 0);
    CHECK(object.why[sizeof object.why - 1], 0);
    memcpy(object.why, before.why, sizeof object.why);
    CHECK(memcmp(&object, &before, sizeof object), 0);
    CHECK(last_refused.need, 78);
    CHECK(last_refused.have, 79);
}

static void test_refused_files(void)
{
    size_t size = read_file("crates/bpf_object/data/two.o");
    check_refused(size, "tc", 7, BPF_HOST_BAD_CONTEXT, "refused 39 BadContext\n");
    check_refused(size, "tc", 264, BPF_HOST_BAD_CONTEXT, "refused 39 BadContext\n");
    check_refused(0, "", 7, BPF_HOST_BAD_CONTEXT, "refused 39 BadContext\n");
    check_refused(0, "", 0, BPF_HOST_BAD_OBJECT, "this is no ELF file; compile C with `clang -g -O2 ");
    check_refused(size, "", 0, BPF_HOST_BAD_OBJECT, "section 2, byte 0: there are several functions, ");
    check_refused(size, "other", 0, BPF_HOST_BAD_OBJECT, "no section and no function is named `other`");
    check_refused(size, "\xff", 0, BPF_HOST_BAD_OBJECT, "the name is no UTF-8 text");
    /* Cut, it has words of its own. */
    check_refused(size / 2, "tc", 0, BPF_HOST_BAD_OBJECT, "");
    CHECK(read_object(size / 2, "tc", 0) == BPF_HOST_BAD_OBJECT && object.why[0] != 0, true);
    CHECK(last_refused.slot, 77);
    /* The names of both functions stand so in the file, but no name has a zero in it. */
    CHECK(memcmp(bytes + 185, "xdp\0tc", 7), 0);
    CHECK(bpf_host_read_object(bytes, size, "xdp\0tc", 6, 0, &object, &last_refused), BPF_HOST_BAD_OBJECT);
    CHECK(bpf_host_read_object(bytes, size, "xdp", 3, 16, &object, &last_refused), 0);
    check_refused(read_file("crates/bpf_object/data/unset.o"), "", 0, BPF_HOST_UNSET_REGISTER, "refused 14 UnsetRegister at 0\n");
    CHECK(last_refused.slot, 0);
}

/* A program with three maps runs, and no other one is loaded for its tenant with maps of its own. */
static void test_loaded_objects(void)
{
    struct bpf_host host = {0};
    struct bpf_host_refused refused = {0, 0, 0};
    uint32_t program = 99;
    CHECK(read_object(read_file("crates/bpf_object/data/globals.o"), "", 0), 0);
    CHECK(object.maps_len, 3);
    CHECK(bpf_host_load_object(&host, 0, &object, true, &program, &refused), BPF_HOST_CLOSED);
    open_host(&host, 8, 2);
    CHECK(bpf_host_load_object(&host, 2, &object, true, &program, &refused), BPF_HOST_BAD_TENANT);
    CHECK(program, 99);
    for (uint32_t tenant = 0; tenant < 2; tenant++) {
        CHECK(bpf_host_load_object(&host, tenant, &object, tenant == 0, &program, &refused), 0);
        CHECK(program, 0);
        check_run(&host, tenant, "", 134678021, 6);
    }
    program = 99;
    CHECK(bpf_host_load_object(&host, 0, &object, true, &program, &refused), BPF_HOST_HAS_MAPS);
    CHECK(program, 99);
    bpf_host_free(&host);
}

/* The pages of two tenants' maps are merged where that is asked, and else never. */
static void test_merged_objects(void)
{
    struct bpf_host_refused refused = {0, 0, 0};
    uint32_t program = 99;
    CHECK(read_object(read_file("crates/bpf_object/data/globals.o"), "", 0), 0);
    for (uint32_t is_asked = 0; is_asked < 2; is_asked++) {
        struct bpf_host host = {0};
        open_host(&host, 8, 2);
        for (uint32_t tenant = 0; tenant < 2; tenant++)
            CHECK(bpf_host_load_object(&host, tenant, &object, is_asked, &program, &refused), 0);
        CHECK(after_visits(&host, 100).pages_sharing > 0, is_asked);
        bpf_host_free(&host);
    }
}

/* Of a map whose number a loaded program names, reached or not, the drop is refused: so it stays where the object's program is refused. */
static void test_named_map(void)
{
    static const uint8_t names_map_0[] = {0xb7, 0, 0, 0, 1, 0, 0, 0, 0x95, 0, 0, 0, 0, 0, 0, 0, 0x18, 0x11, 0, 0, 0, 0, 0, 0,
        0, 0, 0, 0, 0, 0, 0, 0, 0x95, 0, 0, 0, 0, 0, 0, 0};
    struct bpf_host host = {0};
    struct bpf_host_refused refused = {0, 0, 0};
    struct bpf_host_shape shape = {0};
    uint32_t program = 99;
    open_host(&host, 8, 1);
    CHECK(bpf_host_load(&host, 0, names_map_0, sizeof names_map_0, 0, &program, &refused), 0);
    CHECK(read_object(read_file("crates/bpf_object/data/globals.o"), "", 0), 0);
    object.context_size = 7;
    CHECK(bpf_host_load_object(&host, 0, &object, true, &program, &refused), BPF_HOST_BAD_CONTEXT);
    CHECK(program, 0);
    CHECK(bpf_host_shape(&host, 0, 0, &shape), 0);
    CHECK(bpf_host_shape(&host, 0, 1, &shape), BPF_HOST_NO_MAP);
    bpf_host_free(&host);
}

/* A step that is refused leaves no map: for want of frames, of a text that isn't taken, or of right lengths. */
static void test_refused_objects(void)
{
    struct bpf_host host = {0};
    struct bpf_host_refused refused = {0, 0, 0};
    uint32_t program = 99;
    open_host(&host, 3, 1);
    CHECK(read_object(read_file("crates/bpf_object/data/globals.o"), "", 0), 0);
    CHECK(bpf_host_load_object(&host, 0, &object, true, &program, &refused), BPF_HOST_NO_FRAMES);
    check_no_maps(&host, 0);
    bpf_host_free(&host);
    open_host(&host, 8, 1);
    object.context_size = 7;
    CHECK(bpf_host_load_object(&host, 0, &object, true, &program, &refused), BPF_HOST_BAD_CONTEXT);
    check_no_maps(&host, 0);
    object.context_size = 0;
    object.maps[2].first_len = 9;
    CHECK(bpf_host_load_object(&host, 0, &object, true, &program, &refused), BPF_HOST_BAD_SHAPE);
    check_no_maps(&host, 0);
    object.maps[2].first_len = 4097;
    CHECK(bpf_host_load_object(&host, 0, &object, true, &program, &refused), BPF_HOST_WRONG_LENGTH);
    object.maps[2].first_len = 0;
    object.maps_len = 9;
    CHECK(bpf_host_load_object(&host, 0, &object, true, &program, &refused), BPF_HOST_WRONG_LENGTH);
    object.maps_len = 3;
    object.text_len = 32769;
    CHECK(bpf_host_load_object(&host, 0, &object, true, &program, &refused), BPF_HOST_WRONG_LENGTH);
    check_no_maps(&host, 0);
    CHECK(program, 99);
    bpf_host_free(&host);
}

/* Two objects have the same maps where names, shapes and initial values are the same, whatever follows an initial value. */
static void test_same_maps(void)
{
    static struct bpf_host_object other;
    CHECK(read_object(read_file("crates/bpf_object/data/globals.o"), "", 0), 0);
    other = object;
    other.text_len = 0;
    memset(other.maps[0].first + other.maps[0].first_len, 0xee, 9);
    CHECK(bpf_host_same_maps(&object, &other), true);
    other.maps[2].name[63]++;
    CHECK(bpf_host_same_maps(&object, &other), false);
    other.maps[2] = object.maps[2];
    other.maps[2].shape.value_size++;
    CHECK(bpf_host_same_maps(&object, &other), false);
    other.maps[2] = object.maps[2];
    other.maps[2].shape.entries++;
    CHECK(bpf_host_same_maps(&object, &other), false);
    other.maps[2] = object.maps[2];
    other.maps[1].first[other.maps[1].first_len - 1]++;
    CHECK(bpf_host_same_maps(&object, &other), false);
    other.maps[1] = object.maps[1];
    other.maps[1].first_len--;
    CHECK(bpf_host_same_maps(&object, &other), false);
    other.maps[1] = object.maps[1];
    other.maps_len--;
    CHECK(bpf_host_same_maps(&object, &other), false);
    CHECK(bpf_host_same_maps(&other, &object), false);
    other = object;
    other.maps_len = 9;
    CHECK(bpf_host_same_maps(&other, &other), false);
    other = object;
    other.maps[0].first_len = 4097;
    CHECK(bpf_host_same_maps(&other, &other), false);
    /* A name that may have been cut is nobody's. */
    other = object;
    memset(other.maps[0].name, 'n', 62);
    CHECK(bpf_host_same_maps(&other, &other), true);
    other.maps[0].name[62] = 'n';
    CHECK(bpf_host_same_maps(&other, &other), false);
    /* So is one with another character after its first 40, which are followed by two dots then. */
    other = object;
    memset(other.maps[0].name, 0, sizeof other.maps[0].name);
    memset(other.maps[0].name, 'n', 40);
    CHECK(bpf_host_same_maps(&other, &other), true);
    memset(&other.maps[0].name[40], '.', 2);
    CHECK(bpf_host_same_maps(&other, &other), false);
    other.maps[0].name[42] = '.';
    CHECK(bpf_host_same_maps(&other, &other), true);
    /* So is one that may have been escaped. */
    other = object;
    other.maps[0].name[1] = '-';
    CHECK(bpf_host_same_maps(&other, &other), false);
}

/* A map is found by its name. */
static void test_map_named(void)
{
    CHECK(read_object(read_file("crates/bpf_object/data/globals.o"), "", 0), 0);
    CHECK(object.maps_len, 3);
    for (uint32_t map = 0; map < 3; map++)
        CHECK(bpf_host_map_named(&object, object.maps[map].name), map);
    CHECK(bpf_host_map_named(&object, ".data"), 0);
    CHECK(bpf_host_map_named(&object, ".dat"), 3);
    CHECK(bpf_host_map_named(&object, ".data."), 3);
    CHECK(bpf_host_map_named(&object, ""), 3);
    object.maps_len = 9;
    CHECK(bpf_host_map_named(&object, "none"), 9);
}

/* The pages of an object's maps: those whose host has just so many frames for them, besides one for zeros, take them all, and not one fewer
 * (docs/MEMORY.md: a value takes a multiple of 8 bytes, a map's last page is whole). */
static void test_object_pages(void)
{
    static const struct { struct bpf_host_shape shape; uint64_t pages; } ROWS[] = {
        {{1, 1}, 1},      {{8, 512}, 1},     {{8, 513}, 2},   {{4, 512}, 1},      {{4, 1024}, 2},
        {{24, 200}, 2},   {{1, 65536}, 128}, {{9, 256}, 1},   {{9, 257}, 2},      {{4095, 1}, 1},
        {{4096, 1}, 1},   {{4096, 256}, 256}, {{16, 65536}, 256}, {{4089, 3}, 3},
    };
    CHECK(read_object(read_file("crates/bpf_object/data/globals.o"), "", 0), 0);
    for (size_t row = 0; row < sizeof ROWS / sizeof *ROWS; row++) {
        struct bpf_host host = {0};
        struct bpf_host_refused refused = {0, 0, 0};
        uint32_t map = 0;
        object.maps_len = 1;
        object.maps[0].shape = ROWS[row].shape;
        CHECK(bpf_host_object_pages(&object), ROWS[row].pages);
        open_host(&host, (uint32_t)ROWS[row].pages + 1, 1);
        CHECK(bpf_host_create_map(&host, 0, ROWS[row].shape.value_size, ROWS[row].shape.entries, true, &map, &refused), 0);
        CHECK(bpf_host_create_map(&host, 0, 1, 1, true, &map, &refused), BPF_HOST_NO_FRAMES);
        bpf_host_free(&host);
    }
    object.maps_len = 2;
    object.maps[0].shape = (struct bpf_host_shape){4, 1024};
    object.maps[1].shape = (struct bpf_host_shape){8, 513};
    CHECK(bpf_host_object_pages(&object), 4);
    object.maps_len = 0;
    CHECK(bpf_host_object_pages(&object), 0);
    object.maps_len = 9;
    for (uint32_t map = 0; map < 8; map++)
        object.maps[map].shape = (struct bpf_host_shape){8, 1};
    CHECK(bpf_host_object_pages(&object), 8);
    CHECK(BPF_HOST_ENOUGH_FRAMES(4), 10);
}

/* A program that replaces another one goes on with the values of its maps. What is refused leaves the old one and its number. */
static void test_replaced_program(void)
{
    struct bpf_host host = {0};
    struct bpf_host_refused refused = {0, 0, 0};
    static const uint8_t kept[8] = {9, 8, 7, 6, 5, 4, 3, 2};
    uint8_t value[8] = {0};
    uint32_t program = 99;
    CHECK(read_object(read_file("crates/bpf_object/data/globals.o"), "", 0), 0);
    CHECK(bpf_host_replace(&host, 0, &object, &program, &refused), BPF_HOST_CLOSED);
    open_host(&host, 8, 1);
    CHECK(bpf_host_load_object(&host, 0, &object, true, &program, &refused), 0);
    CHECK(object.maps[0].shape.value_size, sizeof kept);
    CHECK(bpf_host_update(&host, 0, 0, 0, kept, sizeof kept, &refused), 0);
    CHECK(bpf_host_replace(&host, 0, &object, &program, &refused), 0);
    CHECK(program, 1);
    CHECK(bpf_host_unload(&host, 0, 0), BPF_HOST_NO_PROGRAM);
    CHECK(bpf_host_lookup(&host, 0, 0, 0, value, sizeof value), 0);
    CHECK(memcmp(value, kept, sizeof kept), 0);
    for (uint32_t missing = 0; missing < 3; missing += 2) {
        uint32_t number = missing;
        CHECK(bpf_host_replace(&host, 0, &object, &number, &refused), BPF_HOST_NO_PROGRAM);
        CHECK(number, missing);
        CHECK(bpf_host_unload(&host, 0, 0), BPF_HOST_NO_PROGRAM);
        CHECK(bpf_host_unload(&host, 0, 2), BPF_HOST_NO_PROGRAM);
    }
    CHECK(bpf_host_replace(&host, 1, &object, &program, &refused), BPF_HOST_BAD_TENANT);
    object.context_size = 7;
    CHECK(bpf_host_replace(&host, 0, &object, &program, &refused), BPF_HOST_BAD_CONTEXT);
    object.context_size = 0;
    object.text_len = 32769;
    CHECK(bpf_host_replace(&host, 0, &object, &program, &refused), BPF_HOST_WRONG_LENGTH);
    CHECK(program, 1);
    CHECK(bpf_host_unload(&host, 0, 1), 0);
    bpf_host_free(&host);
}

void test_objects(void)
{
    test_same_maps();
    test_object_pages();
    test_map_named();
    test_replaced_program();
    test_refused_files();
    test_loaded_objects();
    test_merged_objects();
    test_refused_objects();
    test_named_map();
}
