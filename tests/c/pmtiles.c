/* The proved library from C, by include/pmtiles.h alone: every function, on the format's worked examples. */
#include "pmtiles.h"

#include <stdio.h>
#include <stdlib.h>
#include <string.h>

static int checks, faults;

static void check(int holds, const char *what, int line) {
    checks++;
    if (!holds) {
        faults++;
        printf("tests/c/pmtiles.c:%d: %s\n", line, what);
    }
}

#define CHECK(holds) check((holds), #holds, __LINE__)
#define LEN(a) (sizeof(a) / sizeof *(a))
/* a slice of a whole array */
#define ALL(a) (a), LEN(a)
#define STORES(n) ids, (n), runs, (n), lengths, (n), offsets, (n)

static void tile_ids(void) {
    static const struct {
        uint8_t z;
        uint32_t x, y;
        uint64_t id;
    } examples[] = {{0, 0, 0, 0}, {1, 0, 0, 1}, {1, 0, 1, 2},  {1, 1, 1, 3},
                    {1, 1, 0, 4}, {2, 3, 0, 20}, {12, 3423, 1763, 19078479}};
    for (size_t i = 0; i < LEN(examples); i++) {
        uint64_t out[3] = {0};
        CHECK(pmt_tile_id(examples[i].z, examples[i].x, examples[i].y, ALL(out)) == PMT_DONE);
        CHECK(out[0] == examples[i].id);
        CHECK(pmt_tile_coord(examples[i].id, ALL(out)) == PMT_DONE);
        CHECK(out[0] == examples[i].z && out[1] == examples[i].x && out[2] == examples[i].y);
    }
    uint64_t out[3] = {7, 7, 7};
    CHECK(pmt_tile_id(2, 4, 0, ALL(out)) == PMT_INVALID_COORDINATE);
    CHECK(pmt_tile_id(32, 0, 0, ALL(out)) == PMT_INVALID_COORDINATE);
    CHECK(pmt_tile_coord(6148914691236517205u, ALL(out)) == PMT_INVALID_TILE_ID);
    CHECK(pmt_tile_coord(0, out, 2) == PMT_ROOM_TOO_SHORT);
    CHECK(out[0] == 7 && out[1] == 7 && out[2] == 7);
}

static void directories(void) {
    uint64_t ids[2] = {0, 1}, offsets[2] = {0, 5}, out[4];
    uint32_t runs[2] = {1, 2}, lengths[2] = {5, 7};
    const uint8_t expected[9] = {2, 0, 1, 1, 2, 5, 7, 1, 0};
    uint8_t bytes[10] = {0};
    CHECK(pmt_encoded_len(2, STORES(2), ALL(out)) == PMT_DONE && out[0] == 9);
    CHECK(pmt_directory_write(2, STORES(2), bytes, 8, ALL(out)) == PMT_ROOM_TOO_SHORT);
    CHECK(pmt_directory_write(2, STORES(2), ALL(bytes), ALL(out)) == PMT_DONE && out[0] == 9);
    CHECK(memcmp(bytes, expected, 9) == 0 && bytes[9] == 0);

    CHECK(pmt_directory_find(bytes, 9, 2, ALL(out)) == PMT_DONE);
    CHECK(out[0] == 1 && out[1] == 2 && out[2] == 7 && out[3] == 5);
    CHECK(pmt_directory_find(bytes, 9, 3, ALL(out)) == PMT_ABSENT);
    CHECK(pmt_directory_find(bytes, 8, 0, ALL(out)) == PMT_VARINT_CUT_OFF);

    memset(ids, 0xFF, sizeof ids);
    memset(offsets, 0xFF, sizeof offsets);
    CHECK(pmt_directory_read(bytes, 9, STORES(2), ALL(out)) == PMT_DONE && out[0] == 2 && out[1] == 9);
    CHECK(ids[0] == 0 && runs[0] == 1 && lengths[0] == 5 && offsets[0] == 0);
    CHECK(ids[1] == 1 && runs[1] == 2 && lengths[1] == 7 && offsets[1] == 5);
    CHECK(pmt_directory_read(bytes, 9, STORES(1), ALL(out)) == PMT_ROOM_TOO_SHORT);
    CHECK(runs[0] == 0 && lengths[0] == 0 && ids[1] == 1);
    bytes[7] = 0;
    CHECK(pmt_directory_read(bytes, 9, STORES(2), ALL(out)) == PMT_INVALID_ENTRY);
    CHECK(ids[1] == 0 && runs[1] == 0 && lengths[1] == 0 && offsets[1] == 0);
}

static void headers(void) {
    uint64_t numbers[19], again[19];
    double degrees[6] = {-180, -85.051129, 180, 85.051129, 0.5, -0.25}, back[6];
    uint8_t bytes[128];
    for (size_t i = 0; i < LEN(numbers); i++) numbers[i] = i + 1;
    numbers[12] = 1, numbers[13] = 1, numbers[14] = 2, numbers[15] = 3;
    memset(bytes, 0xAA, sizeof bytes);
    CHECK(pmt_header_write(ALL(numbers), ALL(degrees), bytes, 126) == PMT_ROOM_TOO_SHORT && bytes[0] == 0xAA);
    CHECK(pmt_header_write(ALL(numbers), ALL(degrees), ALL(bytes)) == PMT_DONE);
    CHECK(memcmp(bytes, "PMTiles\1", 8) == 0 && bytes[99] == 3 && bytes[127] == 0xAA);
    CHECK(pmt_header_read(ALL(bytes), ALL(again), ALL(back)) == PMT_DONE);
    CHECK(memcmp(numbers, again, sizeof again) == 0);
    for (size_t i = 0; i < LEN(back); i++) CHECK(back[i] == degrees[i]);
    CHECK(pmt_header_read(bytes, 126, ALL(again), ALL(back)) == PMT_INVALID_HEADER);
    bytes[99] = 7;
    CHECK(pmt_header_read(ALL(bytes), ALL(again), ALL(back)) == PMT_INVALID_TILE_TYPE);
    numbers[14] = 256;
    CHECK(pmt_header_write(ALL(numbers), ALL(degrees), ALL(bytes)) == PMT_INVALID_COMPRESSION);
}

/* One tile, published store by store: refused after each, until the last makes it an archive. */
static void publication(void) {
    uint64_t ids[1] = {0}, offsets[1] = {0}, out[4];
    uint32_t runs[1] = {1}, lengths[1] = {5};
    uint8_t root[16], leaves[1];
    const uint8_t metadata[2] = {'{', '}'}, tiles[5] = {'w', 'a', 't', 'e', 'r'};
    const uint64_t settings[5] = {1, 2, 0, 3, 1};
    const double degrees[6] = {-180, -85.051129, 180, 85.051129, 0, 0};
    CHECK(pmt_build_sizes(1, STORES(1), 5, ALL(out)) == PMT_DONE && out[0] == 5 && out[1] == 0);
    CHECK(pmt_build(1, STORES(1), 4, ALL(root), ALL(leaves), ALL(out)) == PMT_RANGE_OUTSIDE);
    CHECK(pmt_build(1, STORES(1), 5, ALL(root), ALL(leaves), ALL(out)) == PMT_DONE);
    CHECK(out[0] == 5 && out[1] == 0 && out[2] == 1 && out[3] == 1);
    const uint64_t counts[2] = {out[2], out[3]};
    uint64_t total[1], position[1] = {0}, at[2];
    CHECK(pmt_total(5, 2, 5, 0, ALL(total)) == PMT_DONE && total[0] == 16523);
    CHECK(pmt_total(16258, 2, 5, 0, ALL(total)) == PMT_RANGE_OUTSIDE && total[0] == 16523);

    size_t size = 16391;
    uint8_t *archive = malloc(size);
    if (archive == NULL) abort();
    memset(archive, 0xAA, size);
#define PUBLISH(length, budget) \
    pmt_publish(ALL(settings), ALL(degrees), ALL(counts), root, 5, ALL(metadata), ALL(tiles), leaves, 0, archive, \
                (length), position[0], (budget), ALL(position))
    CHECK(PUBLISH(size - 1, 1) == PMT_ROOM_TOO_SHORT && position[0] == 0);
    int refused = 0;
    while (position[0] < total[0]) {
        uint64_t before = position[0];
        if (before > 0) refused += pmt_lookup_coord(archive, size, 0, 0, 0, ALL(at)) == PMT_INVALID_MAGIC_NUMBER;
        if (PUBLISH(size, 1) != PMT_DONE || position[0] != before + 1) break;
    }
    CHECK(position[0] == total[0]);
    CHECK(refused == 16522);
    CHECK(pmt_lookup_coord(archive, size, 0, 0, 0, ALL(at)) == PMT_DONE && at[0] == 16386 && at[1] == 5);
    CHECK(pmt_lookup(archive, size, 0, ALL(at)) == PMT_DONE && memcmp(archive + at[0], "water", at[1]) == 0);
    CHECK(pmt_lookup(archive, size, 1, ALL(at)) == PMT_ABSENT);
    CHECK(pmt_lookup(archive, size - 1, 0, ALL(at)) == PMT_RANGE_OUTSIDE);
    CHECK(pmt_lookup_coord(archive, size, 2, 4, 0, ALL(at)) == PMT_INVALID_COORDINATE);
    free(archive);
}

int main(void) {
    tile_ids();
    directories();
    headers();
    publication();
    printf("C: %d checks, %d faults\n", checks, faults);
    return faults != 0;
}
