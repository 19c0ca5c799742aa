/* A publication cut within a call: a page of the destination can't be written, so the call dies there. What it has stored
 * by then is the plan's first stores and no others, but for a few at its end that one move would have stored together;
 * and a call whose slots are too few reads none of what is lent, however much it is. */
#define _DEFAULT_SOURCE
#include "pmtiles.h"

#include <stdio.h>
#include <string.h>
#include <sys/mman.h>
#include <sys/wait.h>
#include <unistd.h>

enum { PAGE = 4096, BEHIND = 16384, ONE_MOVE = 64 };

static int checks, faults;

static void check(int holds, const char *what, size_t metadata, size_t tiles) {
    checks++;
    if (!holds) {
        faults++;
        printf("tests/c/cut.c: %s, with %zu bytes of metadata and %zu of tiles\n", what, metadata, tiles);
    }
}

static void *pages(size_t n, int flags) {
    void *at = mmap(NULL, n, PROT_READ | PROT_WRITE, flags | MAP_ANONYMOUS, -1, 0);
    if (at == MAP_FAILED) {
        perror("tests/c/cut.c: mmap");
        _exit(1);
    }
    return at;
}

/* Tiles from BEHIND + metadata on, with a page that can't be written `whole` pages behind BEHIND. */
static void cut(size_t metadata, size_t tiles, size_t whole) {
    static const uint64_t settings[5] = {1, 1, 0, 3, 0}, counts[2] = {1, 1};
    static const double degrees[6];
    static const uint8_t root[5] = {1, 0, 1, 1, 1}, none[1];
    size_t length = BEHIND + metadata + tiles, first = BEHIND + metadata, hole = BEHIND + whole * PAGE;
    uint8_t *dest = pages(length + PAGE, MAP_SHARED), *source = pages(metadata + tiles, MAP_PRIVATE);
    memset(dest, 0xee, length);
    memset(source, 0x11, metadata + tiles);
    pid_t child = fork();
    if (child == 0) {
        uint64_t out[1];
        if (mprotect(dest + hole, PAGE, PROT_NONE) == 0)
            pmt_publish(settings, 5, degrees, 6, counts, 2, root, 5, source, metadata, source + metadata, tiles, none, 0,
                        dest, length, 0, UINT64_MAX, out, 1);
        _exit(0);
    }
    int status = 0;
    check(child > 0 && waitpid(child, &status, 0) == child && WIFSIGNALED(status), "the call dies at the page", metadata, tiles);
    size_t stored = first;
    while (stored < hole && dest[stored] == 0x11) stored++;
    check(hole - stored < ONE_MOVE, "all stores before the page are done", metadata, tiles);
    size_t later = stored;
    while (later < length && dest[later] == 0xee) later += later + 1 == hole ? PAGE + 1 : 1;
    check(later >= length, "no store behind it is done", metadata, tiles);
    check(dest[0] == 0, "the destination is no archive", metadata, tiles);
    munmap(dest, length + PAGE);
    munmap(source, metadata + tiles);
}

/* Stores that can't be read: a call that is refused for its slots must not have looked. */
static void slots_first(void) {
    void *closed = pages(PAGE, MAP_PRIVATE);
    mprotect(closed, PAGE, PROT_NONE);
    pid_t child = fork();
    if (child == 0) {
        uint64_t out[4] = {0};
        int right = pmt_encoded_len(9, closed, 9, closed, 9, closed, 9, closed, 9, out, 0) == PMT_ROOM_TOO_SHORT &&
                    pmt_build_sizes(9, closed, 9, closed, 9, closed, 9, closed, 9, 99, out, 1) == PMT_ROOM_TOO_SHORT &&
                    pmt_directory_find(closed, 9, 0, out, 3) == PMT_ROOM_TOO_SHORT;
        _exit(right ? 0 : 1);
    }
    int status = 1;
    check(child > 0 && waitpid(child, &status, 0) == child && status == 0, "slots are tested before all else", 0, 0);
    munmap(closed, PAGE);
}

int main(void) {
    static const struct {
        size_t metadata, tiles, whole;
    } cuts[] = {{4000, 200, 1}, {3500, 1000, 1}, {3000, 2000, 1}, {4032, 100, 1}, {100, 9000, 2}, {0, 100000, 9}, {7, 3000000, 600}};
    for (size_t i = 0; i < sizeof cuts / sizeof *cuts; i++) cut(cuts[i].metadata, cuts[i].tiles, cuts[i].whole);
    slots_first();
    printf("C, cut within a call: %d checks, %d faults\n", checks, faults);
    return faults != 0;
}
