/* Asks the proved library some thousands of questions, lawful and not, and compares each answer with a plain
 * implementation written here from the rules. Ends with status 1 at the first difference. */
#include <inttypes.h>
#include <stdio.h>
#include <stdlib.h>

#include "result_ring.h"

static uint64_t refused(uint64_t number) { return RESULT_RING_REFUSED + number; }

static uint64_t plain_place(uint64_t size, uint64_t copies, uint64_t item, uint64_t replica) {
    if (size < 1 || size > 65536) return refused(4);
    if (copies < 1 || copies > 8 || size % copies != 0) return refused(5);
    if (item >= size) return refused(6);
    if (replica < 1 || replica > copies) return refused(7);
    return (item + (replica - 1) * (size / copies)) % size;
}

static uint64_t plain_owner(uint64_t size, uint64_t identifier, const uint8_t *members, uint64_t length) {
    uint64_t best = 0, best_distance = UINT64_MAX;
    if (size < 1 || size > 65536) return refused(4);
    if (identifier >= size) return refused(6);
    if (length % 2 != 0) return refused(8);
    for (uint64_t i = 0; i < length; i += 2) {
        uint64_t member = members[i] * 256u + members[i + 1];
        uint64_t distance;
        if (member >= size) return refused(8);
        distance = (member + size - identifier) % size;
        if (distance < best_distance) {
            best = member;
            best_distance = distance;
        }
    }
    return length == 0 ? refused(12) : best;
}

/* A xorshift generator: the same questions in every run. */
static uint64_t state = 88172645463325252u;

static uint64_t draw(uint64_t below) {
    state ^= state << 13;
    state ^= state >> 7;
    state ^= state << 17;
    return state % below;
}

/* Mostly numbers near the limits that matter, now and then any number. */
static uint64_t number(uint64_t near) {
    switch (draw(16)) {
    case 0: return draw(UINT64_MAX);
    case 1: return near;
    case 2: return near + 1;
    case 3: return 0;
    default: return near == 0 ? 0 : draw(near);
    }
}

static uint64_t any_size(void) {
    static const uint64_t sizes[] = {0, 1, 2, 7, 8, 12, 16, 64, 256, 840, 840, 1000, 4096, 4096, 65535, 65536, 65536, 65537};
    return draw(8) == 0 ? number(65536) : sizes[draw(sizeof sizes / sizeof *sizes)];
}

static uint64_t compared = 0, lawful = 0;

static void compare(const char *what, uint64_t got, uint64_t expected) {
    compared += 1;
    lawful += expected < RESULT_RING_REFUSED;
    if (got != expected) {
        printf("%s: the library answers %" PRIu64 ", the plain program %" PRIu64 "\n", what, got, expected);
        exit(1);
    }
}

static void one_place(void) {
    uint64_t size = any_size(), copies = draw(8) == 0 ? number(9) : (uint64_t)1 << draw(4);
    uint64_t item = number(size), replica = draw(8) == 0 ? number(9) : 1 + draw(copies == 0 ? 1 : copies);
    compare("place", result_ring_place(size, copies, item, replica), plain_place(size, copies, item, replica));
}

static void one_owner(void) {
    uint8_t members[130];
    uint64_t size = any_size(), identifier = number(size), length = draw(sizeof members);
    if (draw(16) != 0) length &= ~(uint64_t)1;
    for (uint64_t i = 0; i < length; i += 1) {
        static uint64_t member;
        if (i % 2 == 0) member = size > 0 && size <= 65536 && draw(500) != 0 ? draw(size) : draw(65536);
        members[i] = (uint8_t)(i % 2 == 0 ? member >> 8 : member);
    }
    compare("owner", result_ring_owner(size, identifier, members, length), plain_owner(size, identifier, members, length));
}

int main(void) {
    for (int i = 0; i < 20000; i += 1) {
        one_place();
        one_owner();
    }
    printf("%" PRIu64 " questions agree, %" PRIu64 " of them answered and %" PRIu64 " refused\n", compared, lawful, compared - lawful);
    return 0;
}
