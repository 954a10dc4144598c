/* places CALLS SEED: random claims and peeks on rings of places of each capacity up to 70, with arguments in and out of range, on each
 * handle and on others, compared with a model of two positions. Elements that an end may use are written and read as the calls say:
 * packets come out in the order in which they were published, each once. A difference ends it with the call's number. */
#include "any.h"
#include <stdio.h>
#include <stdlib.h>
#include <string.h>

enum { MOST = 70 };

static uint64_t seed = 1;
static unsigned long call;

static uint32_t below(uint32_t bound) {
    seed = seed * UINT64_C(6364136223846793005) + UINT64_C(1442695040888963407);
    return (uint32_t)((seed >> 33) % bound);
}

static void want(bool holds, const char *what) {
    if (holds) return;
    printf("call %lu: %s\n", call, what);
    exit(1);
}

static struct fq_ring in, out;
static uint64_t elements[MOST]; /* the program's array */
static uint64_t published, released;
static size_t capacity, claimed, peeked;

static size_t least(size_t a, size_t b) { return a < b ? a : b; }

/* How many elements an end gets, of those that are there. */
static size_t given(size_t asked, size_t there, size_t first) { return least(least(asked, 64), least(there, capacity - first)); }

static void claims(size_t publish, size_t asked) {
    size_t first = 99, count = 99;
    const enum fq_status said = fq_ring_claim(&in, publish, asked, &first, &count);
    if (publish > claimed) {
        want(said == FQ_NOT_ALLOWED && first == 0 && count == 0, "more are published than are claimed");
        return;
    }
    published += publish;
    want(said == FQ_OK && first == published % capacity, "a claim");
    /* it looks for more only if it knows of too few, and by one thread it then knows of all */
    want(count == given(asked, capacity - (size_t)(published - released), first), "how many are claimed");
    claimed = count;
    for (size_t i = 0; i < count; i++) elements[first + i] = published + i;
}

static void peeks(size_t release, size_t asked) {
    size_t first = 99, count = 99;
    const enum fq_status said = fq_ring_peek(&out, release, asked, &first, &count);
    if (release > peeked) {
        want(said == FQ_NOT_ALLOWED && first == 0 && count == 0, "more are released than are peeked at");
        return;
    }
    released += release;
    want(said == FQ_OK && first == released % capacity, "a peek");
    want(count == given(asked, (size_t)(published - released), first), "how many are peeked at");
    peeked = count;
    for (size_t i = 0; i < count; i++) want(elements[first + i] == released + i, "the packets, in order");
}

/* A call on another object changes nothing. */
static void others(void) {
    union any other = FQ_NONE;
    struct fq_packet packet;
    size_t first = 99, count = 99;
    want(fq_ring_claim(&out, 0, 1, &first, &count) == FQ_BAD_HANDLE && first == 0 && count == 0, "a claim of the output");
    first = count = 99;
    want(fq_ring_peek(&in, 0, 1, &first, &count) == FQ_BAD_HANDLE && first == 0 && count == 0, "a peek of the input");
    want(fq_ring_put(&in, 1, 60) == FQ_BAD_HANDLE && fq_ring_poll(&out, 1, &packet, 1, &count) == FQ_BAD_HANDLE, "a put and a poll of places");
    want(fq_ring_places(&in, &other.ring, 4) == FQ_IN_USE && fq_ring_places(&other.ring, &out, 4) == FQ_IN_USE && !other.handle.private_set, "in use");
    want(fq_ring_claim(&other.ring, 0, 1, &first, &count) == FQ_BAD_HANDLE && fq_ring_peek(&other.ring, 0, 1, &first, &count) == FQ_BAD_HANDLE, "unset");
    want(fq_list_new(&other.list) == FQ_OK && fq_ring_claim(&other.ring, 0, 1, &first, &count) == FQ_BAD_HANDLE, "a list");
    want(fq_ring_peek(&other.ring, 0, 1, &first, &count) == FQ_BAD_HANDLE && fq_free(&other.handle) == FQ_OK, "a list");
}

int main(int words, char **word) {
    const unsigned long calls = words > 1 ? strtoul(word[1], NULL, 10) : 1000;
    struct fq_ring more = FQ_NONE;
    seed = words > 2 ? strtoull(word[2], NULL, 10) : 1;
    want(fq_ring_places(&in, &out, 0) == FQ_BAD_CAPACITY && fq_ring_places(&in, &out, 65537) == FQ_BAD_CAPACITY, "a capacity out of range");
    want(fq_ring_places(&in, &more, 65536) == FQ_OK && fq_free(&in.handle) == FQ_OK && fq_free(&more.handle) == FQ_OK, "the largest capacity");
    for (capacity = 1; capacity <= MOST; capacity++) {
        published = released = claimed = peeked = 0;
        want(fq_ring_places(&in, &out, capacity) == FQ_OK, "a ring of places");
        for (unsigned long i = 0; i < calls; i++, call++) {
            const uint32_t way = below(64);
            if (way == 0) others();
            else if (way % 2) claims(below((uint32_t)claimed + 2), below(MOST));
            else peeks(below((uint32_t)peeked + 2), below(MOST));
        }
        want(fq_free(below(2) ? &in.handle : &out.handle) == FQ_OK, "the first end");
        want(fq_free(in.handle.private_set ? &in.handle : &out.handle) == FQ_OK, "the second end");
    }
    printf("%d rings of places, as the model\n", MOST);
    return 0;
}
