/* A ring without copies between two threads: frames are written and read in an array of the program's, in bursts of up to 32. Each call
 * passes on the elements of the last burst and gets the next ones. The calls of fintaqush_tsan.h are only for ThreadSanitizer. */
#include <fintaqush_tsan.h>
#include <pthread.h>
#include <sched.h>
#include <stdio.h>

enum { FRAMES = 200000, PLACES = 256, BURST = 32, BYTES = 60 };

static unsigned char frames[PLACES][BYTES];

/* Returns the value of each byte of a frame. */
static unsigned char written(size_t frame) { return (unsigned char)(frame % 251); }

static void *fill(void *at) {
    struct fq_ring *ring = at;
    size_t first, count = 0;
    for (size_t frame = 0; frame < FRAMES;) {
        const size_t left = FRAMES - frame;
        if (fq_ring_claim(ring, count, left < BURST ? left : BURST, &first, &count) != FQ_OK) return ring;
        if (count == 0) sched_yield(); /* the ring is full */
        for (size_t i = 0; i < count; i++, frame++) {
            fq_tsan_acquire(frames[first + i]);
            for (int k = 0; k < BYTES; k++) frames[first + i][k] = written(frame);
            fq_tsan_release(frames[first + i]);
        }
    }
    return fq_ring_claim(ring, count, 0, &first, &count) == FQ_OK ? NULL : ring; /* publishes the last burst */
}

static void *drain(void *at) {
    struct fq_ring *out = at;
    size_t first, count = 0;
    for (size_t frame = 0; frame < FRAMES;) {
        if (fq_ring_peek(out, count, BURST, &first, &count) != FQ_OK) return out;
        if (count == 0) sched_yield(); /* there is no frame */
        for (size_t i = 0; i < count; i++, frame++) {
            fq_tsan_acquire(frames[first + i]);
            for (int k = 0; k < BYTES; k++)
                if (frames[first + i][k] != written(frame)) return out;
            fq_tsan_release(frames[first + i]);
        }
    }
    return NULL;
}

int main(void) {
    struct fq_ring ring = FQ_NONE, out = FQ_NONE;
    pthread_t threads[2];
    void *failed[2];
    if (fq_ring_places(&ring, &out, PLACES) != FQ_OK) return 1;
    if (pthread_create(&threads[0], NULL, fill, &ring) != 0 || pthread_create(&threads[1], NULL, drain, &out) != 0) return 1;
    for (int i = 0; i < 2; i++) pthread_join(threads[i], &failed[i]);
    if (failed[0] || failed[1] || fq_free(&ring.handle) != FQ_OK || fq_free(&out.handle) != FQ_OK) return 1;
    printf("%d frames in %d places, each as it was written\n", FRAMES, PLACES);
    return 0;
}
