/* Step 1 of docs/GUIDE.md: a driver's loop, for one card. */
#include <fintaqush.h>
#include <stdio.h>

static unsigned waiting; /* the packets that the card has */
static bool masked = true;
static uint64_t interrupts; /* bit 0 is set if the card, which is device 0, has interrupted */

/* Packets arrive. The card interrupts unless it is masked. */
static void arrive(unsigned packets) {
    printf("%u packets arrive\n", packets);
    waiting += packets;
    if (!masked) interrupts |= 1;
}

/* Returns the interrupts that came since it was called last, and forgets them. */
static uint64_t take_interrupts(void) {
    const uint64_t taken = interrupts;
    interrupts = 0;
    return taken;
}

/* Takes packets. If the card has no more, unmasks it and then looks at it, which saves two turns. */
static void fetch(struct fq_todo *todo) {
    todo->packets = waiting < todo->most ? waiting : todo->most;
    waiting -= todo->packets; /* here they would be passed to the network stack */
    printf("  fetch: %u packets\n", todo->packets);
    if (waiting > 0) return;
    masked = false;
    todo->rearm = waiting > 0 ? FQ_REARM_MORE : FQ_REARM_EMPTY; /* some may have come before the unmask */
    puts("  unmask and look");
}

static void work(struct fq_driver *driver) {
    struct fq_todo todo = FQ_TODO_INIT;
    while (!fq_is_error(fq_driver_turn(driver, take_interrupts(), &todo)) && todo.what != FQ_TODO_SLEEP) {
        if (todo.mask || todo.what == FQ_TODO_MASK) masked = true, puts("  mask");
        switch (todo.what) {
        case FQ_TODO_UNMASK: masked = false; puts("  unmask"); break;
        case FQ_TODO_LOOK: todo.packets = waiting; printf("  look: %u packets\n", waiting); break;
        case FQ_TODO_FETCH: fetch(&todo); break;
        case FQ_TODO_ENDED: printf("  a run ended, and was squeezed: %s\n", todo.squeezed ? "yes" : "no"); break;
        case FQ_TODO_MASK: case FQ_TODO_TIMER: case FQ_TODO_SLEEP: case FQ_TODO_FAILED: break;
        }
    }
    const struct fq_run_report run = fq_todo_run(&todo);
    if (run.polls > 0) printf("  the last run: %u polls, %u packets\n", run.polls, run.work);
    puts(todo.what == FQ_TODO_SLEEP ? "  sleep" : fq_status_name(todo.status));
}

int main(void) {
    struct fq_driver driver = FQ_NONE;
    if (fq_driver_new(&driver, 1, 300, 64, 1024) != FQ_OK || fq_driver_open(&driver, 0) != FQ_OK) return 1;
    arrive(3); /* before the card is unmasked, so without an interrupt */
    work(&driver);
    arrive(150);
    work(&driver);
    if (fq_driver_stop(&driver, 0) != FQ_OK) return 1;
    work(&driver);
    return fq_free(&driver.handle);
}
