/* A trace is replayed with a budget of one packet: first with its own two runs, between which the ring overflows, then with the runs
 * that the kernel would make after them, because they leave packets. */
#include <fintaqush.h>
#include <stdio.h>
#include <string.h>

static const char trace[] = "moment,device,event,value\n0,1,open,4\n"
                            "1,1,rx,60\n1,1,rx,60\n1,1,rx,60\n1,1,rx,60\n2,0,softirq,0\n"
                            "3,1,rx,60\n3,1,rx,60\n3,1,rx,60\n3,1,rx,60\n4,0,softirq,0\n";
static const struct fq_settings settings = {.size = sizeof settings, .budget = 1, .weight = 1, .window = 1024};

/* Prints the device's line of the report of a trace. */
static bool replay(const char *runs, const uint8_t *bytes, size_t len) {
    char report[4096];
    struct fq_replayed replayed;
    if (fq_replay(&settings, bytes, len, (uint8_t *)report, sizeof report - 1, &replayed) != FQ_OK) return false;
    report[replayed.length] = '\0';
    const char *line = strstr(report, "device ");
    printf("%s: %.*s\n", runs, (int)strcspn(line, "\n"), line);
    return true;
}

int main(void) {
    uint8_t whole[1024];
    struct fq_replayed raised;
    if (!replay("recorded", (const uint8_t *)trace, sizeof trace - 1)) return 1;
    if (fq_raise(&settings, FQ_UNTIL_EMPTY, (const uint8_t *)trace, sizeof trace - 1, whole, sizeof whole, &raised) != FQ_OK) return 1;
    return replay("raised", whole, raised.length) ? 0 : 1;
}
