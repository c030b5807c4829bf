/* bench PROGRAM PUA TIMES INTERGREENS [SECONDS]: how many seconds a second from C, by the clock and by what the processor
 * worked; and the bytes of a controller, on an average of a hundred. */
#include "texts.h"
#include <malloc.h>
#include <time.h>

enum { WEEK = 604800, MANY = 100 };

static double now(clockid_t clock) {
    struct timespec t;
    clock_gettime(clock, &t);
    return (double)t.tv_sec + 1e-9 * (double)t.tv_nsec;
}

static size_t taken(void) {
    struct mallinfo2 now = mallinfo2();
    return now.uordblks + now.hblkhd;
}

/* the bytes that a controller takes; one is opened before, since malloc keeps what an opening gave back */
static size_t bytes_of(const struct junction_texts *texts) {
    static struct junction *all[MANY];
    struct junction *first;
    if (junction_open(&first, texts, NULL)) return 0;
    size_t before = taken();
    for (int i = 0; i < MANY; i++)
        if (junction_open(&all[i], texts, NULL)) return 0;
    size_t bytes = (taken() - before) / MANY;
    for (int i = 0; i < MANY; i++) junction_close(all[i]);
    junction_close(first);
    return bytes;
}

int main(int count, char **words) {
    if (count != 5 && count != 6) return 2;
    struct junction_texts texts = read_texts(words + 1);
    struct junction *junction;
    struct junction_refusal refusal = {0};
    enum junction_status status = junction_open(&junction, &texts, &refusal);
    if (status) return fputs(refusal.note, stderr), (int)status;
    size_t bytes = bytes_of(&texts);
    long seconds = count == 6 ? atol(words[5]) : WEEK, green = 0;
    struct junction_counts counts = {{0}, {0}};
    struct junction_told told;
    uint32_t random = 7;
    double clock = now(CLOCK_MONOTONIC), worked = now(CLOCK_PROCESS_CPUTIME_ID);
    for (long s = 0; s < seconds; s++) {
        for (int d = 0; d < 12; d++) {
            random = random * 1664525u + 1013904223u;
            counts.fronts[d] = counts.rears[d] = (random >> 29) == 0;
        }
        if (junction_second(junction, &counts, &told)) return printf("second %ld is not taken\n", s + 1), 1;
        green += told.aspects[0] == 'G';
    }
    clock = now(CLOCK_MONOTONIC) - clock, worked = now(CLOCK_PROCESS_CPUTIME_ID) - worked;
    printf("%.0f seconds a second, %.0f in a second of a processor, %zu bytes a controller (group 1 is green in %ld of %ld)\n",
           (double)seconds / clock, (double)seconds / worked, bytes, green, seconds);
    junction_close(junction);
    free_texts(texts);
    return 0;
}
