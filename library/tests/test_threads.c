/* test_threads PROGRAM PUA TIMES INTERGREENS: eight threads with a controller each make the same seconds and are told the same;
 * and a controller moves from thread to thread across joins. For -fsanitize=thread. */
#include "texts.h"
#include <pthread.h>

enum { THREADS = 8, SECONDS = 24000 }; /* a quarter has whole rounds of the 12 detectors */
static struct junction_texts texts;

struct work {
    struct junction *junction;
    uint64_t sum;
    int wrong;
};

static void seconds(struct work *work, int many) {
    struct junction_counts counts = {{0}, {0}};
    struct junction_told told;
    for (int s = 0; s < many; s++) {
        counts.fronts[s % 12] = counts.rears[s % 12] = 1;
        if (junction_second(work->junction, &counts, &told)) work->wrong = 1;
        counts.fronts[s % 12] = counts.rears[s % 12] = 0;
        for (unsigned g = 0; g < told.groups; g++) work->sum = work->sum * 31 + told.aspects[g];
    }
}

static void *whole(void *at) {
    struct work *work = at;
    if (junction_open(&work->junction, &texts, NULL)) {
        work->wrong = 1;
        return NULL;
    }
    seconds(work, SECONDS);
    junction_close(work->junction);
    return NULL;
}

static void *part(void *at) {
    seconds(at, SECONDS / 4);
    return NULL;
}

int main(int count, char **words) {
    if (count != 5) return 2;
    texts = read_texts(words + 1);
    static struct work work[THREADS], moved;
    pthread_t threads[THREADS], alone;
    for (int i = 0; i < THREADS; i++)
        if (pthread_create(&threads[i], NULL, whole, &work[i])) return 3;
    for (int i = 0; i < THREADS; i++) {
        pthread_join(threads[i], NULL);
        check(!work[i].wrong && work[i].sum == work[0].sum, "a thread");
    }
    check(!junction_open(&moved.junction, &texts, NULL), "the one that moves");
    for (int i = 0; i < 4; i++) {
        if (pthread_create(&alone, NULL, part, &moved)) return 3;
        pthread_join(alone, NULL);
    }
    check(!moved.wrong && moved.sum == work[0].sum, "it tells the same");
    junction_close(moved.junction);
    free_texts(texts);
    printf("%d threads of %d seconds: %s\n", THREADS, SECONDS, wrong ? "WRONG" : "ok");
    return wrong;
}
