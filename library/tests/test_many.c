/* test_many PROGRAM PUA TIMES INTERGREENS LIST [HANDLES]: many controllers, one after the other and at once, and hostile texts.
 *
 * LIST is of cases.py: a line for each junction, with `run` or `exec`, the status of this command of `junction` and the paths of a
 * program or a code, a PUA file, times, intergreens and the note that it writes of them. */
#include "texts.h"

enum { MADE = 10000, AT_ONCE = 100, SECONDS = 200, HELD = 4 };

/* controllers that are opened, used and closed, some of them while others are open */
static void one_after_the_other(const struct junction_texts *texts, long many) {
    static struct junction *held[HELD];
    struct junction_counts counts = {{0}, {0}};
    struct junction_told told;
    for (long i = 0; i < many; i++) {
        struct junction **place = &held[i % HELD];
        junction_close(*place);
        check(!junction_open(place, texts, NULL) && !junction_second(*place, &counts, &told) && told.second == 1,
              "one of many");
    }
    for (int i = 0; i < HELD; i++) junction_close(held[i]);
}

/* a hundred at once, each a second in turn, tell the same */
static void at_once(const struct junction_texts *texts) {
    static struct junction *all[AT_ONCE];
    struct junction_counts counts = {{0}, {0}};
    for (int i = 0; i < AT_ONCE; i++) check(!junction_open(&all[i], texts, NULL), "one of a hundred");
    for (int s = 0; s < SECONDS; s++) {
        struct junction_told first, told;
        counts.fronts[s % 12] = counts.rears[s % 12] = 1;
        for (int i = 0; i < AT_ONCE; i++) {
            check(!junction_second(all[i], &counts, &told) && told.second == (uint32_t)s + 1, "a second of one of a hundred");
            if (i == 0) first = told;
            check(!memcmp(&first, &told, sizeof told), "they tell the same");
        }
        counts.fronts[s % 12] = counts.rears[s % 12] = 0;
    }
    for (int i = 0; i < AT_ONCE; i++) junction_close(all[i]);
}

/* whether a refusal is the parts of this note */
static int is_of_note(const struct junction_refusal *refusal, struct junction_text note) {
    static const char *const files[4] = {"program", "plan", "times", "intergreens"};
    char parts[512], line[16] = "";
    if (refusal->line) snprintf(line, sizeof line, "%u:", (unsigned)refusal->line);
    snprintf(parts, sizeof parts, "junction: %s:%s %s\n", files[refusal->file], line, refusal->reason);
    char zero[512];
    snprintf(zero, sizeof zero, "junction: %s:0: %s\n", files[refusal->file], refusal->reason);
    int same = strlen(refusal->note) == note.length && !memcmp(refusal->note, note.bytes, note.length);
    return same && (!strcmp(parts, refusal->note) || (!refusal->line && !strcmp(zero, refusal->note)));
}

static long hostile(FILE *list, long *refused) {
    char command[8], path[5][1024], *places[5] = {path[0], path[1], path[2], path[3], path[4]};
    unsigned status;
    long tried = 0;
    struct junction_counts counts = {{0}, {0}};
    struct junction_told told;
    while (fscanf(list, "%7s %u %1023s %1023s %1023s %1023s %1023s", command, &status, path[0], path[1], path[2], path[3],
                  path[4]) == 7) {
        struct junction_texts texts = read_texts(places);
        struct junction_text note = read_text(path[4]);
        struct junction_refusal refusal;
        struct junction *junction;
        unsigned got = (*command == 'e' ? junction_open_code : junction_open)(&junction, &texts, &refusal);
        int right = got == status && (status ? !junction && is_of_note(&refusal, note) : junction && !note.length);
        if (!right)
            printf("WRONG: %s: status %u, wanted %u, note %s", path[0], got, status, got ? refusal.note : "\n"), wrong = 1;
        if (!got) check(!junction_second(junction, &counts, &told), "a second of what was opened");
        tried++, *refused += status != 0;
        junction_close(junction);
        free_texts(texts), free((void *)note.bytes);
    }
    return tried;
}

int main(int count, char **words) {
    if (count != 6 && count != 7) return 2;
    long made = count == 7 ? atol(words[6]) : MADE, refused = 0;
    struct junction_texts texts = read_texts(words + 1);
    FILE *list = fopen(words[5], "r");
    if (!list) return perror(words[5]), 3;
    one_after_the_other(&texts, made);
    at_once(&texts);
    long tried = hostile(list, &refused);
    fclose(list);
    free_texts(texts);
    printf("%ld controllers one after the other, %d at once; %ld junctions of hostile texts, %ld of them refused; %s\n", made,
           AT_ONCE, tried, refused, wrong ? "WRONG" : "ok");
    return wrong;
}
