/* test_given PROGRAM PUA TIMES INTERGREENS: seconds by commands, many seconds and many junctions at once: what names nothing and
 * wrong calls are answered by their status and change nothing, and the same seconds by one call and by another tell the same. */
#include "texts.h"

enum { SECONDS = 400 };

static struct junction *opened(const struct junction_texts *texts) {
    struct junction *junction = NULL;
    check(junction_open(&junction, texts, NULL) == JUNCTION_DONE, "an opening");
    return junction;
}

/* commands with a number that names nothing, each alone: the status says so, and nothing has changed */
static void name_nothing(struct junction *junction) {
    struct junction_counts counts = {{0}, {0}}, ahead = {{0}, {1}};
    struct junction_mask mask, after;
    struct junction_told told, before;
    check(!junction_mask(junction, &mask), "a mask");
    unsigned char wrong_bytes[][2] = {{0, 1}, {1, 1}, {2, 255}, {(unsigned char)(4 + mask.groups), 1}, {67, 2}, {4, 3}, {4, 255}};
    for (unsigned i = 0; i < sizeof wrong_bytes / sizeof *wrong_bytes; i++) {
        struct junction_commands commands = {0};
        ((unsigned char *)&commands)[wrong_bytes[i][0]] = wrong_bytes[i][1];
        memset(&told, 0x5a, sizeof told), before = told;
        check(junction_given_second(junction, &counts, &commands, &told) == JUNCTION_NO_COMMAND, "a number that names nothing");
        check(junction_given_second(junction, &ahead, &commands, &told) == JUNCTION_NOT_TAKEN, "the counts come first");
        check(!memcmp(&told, &before, sizeof told), "a refused call tells nothing");
        check(!junction_mask(junction, &after) && !memcmp(&mask, &after, sizeof mask), "nothing has changed");
    }
    struct junction_commands reserved = {.reserved = 255};
    check(!junction_given_second(junction, &counts, &reserved, &told) && told.second == 1, "`reserved` isn't looked at");
}

static void wrong_calls(struct junction *junction, char *odd) {
    struct junction_counts counts = {{0}, {0}};
    struct junction_commands commands = {0};
    struct junction_told told;
    struct junction_mask mask;
    struct junction_listed_stage listed;
    struct junction *none = NULL;
    uint32_t status = 77, seconds = 9;
    size_t made = 9, many = 9, length = 9;
    char name[8];
    check(junction_given_second(NULL, &counts, &commands, &told) == JUNCTION_WRONG_CALL, "null for a controller");
    check(junction_given_second(junction, NULL, &commands, &told) == JUNCTION_WRONG_CALL &&
              junction_given_second(junction, &counts, NULL, &told) == JUNCTION_WRONG_CALL &&
              junction_given_second(junction, &counts, &commands, NULL) == JUNCTION_WRONG_CALL,
          "null for a second by commands");
    check(junction_mask(NULL, &mask) == JUNCTION_WRONG_CALL && junction_mask(junction, NULL) == JUNCTION_WRONG_CALL &&
              junction_mask(junction, (struct junction_mask *)(void *)(odd + 1)) == JUNCTION_WRONG_CALL,
          "null and no place for a mask");
    check(junction_run(junction, 1, &counts, NULL, &told, NULL, 0, NULL, NULL) == JUNCTION_WRONG_CALL, "null for how many");
    check(junction_run(NULL, 1, &counts, NULL, &told, NULL, 0, &made, NULL) == JUNCTION_WRONG_CALL && made == 0 &&
              junction_run(junction, 1, NULL, NULL, &told, NULL, 0, &made, NULL) == JUNCTION_WRONG_CALL &&
              junction_run(junction, 1, &counts, NULL, NULL, NULL, 0, &made, NULL) == JUNCTION_WRONG_CALL &&
              junction_run(junction, SIZE_MAX, &counts, NULL, &told, NULL, 0, &made, NULL) == JUNCTION_WRONG_CALL,
          "null, and more seconds than can be");
    check(junction_run(junction, 1, &counts, NULL, &told, &listed, 1, &made, NULL) == JUNCTION_WRONG_CALL &&
              junction_run(junction, 1, &counts, NULL, &told, NULL, 1, &made, NULL) == JUNCTION_WRONG_CALL &&
              junction_run(junction, 1, &counts, NULL, &told, NULL, 0, &made, &many) == JUNCTION_WRONG_CALL &&
              junction_run(junction, 1, &counts, NULL, &told, &listed, SIZE_MAX, &made, &many) == JUNCTION_WRONG_CALL,
          "a list without its number, and without room");
    check(junction_each(1, NULL, &counts, NULL, &told, NULL, &status) == JUNCTION_WRONG_CALL &&
              junction_each(1, &junction, NULL, NULL, &told, NULL, &status) == JUNCTION_WRONG_CALL &&
              junction_each(1, &junction, &counts, NULL, NULL, NULL, &status) == JUNCTION_WRONG_CALL &&
              junction_each(1, &junction, &counts, NULL, &told, NULL, NULL) == JUNCTION_WRONG_CALL &&
              junction_each(SIZE_MAX, &junction, &counts, NULL, &told, NULL, &status) == JUNCTION_WRONG_CALL && status == 77,
          "null for a second of each");
    check(junction_each(1, &none, &counts, NULL, &told, NULL, &status) == JUNCTION_WRONG_CALL && status == JUNCTION_WRONG_CALL,
          "a null junction among them");
    check(junction_each(0, NULL, NULL, NULL, NULL, NULL, NULL) == JUNCTION_DONE, "none of them");
    check(junction_timer(NULL, "x", &seconds) == JUNCTION_WRONG_CALL &&
              junction_timer(junction, NULL, &seconds) == JUNCTION_WRONG_CALL &&
              junction_timer(junction, "x", NULL) == JUNCTION_WRONG_CALL && seconds == 9,
          "null for a timer");
    check(junction_variable_name(NULL, 0, name, 8, &length) == JUNCTION_WRONG_CALL &&
              junction_timer_name(junction, 0, NULL, 8, &length) == JUNCTION_WRONG_CALL &&
              junction_timer_name(junction, 0, name, 8, NULL) == JUNCTION_WRONG_CALL && length == 9,
          "null for a name");
    check(!junction_second(junction, &counts, &told) && told.second == 2, "nothing has changed");
}

/* names and seconds of timers */
static void timers(const struct junction_texts *given) {
    static const char program[] = "PROGRAM v;\nseen := Seen + 1;\nIF seen = 2 THEN Start(Since); Start(more) END;\nPROG_ENDE: .\n";
    static const char code[] = "VAPCODE 1\nVARS 0\nTIMERS 1\nARRAYS 0\nROUTINES 1\n0\nCODE 1\nret\nEND\n";
    struct junction_texts texts = *given;
    struct junction_counts counts = {{0}, {0}};
    struct junction_told told;
    uint32_t seconds = 9;
    char name[5];
    size_t length;
    texts.program = (struct junction_text){program, sizeof program - 1};
    struct junction *junction = opened(&texts);
    for (int s = 1; s <= 5; s++) check(!junction_second(junction, &counts, &told), "a second");
    check(!junction_timer(junction, "SINCE", &seconds) && seconds == 3, "a timer after three seconds");
    check(junction_timer(junction, "seen", &seconds) == JUNCTION_NOTHING && seconds == 3, "a name that is no timer's");
    memset(name, '.', sizeof name);
    check(!junction_timer_name(junction, 0, name, 4, &length) && length == 5 && !memcmp(name, "sinc.", 5), "what fits of a name");
    check(!junction_timer_name(junction, 1, name, 5, &length) && !strcmp(name, "more"), "the second name");
    check(junction_timer_name(junction, 2, name, 5, &length) == JUNCTION_NOTHING && length == 0, "no third one");
    check(!junction_variable_name(junction, 0, name, 5, &length) && !strcmp(name, "seen"), "the name of a variable");
    check(junction_variable_name(junction, SIZE_MAX, name, 5, &length) == JUNCTION_NOTHING, "no variable of that number");
    junction_close(junction);
    texts.program = (struct junction_text){code, sizeof code - 1};
    check(!junction_open_code(&junction, &texts, NULL) && junction_timer(junction, "since", &seconds) == JUNCTION_NO_NAMES &&
              junction_timer_name(junction, 0, name, 5, &length) == JUNCTION_NO_NAMES &&
              junction_variable_name(junction, 0, name, 5, &length) == JUNCTION_NO_NAMES,
          "a code file has no names");
    junction_close(junction);
}

/* many seconds at once, and many junctions, against single seconds */
static void at_once(const struct junction_texts *texts, size_t room) {
    static struct junction_counts counts[SECONDS];
    static struct junction_commands commands[SECONDS];
    static struct junction_told one[SECONDS], run[SECONDS], each[2];
    struct junction_listed_stage *listed = malloc(room * sizeof *listed);
    struct junction_mask mask, masks[2];
    uint32_t statuses[2], stages = 0, told_of = 0;
    struct junction *alone = opened(texts), *ran = opened(texts), *both[2] = {opened(texts), opened(texts)};
    for (int s = 0; s < SECONDS; s++) {
        counts[s].fronts[s % 12] = counts[s].rears[s % 12] = 1;
        commands[s] = (struct junction_commands){.from = s % 3 ? 0 : 3, .to = s % 3 ? 0 : 1, .stage = (uint8_t)(s / 40 % 3)};
        commands[s].groups[s % 4] = (uint8_t)(s % 3);
        check(!junction_given_second(alone, &counts[s], &commands[s], &one[s]), "a second");
        stages += one[s].stages;
        struct junction_counts two[2] = {counts[s], counts[s]};
        struct junction_commands given[2] = {commands[s], commands[s]};
        check(!junction_each(2, both, two, given, each, masks, statuses) && !statuses[0] && !statuses[1], "a second of each");
        check(!junction_mask(alone, &mask) && !memcmp(&mask, &masks[0], sizeof mask) && !memcmp(&mask, &masks[1], sizeof mask),
              "masks");
        check(!memcmp(&each[0], &one[s], sizeof *each) && !memcmp(&each[1], &one[s], sizeof *each), "they tell the same");
    }
    for (size_t made = 0, many, total = 0; total < SECONDS; total += made) {
        enum junction_status status =
            junction_run(ran, SECONDS - total, &counts[total], &commands[total], &run[total], listed, room, &made, &many);
        check(status == JUNCTION_DONE || status == JUNCTION_NO_ROOM, "many seconds");
        for (size_t i = 0; i < many; i++)
            check(listed[i].second > total && listed[i].second <= total + made && listed[i].rule, "a listed stage command");
        told_of += (uint32_t)many + (status == JUNCTION_NO_ROOM ? run[total + made - 1].stages : 0);
        if (!made) break;
    }
    check(!memcmp(run, one, sizeof run) && told_of == stages && stages > 0, "they tell the same, and each refused stage command");
    junction_close(alone), junction_close(ran), junction_close(both[0]), junction_close(both[1]);
    free(listed);
}

int main(int count, char **words) {
    if (count != 5) return 2;
    struct junction_texts texts = read_texts(words + 1);
    struct junction *junction = opened(&texts);
    char *odd = malloc(1024);
    name_nothing(junction);
    wrong_calls(junction, odd);
    junction_close(junction);
    free(odd);
    timers(&texts);
    at_once(&texts, 1000);
    at_once(&texts, 3);
    free_texts(texts);
    printf("seconds by commands: %s\n", wrong ? "WRONG" : "ok");
    return wrong;
}
