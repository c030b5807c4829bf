/* test_calls PROGRAM PUA TIMES INTERGREENS: calls that are wrong are answered by their status, and change nothing. */
#include "texts.h"

/* opens with one text in another's place */
static enum junction_status open_with(struct junction_texts texts, int which, struct junction_text text,
                                      struct junction_refusal *refusal) {
    struct junction *opened = (struct junction *)&opened;
    (which == 0 ? &texts.program : which == 1 ? &texts.plan : which == 2 ? &texts.times : &texts.intergreens)[0] = text;
    enum junction_status status = junction_open(&opened, &texts, refusal);
    check(!opened == (status != JUNCTION_DONE), "a controller is there exactly where the status says so");
    junction_close(opened);
    return status;
}

static void wrong_openings(const struct junction_texts *texts) {
    struct junction *opened;
    struct junction_refusal refusal;
    for (int i = 0; i < 4; i++) {
        check(open_with(*texts, i, (struct junction_text){NULL, 1}, &refusal) == JUNCTION_WRONG_CALL, "null for bytes");
        check(open_with(*texts, i, (struct junction_text){"", (size_t)PTRDIFF_MAX + 1}, &refusal) == JUNCTION_WRONG_CALL,
              "a length that can't be");
        memset(&refusal, 'x', sizeof refusal);
        check(open_with(*texts, i, (struct junction_text){NULL, 0}, &refusal) == JUNCTION_REFUSED,
              "null without bytes is an empty text");
        check((int)refusal.file == i && refusal.reason[0] && refusal.reason[0] != ' ' &&
                  strlen(refusal.note) > strlen(refusal.reason),
              "its refusal");
        check(open_with(*texts, i, (struct junction_text){NULL, 0}, NULL) == JUNCTION_REFUSED,
              "a refusal that nobody asks for");
    }
    check(junction_open(NULL, texts, &refusal) == JUNCTION_WRONG_CALL, "null for the place of a controller");
    check(junction_open(&opened, NULL, &refusal) == JUNCTION_WRONG_CALL && !opened, "null for the texts");
    junction_close(NULL);
}

static void refusals(const struct junction_texts *texts) {
    struct junction_refusal refusal;
    check(open_with(*texts, 0, (struct junction_text){"PROGRAM nothing;", 16}, &refusal) == JUNCTION_REFUSED,
          "a refused program");
    check(refusal.file == JUNCTION_PROGRAM && refusal.line == 1 && !strcmp(refusal.reason, "Unexpected"),
          "file, line and reason");
    check(!strcmp(refusal.note, "junction: program:1: Unexpected\n"), "its note");
    char *blanks = calloc(1, 1048577);
    check(open_with(*texts, 3, (struct junction_text){blanks, 1048577}, &refusal) == JUNCTION_TOO_LONG,
          "a text that is too long");
    check(refusal.file == JUNCTION_INTERGREENS && refusal.line == 0 && !strcmp(refusal.reason, "TooLong"), "it has no line");
    free(blanks);
}

/* a variable's value by its name */
static void values(const struct junction_texts *given) {
    static const char program[] = "PROGRAM v;\nSeen := Seen + 2;\nother := 7 - Seen;\nPROG_ENDE: .\n";
    static const char code[] = "VAPCODE 1\nVARS 1\nTIMERS 0\nARRAYS 0\nROUTINES 1\n0\nCODE 1\nret\nEND\n";
    static const char none[] = "PROGRAM v;\nPROG_ENDE: .\n";
    struct junction_texts texts = *given;
    struct junction *junction;
    struct junction_counts counts = {{2}, {1}}, rears = {{0}, {9}};
    struct junction_told told;
    int32_t value = 9;
    texts.program = (struct junction_text){program, sizeof program - 1};
    check(!junction_open(&junction, &texts, NULL), "a program with variables");
    check(!junction_value(junction, "Seen", &value) && value == 0, "a variable before the first second");
    for (int s = 1; s <= 3; s++) {
        check(!junction_second(junction, &counts, &told) && !junction_value(junction, "seen", &value) && value == 2 * s &&
                  !junction_value(junction, "OTHER", &value) && value == 7 - 2 * s,
              "variables after a second");
    }
    check(junction_second(junction, &rears, &told) == JUNCTION_NOT_TAKEN && !junction_value(junction, "seen", &value) && value == 6,
          "a variable after counts that are not taken");
    value = 9;
    static const char *const others[] = {"", "see", "seens", "seen\n", "seen\nother", "front_ends"};
    for (unsigned i = 0; i < sizeof others / sizeof *others; i++)
        check(junction_value(junction, others[i], &value) == JUNCTION_NOTHING && value == 9, "a name that isn't there");
    check(junction_value(NULL, "seen", &value) == JUNCTION_WRONG_CALL && junction_value(junction, NULL, &value) == JUNCTION_WRONG_CALL &&
              junction_value(junction, "seen", NULL) == JUNCTION_WRONG_CALL,
          "null for a value");
    junction_close(junction);
    texts.program = (struct junction_text){none, sizeof none - 1};
    check(!junction_open(&junction, &texts, NULL) && junction_value(junction, "seen", &value) == JUNCTION_NOTHING, "no variables");
    junction_close(junction);
    texts.program = (struct junction_text){code, sizeof code - 1};
    check(!junction_open_code(&junction, &texts, NULL) && junction_value(junction, "seen", &value) == JUNCTION_NO_NAMES && value == 9,
          "a code file has no names");
    junction_close(junction);
}

static void wrong_calls(struct junction *junction, char *odd) {
    struct junction_counts counts = {{0}, {0}}, two[2] = {{{0}, {0}}, {{0}, {1}}};
    struct junction_told told, many[2];
    struct junction_refused_stage stage;
    char name[33];
    size_t length, made;
    check(junction_second(NULL, &counts, &told) == JUNCTION_WRONG_CALL, "null for a controller");
    check(junction_second(junction, NULL, &told) == JUNCTION_WRONG_CALL &&
              junction_second(junction, &counts, NULL) == JUNCTION_WRONG_CALL,
          "null for a second");
    check(junction_second(junction, (struct junction_counts *)(void *)(odd + 1), &told) == JUNCTION_WRONG_CALL,
          "counts that aren't aligned");
    check(junction_seconds(junction, 2, two, many, NULL) == JUNCTION_WRONG_CALL, "null for how many were made");
    check(junction_seconds(junction, 2, NULL, many, &made) == JUNCTION_WRONG_CALL && made == 0, "null for many counts");
    check(junction_seconds(junction, SIZE_MAX, two, many, &made) == JUNCTION_WRONG_CALL && made == 0,
          "more seconds than can be");
    check(junction_refused_stage(NULL, 0, &stage) == JUNCTION_WRONG_CALL &&
              junction_refused_stage(junction, 0, NULL) == JUNCTION_WRONG_CALL,
          "null for a stage");
    check(junction_refused_stage(junction, 99, &stage) == JUNCTION_NOTHING, "a stage that isn't there");
    check(junction_group_name(NULL, 0, name, 33, &length) == JUNCTION_WRONG_CALL &&
              junction_group_name(junction, 0, name, 33, NULL) == JUNCTION_WRONG_CALL,
          "null for a name");
    check(junction_group_name(junction, 0, NULL, 1, &length) == JUNCTION_WRONG_CALL, "null with room");
    check(junction_group_name(junction, 0, NULL, 0, &length) == JUNCTION_DONE && length > 0, "the length of a name");
    check(junction_group_name(junction, 255, name, 33, &length) == JUNCTION_NOTHING &&
              junction_group_name(junction, 256, name, 33, &length) == JUNCTION_NOTHING,
          "groups that aren't there");
    check(junction_second(junction, &counts, &told) == JUNCTION_DONE && told.second == 1, "nothing has changed");
    check(junction_seconds(junction, 2, two, many, &made) == JUNCTION_NOT_TAKEN && made == 1 && many[0].second == 2,
          "seconds up to counts that aren't taken");
    check(junction_seconds(junction, 0, NULL, NULL, &made) == JUNCTION_DONE && made == 0, "no seconds");
}

int main(int count, char **words) {
    if (count != 5) return 2;
    check(!strcmp(junction_version(), JUNCTION_VERSION), "the version");
    struct junction_texts texts = read_texts(words + 1);
    wrong_openings(&texts);
    refusals(&texts);
    values(&texts);
    struct junction *junction;
    char *odd = malloc(1024);
    check(junction_open(&junction, &texts, NULL) == JUNCTION_DONE, "an opening");
    wrong_calls(junction, odd);
    junction_close(junction);
    free(odd);
    free_texts(texts);
    printf("wrong calls: %s\n", wrong ? "WRONG" : "ok");
    return wrong;
}
