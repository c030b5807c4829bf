/* cost PROGRAM PUA TIMES INTERGREENS [count]: what a second costs by a program and by commands that do the same.
 *
 * The pairs:
 * nothing   a program that commands nothing; commands of which there are none
 * order     a program that gives a stage command in each second; the same command
 * stages    a program of fixed times; in each second the stage is wished to which it went in that second
 * wishes    a program that wishes something of each group in each second; the same wishes
 * example   the program PROGRAM; in each second the stage is wished to which it went in that second (which isn't all that a
 *           program does that commands groups)
 * The same vehicles come in all of them, each on its detector, and but for `example` both tell the same. Each pair is told
 * without and with the writing of the log's line. The two take turns, and of each the shortest of many runs counts, which other
 * work on the machine hardly disturbs. With `count` each is run once, for valgrind's callgrind, which counts in `make_one` and is
 * asked behind each run for what it counted. */
#include "junction_log.h"
#include "texts.h"
#include <time.h>
#if __has_include(<valgrind/callgrind.h>)
#include <valgrind/callgrind.h>
#else
#define CALLGRIND_DUMP_STATS_AT(title) (void)(title)
#endif

enum { SECONDS = 1000, RUNS = 100, PAIRS = 5, EXAMPLE = 4 };
static const char *const NAMES[PAIRS] = {"nothing", "order", "stages", "wishes", "example"};

static struct junction_counts counts[SECONDS];
static struct junction_commands commands[SECONDS];
static struct junction_told shown[SECONDS];
static struct junction_names names;
static FILE *sink;

static double now(void) {
    struct timespec t;
    clock_gettime(CLOCK_MONOTONIC, &t);
    return (double)t.tv_sec + 1e-9 * (double)t.tv_nsec;
}

static struct junction *opened(const struct junction_texts *texts) {
    struct junction *junction = NULL;
    struct junction_refusal refusal = {0};
    if (junction_open(&junction, texts, &refusal)) fputs(refusal.note, stderr), exit(1);
    return junction;
}

/* a vehicle on about one of twelve detectors in a second */
static void count_vehicles(void) {
    uint32_t chance = 7;
    for (int s = 0; s < SECONDS; s++)
        for (int d = 0; d < 12; d++) {
            chance = chance * 1664525u + 1013904223u;
            counts[s].fronts[d] = counts[s].rears[d] = (chance >> 28) == 0;
        }
}

/* Puts a command for each group of a PUA file. */
static void put_wishes(FILE *program, const struct junction_text *plan) {
    FILE *lines = fmemopen((void *)plan->bytes, plan->length, "r");
    char line[256], name[64];
    int number, are_groups = 0, place = 0;
    while (fgets(line, sizeof line, lines)) {
        if (line[0] == '$' && line[1] > ' ') are_groups = !strncasecmp(line, "$SIGNAL_GROUPS", 14);
        if (are_groups && line[0] != '$' && sscanf(line, "%63s %d", name, &number) == 2)
            fprintf(program, "Sg_%s(%d);\n", place++ % 2 ? "red" : "green", number);
    }
    fclose(lines);
}

/* Puts for each stage of a PUA file the command of its first interstage, after twenty seconds. */
static void put_stages(FILE *program, const struct junction_text *plan) {
    FILE *lines = fmemopen((void *)plan->bytes, plan->length, "r");
    char line[256];
    unsigned from = 0, to;
    uint64_t done = 0;
    while (fgets(line, sizeof line, lines)) {
        sscanf(line, "From Stage: %u", &from);
        if (sscanf(line, "To Stage: %u", &to) != 1 || from > 63 || done >> from & 1) continue;
        fprintf(program, "IF Stage_duration(%u) >= 20 THEN Interstage(%u, %u) END;\n", from, from, to);
        done |= (uint64_t)1 << from;
    }
    fclose(lines);
}

/* the texts with the program of a pair; those of the example as they are */
static struct junction_texts texts_of(const struct junction_texts *texts, int pair) {
    struct junction_texts made = *texts;
    char *text = NULL;
    if (pair == EXAMPLE) return made;
    FILE *program = open_memstream(&text, &made.program.length);
    fprintf(program, "PROGRAM %s;\nVAP_FREQUENCY 1;\n", NAMES[pair]);
    if (pair == 1) fputs("Interstage(1, 2);\n", program);
    if (pair == 2) put_stages(program, &texts->plan);
    if (pair == 3) put_wishes(program, &texts->plan);
    fputs("PROG_ENDE: .\n", program);
    fclose(program);
    made.program.bytes = text;
    return made;
}

/* what is commanded in each second, by what the program shows */
static void prepare(const struct junction_texts *texts, int pair) {
    struct junction *junction = opened(texts);
    memset(commands, 0, sizeof commands);
    junction_take_names(junction, &names);
    for (int s = 0; s < SECONDS; s++) {
        if (junction_second(junction, &counts[s], &shown[s])) exit(1);
        if (pair == 1) commands[s].from = 1, commands[s].to = 2;
        if (pair == 2 || pair == EXAMPLE) commands[s].stage = shown[s].to;
        for (unsigned g = 0; pair == 3 && g < names.groups; g++) commands[s].groups[g] = g % 2 ? 2 : 1;
    }
    junction_close(junction);
}

/* a second, and its line if that is wanted */
static __attribute__((noinline)) int make_one(struct junction *junction, int s, int way, int line,
                                              struct junction_told *told) {
    int status = way ? (int)junction_given_second(junction, &counts[s], &commands[s], told)
                     : (int)junction_second(junction, &counts[s], told);
    if (line) junction_put_second(sink, junction, &names, &counts[s], told);
    return status;
}

/* the time of a second in a run of a way */
static double run(const struct junction_texts *texts, int pair, int way, int line) {
    struct junction *junction = opened(texts);
    struct junction_told told;
    rewind(sink);
    double begun = now();
    for (int s = 0; s < SECONDS; s++) {
        if (make_one(junction, s, way, line, &told)) exit(1);
        if (pair != EXAMPLE && memcmp(&told, &shown[s], sizeof told)) fprintf(stderr, "another second %d\n", s + 1), exit(1);
    }
    begun = now() - begun;
    junction_close(junction);
    return begun / SECONDS;
}

/* the shortest times of both ways of a pair */
static void compare(const struct junction_texts *texts, int pair, int line) {
    double least[2] = {1, 1};
    for (int i = 0; i < RUNS; i++)
        for (int way = 0; way < 2; way++) {
            double one = run(texts, pair, way, line);
            if (one < least[way]) least[way] = one;
        }
    printf("%-8s%s program %.3f us, commands %.3f us (%.2f)\n", NAMES[pair], line ? " with its line" : "", 1e6 * least[0],
           1e6 * least[1], least[1] / least[0]);
}

/* one run of both ways of a pair, counted */
static void count_pair(const struct junction_texts *texts, int pair, int line) {
    char title[64];
    for (int way = 0; way < 2; way++) {
        run(texts, pair, way, line);
        snprintf(title, sizeof title, "%s %d %d", NAMES[pair], line, way);
        CALLGRIND_DUMP_STATS_AT(title);
    }
}

int main(int count, char **words) {
    if (count != 5 && count != 6) return 2;
    struct junction_texts texts = read_texts(words + 1);
    static char room[1 << 20];
    sink = fmemopen(room, sizeof room, "w");
    count_vehicles();
    for (int pair = 0; pair < PAIRS; pair++) {
        struct junction_texts own = texts_of(&texts, pair);
        prepare(&own, pair);
        for (int line = 0; line < 2; line++) (count == 5 ? compare : count_pair)(&own, pair, line);
        if (pair != EXAMPLE) free((void *)own.program.bytes);
    }
    fclose(sink);
    free_texts(texts);
    return 0;
}
