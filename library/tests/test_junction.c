/* test_junction PROGRAM PUA TIMES INTERGREENS DETECTORS LOG CODE: steps a controller over a detector file, compares with the log of
 * `junction run` byte for byte, lets each call of malloc, calloc and realloc fail in turn, and tries the edges of what counts
 * are taken. Linked with -Wl,--wrap=malloc,--wrap=calloc,--wrap=realloc. */
#include "junction_log.h"
#include "texts.h"

static long calls, failing; /* calls for memory so far; which one fails (0: none) */
void *__real_malloc(size_t n);
void *__real_calloc(size_t n, size_t size);
void *__real_realloc(void *p, size_t n);
void *__wrap_malloc(size_t n) { return ++calls == failing ? NULL : __real_malloc(n); }
void *__wrap_calloc(size_t n, size_t size) { return ++calls == failing ? NULL : __real_calloc(n, size); }
void *__wrap_realloc(void *p, size_t n) { return ++calls == failing ? NULL : __real_realloc(p, n); }

/* what a controller tells in its first seconds */
enum { FIRST = 40 };
static void first_seconds(struct junction *junction, struct junction_told *told) {
    struct junction_counts counts = {{1}, {1}};
    for (int s = 0; s < FIRST; s++) check(!junction_second(junction, &counts, &told[s]), "a second");
}

typedef enum junction_status opening(struct junction **, const struct junction_texts *, struct junction_refusal *);

/* Each call for memory of an opening fails in turn. Then it answers JUNCTION_NO_MEMORY and tells no refusal; or, where the
 * library went on by itself with less room, it answers as with ample memory. Nothing is lost: the sanitizer would tell. */
static long fail_in_turn(opening *open, const struct junction_texts *texts, enum junction_status wanted, long *survived) {
    static struct junction_told right[FIRST], told[FIRST];
    struct junction_refusal right_refusal, refusal, untouched;
    struct junction *junction;
    memset(&untouched, '.', sizeof untouched);
    right_refusal = untouched;
    check(open(&junction, texts, &right_refusal) == wanted, "the status with ample memory");
    if (!wanted) first_seconds(junction, right);
    junction_close(junction);
    *survived = 0;
    for (long n = 1;; n++) {
        refusal = untouched;
        calls = 0, failing = n;
        enum junction_status status = open(&junction, texts, &refusal);
        failing = 0;
        if (status == JUNCTION_NO_MEMORY) {
            check(calls >= n && !junction && !memcmp(&refusal, &untouched, sizeof refusal),
                  "an opening for which memory is wanted");
            continue;
        }
        check(status == wanted && !memcmp(&refusal, &right_refusal, sizeof refusal), "an opening that went on");
        if (!status) first_seconds(junction, told), check(!memcmp(told, right, sizeof told), "it is the same controller");
        junction_close(junction);
        if (calls < n) return calls;
        ++*survived;
    }
}

/* the seconds of a detector file, as a log; counts the fronts and rears of detector 64 */
static long play(struct junction *junction, struct junction_text detectors, FILE *out, uint32_t *fronts, uint32_t *rears) {
    struct junction_names names;
    struct junction_counts counts;
    struct junction_told told;
    struct junction_refused_stage stage;
    char line[4096];
    long seconds = 0, wanted = 0;
    FILE *lines = detectors.length ? fmemopen((void *)detectors.bytes, detectors.length, "r") : NULL;
    junction_take_names(junction, &names);
    junction_put_header(out, &names);
    while (lines && fgets(line, sizeof line, lines)) {
        check(junction_read_counts(line, &counts), "a detector line");
        memset(&told, 0x55, sizeof told);
        calls = 0;
        check(!junction_second(junction, &counts, &told), "a second");
        wanted += calls;
        *fronts += counts.fronts[63], *rears += counts.rears[63];
        for (int g = told.groups; g < 64; g++) check(!told.aspects[g], "0 behind the aspects");
        for (unsigned i = told.turns; i < 64; i++)
            check(!told.turn_groups[i] && !told.turn_rules[i] && !told.turn_others[i], "0 behind the changes");
        check(!told.reserved[0] && !told.reserved[1], "0 in the last bytes");
        check(junction_refused_stage(junction, told.stages, &stage) == JUNCTION_NOTHING, "no further stage");
        junction_put_second(out, junction, &names, &counts, &told);
        seconds++;
    }
    if (lines) fclose(lines);
    check(wanted == 0, "seconds take no memory");
    return seconds;
}

static int is_log(FILE *out, struct junction_text wanted) {
    size_t length = (size_t)ftell(out);
    uint8_t *log = malloc(length + 1);
    rewind(out);
    int same = log && fread(log, 1, length, out) == length && length == wanted.length && !memcmp(log, wanted.bytes, length);
    free(log);
    return same;
}

/* counts that are not taken change nothing */
static void edges(struct junction *junction, long seconds, uint32_t fronts, uint32_t rears) {
    struct junction_counts counts = {{0}, {0}};
    struct junction_told told, before;
    memset(&told, 0x55, sizeof told);
    before = told;
    counts.rears[63] = fronts - rears + 1;
    check(junction_second(junction, &counts, &told) == JUNCTION_NOT_TAKEN && !memcmp(&before, &told, sizeof told),
          "a rear before its front");
    counts.rears[63] = 0, counts.fronts[63] = 2147483648u - fronts;
    check(junction_second(junction, &counts, &told) == JUNCTION_NOT_TAKEN && !memcmp(&before, &told, sizeof told),
          "too many fronts");
    counts.fronts[63] = 2147483647u - fronts, counts.rears[63] = 2147483647u - rears;
    check(!junction_second(junction, &counts, &told) && told.second == seconds + 1, "as many fronts and rears as may be");
    counts.rears[63] = 0, counts.fronts[63] = 1;
    check(junction_second(junction, &counts, &told) == JUNCTION_NOT_TAKEN, "one front more than may be");
}

/* names, cut and whole */
static void names(struct junction *junction) {
    char whole[33], cut[3] = "...";
    size_t length, again;
    check(!junction_group_name(junction, 0, whole, sizeof whole, &length) && strlen(whole) == length, "a name");
    check(!junction_group_name(junction, 0, cut, 1, &again) && again == length && cut[0] == whole[0] && cut[1] == '.',
          "a name that is cut");
}

int main(int count, char **words) {
    if (count != 8) return 2;
    struct junction_texts texts = read_texts(words + 1), refused = texts, coded = texts;
    coded.program = read_text(words[7]);
    struct junction_text detectors = read_text(words[5]), log = read_text(words[6]);
    struct junction *junction;
    check(!junction_open(&junction, &texts, NULL), "the opening");
    FILE *out = tmpfile();
    uint32_t fronts = 0, rears = 0;
    long seconds = play(junction, detectors, out, &fronts, &rears);
    check(is_log(out, log), "the log of the run, byte for byte");
    fclose(out);
    edges(junction, seconds, fronts, rears);
    names(junction);
    junction_close(junction);
    check(!junction_open_code(&junction, &coded, NULL), "the opening of a code");
    out = tmpfile();
    play(junction, detectors, out, &fronts, &rears);
    check(is_log(out, log), "the log of the code, byte for byte");
    fclose(out);
    junction_close(junction);
    long survived, other_survived, code_survived, some = fail_in_turn(junction_open, &texts, JUNCTION_DONE, &survived);
    long codes = fail_in_turn(junction_open_code, &coded, JUNCTION_DONE, &code_survived);
    refused.program = (struct junction_text){"PROGRAM nothing;", 16};
    long other = fail_in_turn(junction_open, &refused, JUNCTION_REFUSED, &other_survived);
    free_texts(texts), free((void *)coded.program.bytes), free((void *)detectors.bytes), free((void *)log.bytes);
    printf("%ld seconds; %ld, %ld and %ld calls for memory failed in turn, with %ld, %ld and %ld of which it went on; %s\n",
           seconds, some, codes, other, survived, code_survived, other_survived, wrong ? "WRONG" : "ok");
    return wrong;
}
