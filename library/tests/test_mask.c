/* test_mask PROGRAM PUA TIMES INTERGREENS SECONDS SEED [LOG]: a policy by chance drives a site, and each second is compared with
 * the mask before it: a turn that is wished alone comes where the mask says so, and is refused by its rule else; where all goes on
 * by nature each wait is one less; a stage that is wished is refused by the rule that is told of it. Its log goes to LOG. */
#include "junction_log.h"
#include "texts.h"

static uint64_t state;

static unsigned chance(unsigned below) {
    state = state * 6364136223846793005u + 1442695040888963407u;
    return (unsigned)((state >> 33) % below);
}

/* the letter after a wished change, and before it */
static int is_on(uint8_t aspect) { return aspect == 'U' || aspect == 'G'; }

/* what comes by nature, with each group wished as the mask tells it */
static void wish_by_nature(const struct junction_mask *mask, struct junction_commands *commands) {
    for (int g = 0; g < mask->groups; g++) commands->groups[g] = mask->turns[g] == 2 ? 1 : 2;
}

/* one group turns and no other one */
static void check_alone(const struct junction_mask *mask, const struct junction_told *told, int g) {
    int turned = is_on(told->aspects[g]) != (mask->turns[g] == 2);
    if (!mask->rules[g]) {
        check(told->turns == 0 && turned && mask->waits[g] == 0, "a turn that the mask allows comes");
        return;
    }
    check(told->turns == 1 && !turned && mask->waits[g] > 0, "a turn that the mask refuses doesn't come");
    check(told->turn_groups[0] == g && told->turn_rules[0] == mask->rules[g] && told->turn_others[0] == mask->others[g],
          "it is refused by the rule and for the group that the mask tells");
}

/* all go on by nature: nothing is refused, and each wait of a turn of the same kind is one less, or never */
static void check_nature(const struct junction_mask *mask, const struct junction_told *told, const struct junction_mask *after) {
    check(told->turns == 0, "what comes by nature is not refused");
    for (int g = 0; g < mask->groups; g++) {
        if (mask->turns[g] != after->turns[g]) continue;
        unsigned before = mask->waits[g], now = after->waits[g];
        check(before == 65535 ? now == 65535 : now == (before ? before - 1 : 0), "a wait runs down by nature");
    }
}

static void check_stage(const struct junction_mask *mask, const struct junction_told *told, unsigned stage, struct junction *j) {
    int is_order = mask->place == 1 && mask->to != stage;
    int is_refused = is_order && mask->stage_rules[stage - 1] != 0;
    struct junction_refused_stage refused;
    check(told->stages == (uint32_t)is_refused, "a wished stage is refused where the mask says so");
    if (is_refused && told->stages)
        check(!junction_refused_stage(j, 0, &refused) && refused.rule == mask->stage_rules[stage - 1], "by this rule");
}

static void drive(struct junction *j, const struct junction_names *names, long seconds, FILE *log) {
    struct junction_counts counts = {{0}, {0}};
    struct junction_told told;
    struct junction_mask mask, after;
    if (junction_mask(j, &mask)) abort();
    if (log) junction_put_header(log, names);
    for (long second = 1; second <= seconds; second++) {
        struct junction_commands commands = {0};
        unsigned kind = chance(8), g = chance(mask.groups), stage = 1 + chance(mask.stages);
        if (kind < 5) wish_by_nature(&mask, &commands);
        if (kind < 3) commands.groups[g] = 3 - commands.groups[g];
        if (kind == 5 || kind == 6) commands.stage = (uint8_t)stage;
        if (kind == 7)
            for (int k = 0; k < mask.groups; k++) commands.groups[k] = (uint8_t)chance(3);
        check(!junction_given_second(j, &counts, &commands, &told) && told.second == second, "a second");
        int has_next = junction_mask(j, &after) == JUNCTION_DONE;
        check(has_next || second > 604800, "a mask");
        if (kind < 3) check_alone(&mask, &told, (int)g);
        if ((kind == 3 || kind == 4) && has_next) check_nature(&mask, &told, &after);
        if (kind == 5 || kind == 6) check_stage(&mask, &told, stage, j);
        if (log) junction_put_second(log, j, names, &counts, &told);
        if (wrong) {
            printf("in second %ld\n", second);
            return;
        }
        mask = after;
    }
}

int main(int count, char **words) {
    if (count < 7) return 2;
    struct junction_texts texts = read_texts(words + 1);
    struct junction_names names;
    struct junction *j;
    struct junction_refusal refusal;
    FILE *log = count > 7 ? fopen(words[7], "w") : NULL;
    state = strtoull(words[6], NULL, 10);
    if (junction_open(&j, &texts, &refusal)) return printf("WRONG: %s", refusal.note), 1;
    junction_take_names(j, &names);
    drive(j, &names, atol(words[5]), log);
    if (log && fclose(log)) perror(words[7]), wrong = 1;
    junction_close(j);
    free_texts(texts);
    printf("%s seconds: %s\n", words[5], wrong ? "WRONG" : "the mask was right in each");
    return wrong;
}
