/* junction_log.h: a second as a line of the log, byte for byte as `junction run` writes it. Plain C over junction.h; not
 * proved. */
#ifndef VANTULIG_JUNCTION_LOG_H
#define VANTULIG_JUNCTION_LOG_H
#include "junction.h"
#include <stdio.h>
#include <stdlib.h>
#include <string.h>

static const char *const junction_rules[9] = {"?",       "Sequence",   "MinGreen",     "Conflict", "Intergreen",
                                              "Running", "WrongStage", "NoInterstage", "MinRed"};
static const char *const junction_faults[6] = {"?", "Budget", "Overflow", "ZeroDivisor", "Index", "Number"};

struct junction_names {
    char name[64][33];
    unsigned groups;
};

static inline void junction_take_names(struct junction *j, struct junction_names *names) {
    memset(names, 0, sizeof *names);
    size_t length;
    while (names->groups < 64 &&
           !junction_group_name(j, names->groups, names->name[names->groups], sizeof names->name[0], &length))
        names->groups++;
}

static inline void junction_put_header(FILE *out, const struct junction_names *names) {
    fputs("VAPLOG 1", out);
    for (unsigned g = 0; g < names->groups; g++) fprintf(out, " %s", names->name[g]);
    fputc('\n', out);
}

static inline void junction_put_second(FILE *out, struct junction *j, const struct junction_names *names,
                                       const struct junction_counts *counts, const struct junction_told *t) {
    fprintf(out, "%u|", (unsigned)t->second);
    if (t->place == 0)
        fputs("-|", out);
    else if (t->place == 1)
        fprintf(out, "S%u|", t->to);
    else
        fprintf(out, "I%u-%u+%u|", t->from, t->to, t->t);
    fwrite(t->aspects, 1, t->groups, out);
    fputc('|', out);
    const char *blank = "";
    for (unsigned d = 0; d < 64; d++)
        if (counts->fronts[d] || counts->rears[d]) {
            fprintf(out, "%s%u:%u:%u", blank, d + 1, (unsigned)counts->fronts[d], (unsigned)counts->rears[d]);
            blank = " ";
        }
    fputs(*blank ? "|" : "-|", out);
    blank = "";
    for (uint32_t i = 0; i < t->stages; i++) {
        struct junction_refused_stage r;
        if (junction_refused_stage(j, i, &r)) abort();
        fprintf(out, "%s%u-%u:%s", blank, r.from, r.to, junction_rules[r.rule]);
        blank = " ";
    }
    for (uint32_t i = 0; i < t->turns; i++) {
        fprintf(out, "%s%s:%s", blank, names->name[t->turn_groups[i]], junction_rules[t->turn_rules[i]]);
        if (t->turn_others[i] != 255) fprintf(out, ":%s", names->name[t->turn_others[i]]);
        blank = " ";
    }
    fputs(*blank ? "|" : "-|", out);
    if (t->fault)
        fprintf(out, "%s@%u\n", junction_faults[t->fault], (unsigned)t->fault_line);
    else
        fputs("-\n", out);
}

/* the counts of a line of a detector file, as `3:1:1 11:1:0`; 0 where it is none */
static inline int junction_read_counts(const char *line, struct junction_counts *counts) {
    memset(counts, 0, sizeof *counts);
    unsigned d, f, r;
    int n;
    while (sscanf(line, " %u:%u:%u%n", &d, &f, &r, &n) == 3) {
        if (d < 1 || d > 64) return 0;
        counts->fronts[d - 1] = f;
        counts->rears[d - 1] = r;
        line += n;
    }
    return line[strspn(line, " \r\n")] == 0;
}
#endif
