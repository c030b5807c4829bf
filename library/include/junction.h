/* junction.h: a proved traffic signal controller in your process.
 *
 * What is proved of the calls stands in crates/junction_c, clause by clause. Before the proved calls stands a file of plain C,
 * library/src/junction.c, which is not proved: it looks at your pointers and lengths, keeps the handle and the names of the
 * variables, and cuts the reason out of a note.
 *
 * What a caller owes, since no test in C can find it:
 *   1. A pointer that isn't null is good for what it points to, and no two arguments of a call overlap.
 *   2. A `struct junction` comes from junction_open, and is used no more after junction_close.
 *   3. One call at a time for each `struct junction`. Different ones may be used by different threads at once; one moves to
 *      another thread across a lock, a thread's start or its join.
 *   4. malloc, realloc and free come from one allocator, whose blocks are aligned to 16. No call from a signal handler, nor in
 *      the forked child of a process with threads.
 */
#ifndef VANTULIG_JUNCTION_H
#define VANTULIG_JUNCTION_H
#include <stddef.h>
#include <stdint.h>
#ifdef __cplusplus
extern "C" {
#endif

/* The version of this interface. It stands here alone: the build reads it from this line. */
#define JUNCTION_VERSION "0.2.0"

/* The version of the library that is loaded. Where it isn't JUNCTION_VERSION, make no other call. */
const char *junction_version(void);

/* What each call answers. 1, 5 and 7 are the exit statuses of `junction run` and `junction exec`. */
enum junction_status {
    JUNCTION_DONE = 0,
    JUNCTION_NO_MEMORY = 1,
    JUNCTION_WRONG_CALL = 2, /* a null pointer, one that isn't aligned, or a length that can't be: nothing was done */
    JUNCTION_NOT_TAKEN = 3,  /* the counts are not taken: nothing has changed */
    JUNCTION_NOTHING = 4,    /* there is no such group, refused stage command or variable */
    JUNCTION_REFUSED = 5,    /* a text is refused */
    JUNCTION_TOO_LONG = 7,   /* a text has more bytes than it may have */
    JUNCTION_NO_NAMES = 8,   /* the controller is of a code file, in which variables have no names */
    JUNCTION_NO_COMMAND = 9, /* a command names no stage or group of the plan: nothing has changed */
    JUNCTION_NO_ROOM = 10    /* the refused stage commands of a second don't fit into the list any more */
};

/* A text: its bytes need no end. A null pointer with length 0 is an empty text. */
struct junction_text {
    const void *bytes;
    size_t length;
};

/* The texts of a junction: a program in VAP (or a code file, for junction_open_code), a plan (PUA file), a table of times and a
 * table of intergreens. */
struct junction_texts {
    struct junction_text program, plan, times, intergreens;
};

/* The text that is refused. */
enum junction_file { JUNCTION_PROGRAM = 0, JUNCTION_PLAN = 1, JUNCTION_TIMES = 2, JUNCTION_INTERGREENS = 3 };

/* Why texts are refused: the first text that is not as it must be, the first line of it at which it isn't, and why. `line`
 * counts from 1; 0 is for the text as a whole. `note` is the line that `junction run` or `junction exec` writes of files named
 * program, plan, times and intergreens, cut if it is longer, and ended by 0. `reason` is its last part. */
struct junction_refusal {
    enum junction_file file;
    uint32_t line;
    char reason[128];
    char note[256];
};

/* A controller of one junction. */
struct junction;

/* Puts a controller before its first second into *opened. Else *opened is null (unless `opened` is), and where the status is
 * JUNCTION_REFUSED or JUNCTION_TOO_LONG the refusal is told, if `refusal` isn't null. The texts are copied. */
enum junction_status junction_open(struct junction **opened, const struct junction_texts *texts,
                                   struct junction_refusal *refusal);

/* The same of a code file, which `junction compile` writes, in the place of the program. */
enum junction_status junction_open_code(struct junction **opened, const struct junction_texts *texts,
                                        struct junction_refusal *refusal);

/* Frees a controller; null is none. */
void junction_close(struct junction *junction);

/* What detectors 1 to 64 saw in one second: how many vehicles came on them, and how many left. Place p is detector p + 1. */
struct junction_counts {
    uint32_t fronts[64], rears[64];
};

/* A second. 280 bytes without a gap; all that tells nothing is 0. */
struct junction_told {
    uint32_t second; /* counts from 1 */
    uint32_t fault_line;
    uint32_t stages, turns;     /* how many stage commands and wished changes were refused */
    uint8_t place, from, to, t; /* place 0: no stages; 1: stage `to`; 2: interstage from..to in its second t */
    uint8_t fault;              /* 0: none; 1 Budget 2 Overflow 3 ZeroDivisor 4 Index 5 Number */
    uint8_t groups;
    uint8_t aspects[64];                     /* of each group R, U (red-amber), G or A (amber) */
    uint8_t turn_groups[64], turn_rules[64]; /* of each refused change its group (from 0) and its rule */
    uint8_t turn_others[64];                 /* the group in its way, or 255 */
    uint8_t reserved[2];                     /* 0 */
};
/* rules: 1 Sequence 2 MinGreen 3 Conflict 4 Intergreen 5 Running 6 WrongStage 7 NoInterstage 8 MinRed */

/* Makes one second. JUNCTION_NOT_TAKEN: a rear before its front, more than 2,147,483,647 fronts, or a week and a second are
 * over. It takes no memory and waits for nothing. */
enum junction_status junction_second(struct junction *junction, const struct junction_counts *counts,
                                     struct junction_told *told);

/* Makes as many seconds one after the other, and puts into *made how many were made: all, or those before counts that are not
 * taken. junction_run, below, makes seconds by commands too. */
enum junction_status junction_seconds(struct junction *junction, size_t seconds, const struct junction_counts *counts,
                                      struct junction_told *told, size_t *made);

/* What a caller commands in a second, in the place of the program. All 0: nothing is commanded, and the active stage goes on.
 * The commands are given in this order: the stage command, the wished stage, the groups by rising place. */
struct junction_commands {
    uint8_t from, to;   /* a stage command: the interstage between these stages; 0 and 0: none */
    uint8_t stage;      /* the stage that is wished: where another stage is active in this second before its commands, the
                           command from that one to this; where it is active itself, or an interstage runs, none; 0: none */
    uint8_t reserved;   /* 0; it isn't looked at */
    uint8_t groups[64]; /* what is wished of each group in this second over what the stage wishes: 0 nothing, 1 green, 2 red */
};

/* Makes one second by these commands; the program makes no pass in it. Its readings, timers and cycle go on, and a fault of
 * the second before isn't told again. Seconds by commands and seconds by the program may follow each other in any order: the
 * guard is the same. JUNCTION_NOT_TAKEN as for junction_second; JUNCTION_NO_COMMAND where the counts are taken, and a number
 * names nothing. It takes no memory and waits for nothing. */
enum junction_status junction_given_second(struct junction *junction, const struct junction_counts *counts,
                                           const struct junction_commands *commands, struct junction_told *told);

/* What the second that comes would refuse. 360 bytes without a gap; all that tells nothing is 0, but 255 in `others` of a
 * group that has none in its way, 0 past the last group. */
struct junction_mask {
    uint8_t place, from, to, t; /* the place of the second that comes, before its commands, as in junction_told */
    uint8_t groups, stages;     /* how many there are */
    uint8_t reserved[2];        /* 0 */
    uint8_t turns[64];          /* the turn that each group can be wished to make: 1 a start (by a wish of green), where it
                                   would be red or amber in the second that comes; 2 an end (of red), where red-amber or green */
    uint8_t rules[64];          /* the rule that refuses it where no other group turns by a wish; 0: it is obeyed */
    uint8_t others[64];         /* the group in its way, or 255 */
    uint16_t waits[64];         /* after how many seconds it would be obeyed at the earliest, where no group turns by a wish
                                   until then; 0: in the second that comes; 65535: never */
    uint8_t stage_rules[32];    /* of each stage (place p is stage p + 1) the rule that refuses the command from the active
                                   stage to it; 0: it is obeyed, or active */
};

/* Tells what the second that comes would refuse; JUNCTION_NOT_TAKEN where no second is left. It changes nothing. */
enum junction_status junction_mask(struct junction *junction, struct junction_mask *mask);

/* A stage command of the last second that was refused, by its place: its stages and its rule. */
struct junction_refused_stage {
    uint8_t from, to, rule;
};
enum junction_status junction_refused_stage(struct junction *junction, size_t place, struct junction_refused_stage *told);

/* A refused stage command in the list of many seconds: the second, the stages, the rule. */
struct junction_listed_stage {
    uint32_t second;
    uint8_t from, to, rule, reserved;
};

/* Makes as many seconds one after the other: by the program where `commands` is null, else by these. It puts into *made how
 * many were made: all, or those before counts that are not taken or commands that name nothing. Their refused stage commands
 * go in order into the `room` places at `listed`, and into *listed_count how many; where those of a second don't fit any more,
 * none of them is listed, the call ends after this second with JUNCTION_NO_ROOM, and junction_refused_stage tells them.
 * `listed` and `listed_count` may both be null: nothing is listed. It takes no memory and waits for nothing. */
enum junction_status junction_run(struct junction *junction, size_t seconds, const struct junction_counts *counts,
                                  const struct junction_commands *commands, struct junction_told *told,
                                  struct junction_listed_stage *listed, size_t room, size_t *made, size_t *listed_count);

/* Makes one second of each of `count` junctions, which are different ones: by their programs where `commands` is null, else by
 * these. statuses[i] is what the call for junctions[i] alone would answer, and where `masks` isn't null and its second was
 * made, masks[i] is its mask after it (as it was before, where no second is left). It answers JUNCTION_DONE, or the first
 * status that is another. It takes no memory and waits for nothing. */
enum junction_status junction_each(size_t count, struct junction *const *junctions, const struct junction_counts *counts,
                                   const struct junction_commands *commands, struct junction_told *told,
                                   struct junction_mask *masks, uint32_t *statuses);

/* Copies the name of a group (from 0), which has at most 32 bytes, as far as it fits, with a 0 behind it where `room` allows;
 * its whole length goes into *length. */
enum junction_status junction_group_name(struct junction *junction, size_t group, char *name, size_t room, size_t *length);

/* The value of a variable of the program after the last second, and the seconds that a timer counted up to it, by their names
 * in letters of any case. Made for tests. */
enum junction_status junction_value(struct junction *junction, const char *name, int32_t *value);
enum junction_status junction_timer(struct junction *junction, const char *name, uint32_t *seconds);

/* Copies the name of a variable, of a timer (both from 0, in small letters), as junction_group_name does of a group.
 * JUNCTION_NO_NAMES for a code file. */
enum junction_status junction_variable_name(struct junction *junction, size_t variable, char *name, size_t room,
                                            size_t *length);
enum junction_status junction_timer_name(struct junction *junction, size_t timer, char *name, size_t room, size_t *length);

#ifdef __cplusplus
}
#endif
#endif
