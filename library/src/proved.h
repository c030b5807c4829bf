/* proved.h: the proved calls as crates/junction_c exports them. Nothing compares this file with that source: that the logs are
 * equal byte for byte shows each field in its place. */
#ifndef VANTULIG_PROVED_H
#define VANTULIG_PROVED_H
#include "junction.h"
#include <stdbool.h>

/* What a handle of the proved calls is: a controller, or nothing. {0} holds nothing. */
struct proved_handle {
    void *at;
    bool held;
};

/* How long the note of a refusal is, which text it is of (as enum junction_file), and the line. */
struct proved_refusal {
    size_t noted;
    uint32_t file, line;
};

/* 0, or 1, or 5, 7 with the note of `junction run` or `junction exec`, whose beginning is copied, and its parts */
typedef uint32_t proved_load(struct proved_handle *handle, const uint8_t *program, size_t program_length, const uint8_t *plan,
                             size_t plan_length, const uint8_t *times, size_t times_length, const uint8_t *intergreens,
                             size_t intergreens_length, uint8_t *note, size_t room, struct proved_refusal *refusal);
proved_load junction_c_load, junction_c_load_code;
/* 0: made and told; 3: the counts are not taken; 4: nothing is held */
uint32_t junction_c_second(struct proved_handle *handle, const struct junction_counts *counts, struct junction_told *told);
/* 0: made and told; 3: the counts are not taken; 4: nothing is held; 9: the counts are taken, and a command names no stage or
 * group */
uint32_t junction_c_given_second(struct proved_handle *handle, const struct junction_counts *counts,
                                 const struct junction_commands *commands, struct junction_told *told);
/* 0: told; 3: no second is left; 4: nothing is held */
uint32_t junction_c_mask(struct proved_handle *handle, struct junction_mask *mask);
/* 0: told; 4: there is none, or nothing is held */
uint32_t junction_c_refused_stage(struct proved_handle *handle, size_t place, struct junction_refused_stage *told);
/* the length of the name, which is copied as far as it fits; 0: there is no such group, or nothing is held */
size_t junction_c_group_name(struct proved_handle *handle, uint8_t group, uint8_t *name, size_t room);
/* 0: the names of the variables, of the timers of a program are copied as far as they fit, with a line feed behind each, and
 * their length is told; 1: memory was wanted; 5: it is no program */
typedef uint32_t proved_names(const uint8_t *program, size_t program_length, uint8_t *names, size_t room, size_t *length);
proved_names junction_c_variable_names, junction_c_timer_names;
/* 0: the value of the variable of that number is told; 4: there is none, or nothing is held */
uint32_t junction_c_variable_value(struct proved_handle *handle, size_t number, int32_t *value);
/* the same of the seconds of a timer */
uint32_t junction_c_timer_count(struct proved_handle *handle, size_t number, uint32_t *count);
void junction_c_end(struct proved_handle *handle);
#endif
