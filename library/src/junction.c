/* junction.c: the calls of junction.h over the proved ones. Plain C, not proved. It refuses null pointers, pointers that
 * aren't aligned and lengths over PTRDIFF_MAX, keeps the handle and the names of the variables in a block of their own, and
 * cuts the reason out of a note. It can't find a length that is only too long, a controller that was closed or made up, and
 * pointers that overlap. */
#include "proved.h"
#include <stdalign.h>
#include <stdio.h>
#include <stdlib.h>
#include <string.h>

/* names in the order of their numbers, a line feed behind each; null for a code file; and the length of them all */
struct names {
    uint8_t *text;
    size_t length;
};

struct junction {
    struct proved_handle handle;
    struct names variables, timers;
};

const char *junction_version(void) { return JUNCTION_VERSION; }

/* whether this is a place for something of that alignment */
static bool is_place(const void *place, size_t alignment) { return place && (uintptr_t)place % alignment == 0; }

/* whether so many bytes can stand there */
static bool are_bytes(const void *bytes, size_t length) { return bytes && length <= PTRDIFF_MAX; }

/* a text whose bytes are never null; false where it can't be one */
static bool take_text(struct junction_text *text) {
    static const uint8_t none[1] = {0};
    if (!text->bytes && !text->length) text->bytes = none;
    return are_bytes(text->bytes, text->length);
}

static const char *const FILES[4] = {"program", "plan", "times", "intergreens"};

/* The parts of a note: `junction: FILE:LINE: REASON`, or `junction: FILE: TooLong`. */
static void tell_refusal(struct junction_refusal *refusal, uint32_t status, const struct proved_refusal *told,
                         const uint8_t *note) {
    memset(refusal, 0, sizeof *refusal);
    refusal->file = (enum junction_file)told->file, refusal->line = told->line;
    size_t length = told->noted < sizeof refusal->note ? told->noted : sizeof refusal->note - 1;
    memcpy(refusal->note, note, length);
    char head[48], line[16] = "";
    if (status != JUNCTION_TOO_LONG) snprintf(line, sizeof line, "%u:", (unsigned)told->line);
    size_t before = (size_t)snprintf(head, sizeof head, "junction: %s:%s ", FILES[told->file], line);
    const char *reason = refusal->note + (before < length ? before : length);
    size_t n = strcspn(reason, "\n");
    memcpy(refusal->reason, reason, n < sizeof refusal->reason ? n : sizeof refusal->reason - 1);
}

/* names of a program; false where memory is wanted */
static bool take_names(proved_names *tell, struct names *names, const struct junction_text *program) {
    /* a name stands in the program, with a byte that is none of it behind it or at its end */
    for (size_t room = program->length + 1;; room = names->length) {
        uint8_t *text = realloc(names->text, room);
        if (!text) return false;
        names->text = text;
        if (tell(program->bytes, program->length, text, room, &names->length)) return false;
        if (names->length <= room) break;
    }
    uint8_t *fitting = realloc(names->text, names->length + 1);
    if (fitting) names->text = fitting;
    return true;
}

static enum junction_status open_by(proved_load *load, struct junction **opened, const struct junction_texts *given,
                                    struct junction_refusal *refusal) {
    if (!is_place(opened, alignof(struct junction *))) return JUNCTION_WRONG_CALL;
    *opened = NULL;
    if (!is_place(given, alignof(struct junction_texts))) return JUNCTION_WRONG_CALL;
    struct junction_texts texts = *given;
    if (!take_text(&texts.program) || !take_text(&texts.plan) || !take_text(&texts.times) || !take_text(&texts.intergreens))
        return JUNCTION_WRONG_CALL;
    if (refusal && !is_place(refusal, alignof(struct junction_refusal))) return JUNCTION_WRONG_CALL;
    struct junction *made = calloc(1, sizeof *made);
    if (!made) return JUNCTION_NO_MEMORY;
    uint8_t note[sizeof refusal->note - 1];
    struct proved_refusal told = {0};
    uint32_t status = load(&made->handle, texts.program.bytes, texts.program.length, texts.plan.bytes, texts.plan.length,
                           texts.times.bytes, texts.times.length, texts.intergreens.bytes, texts.intergreens.length, note,
                           sizeof note, &told);
    if (status == JUNCTION_DONE && load == junction_c_load &&
        (!take_names(junction_c_variable_names, &made->variables, &texts.program) ||
         !take_names(junction_c_timer_names, &made->timers, &texts.program)))
        status = JUNCTION_NO_MEMORY;
    if (status == JUNCTION_DONE) {
        *opened = made;
        return JUNCTION_DONE;
    }
    if (refusal && status != JUNCTION_NO_MEMORY) tell_refusal(refusal, status, &told, note);
    junction_close(made);
    return (enum junction_status)status;
}

enum junction_status junction_open(struct junction **opened, const struct junction_texts *texts,
                                   struct junction_refusal *refusal) {
    return open_by(junction_c_load, opened, texts, refusal);
}

enum junction_status junction_open_code(struct junction **opened, const struct junction_texts *texts,
                                        struct junction_refusal *refusal) {
    return open_by(junction_c_load_code, opened, texts, refusal);
}

void junction_close(struct junction *junction) {
    if (!is_place(junction, alignof(struct junction))) return;
    junction_c_end(&junction->handle);
    free(junction->variables.text);
    free(junction->timers.text);
    free(junction);
}

enum junction_status junction_second(struct junction *junction, const struct junction_counts *counts,
                                     struct junction_told *told) {
    if (!is_place(junction, alignof(struct junction)) || !is_place(counts, alignof(struct junction_counts)) ||
        !is_place(told, alignof(struct junction_told)))
        return JUNCTION_WRONG_CALL;
    return (enum junction_status)junction_c_second(&junction->handle, counts, told);
}

enum junction_status junction_given_second(struct junction *junction, const struct junction_counts *counts,
                                           const struct junction_commands *commands, struct junction_told *told) {
    if (!is_place(junction, alignof(struct junction)) || !is_place(counts, alignof(struct junction_counts)) ||
        !is_place(commands, alignof(struct junction_commands)) || !is_place(told, alignof(struct junction_told)))
        return JUNCTION_WRONG_CALL;
    return (enum junction_status)junction_c_given_second(&junction->handle, counts, commands, told);
}

enum junction_status junction_mask(struct junction *junction, struct junction_mask *mask) {
    if (!is_place(junction, alignof(struct junction)) || !is_place(mask, alignof(struct junction_mask)))
        return JUNCTION_WRONG_CALL;
    return (enum junction_status)junction_c_mask(&junction->handle, mask);
}

/* one second: by the program, or by the commands at that place */
static uint32_t make_second(struct junction *junction, const struct junction_counts *counts,
                            const struct junction_commands *commands, struct junction_told *told) {
    if (!commands) return junction_c_second(&junction->handle, counts, told);
    return junction_c_given_second(&junction->handle, counts, commands, told);
}

enum junction_status junction_seconds(struct junction *junction, size_t seconds, const struct junction_counts *counts,
                                      struct junction_told *told, size_t *made) {
    return junction_run(junction, seconds, counts, NULL, told, NULL, 0, made, NULL);
}

/* Lists the refused stage commands of the last second. */
static void list_stages(struct junction *junction, const struct junction_told *told, struct junction_listed_stage *listed) {
    for (uint32_t i = 0; i < told->stages; i++) {
        struct junction_refused_stage one = {0};
        junction_c_refused_stage(&junction->handle, i, &one);
        listed[i] = (struct junction_listed_stage){told->second, one.from, one.to, one.rule, 0};
    }
}

enum junction_status junction_run(struct junction *junction, size_t seconds, const struct junction_counts *counts,
                                  const struct junction_commands *commands, struct junction_told *told,
                                  struct junction_listed_stage *listed, size_t room, size_t *made, size_t *listed_count) {
    size_t none = 0;
    if (!is_place(made, alignof(size_t))) return JUNCTION_WRONG_CALL;
    *made = 0;
    if (!is_place(junction, alignof(struct junction)) || seconds > PTRDIFF_MAX / sizeof *counts) return JUNCTION_WRONG_CALL;
    if (seconds && (!is_place(counts, alignof(struct junction_counts)) || !is_place(told, alignof(struct junction_told))))
        return JUNCTION_WRONG_CALL;
    if (!listed != !listed_count || (!listed && room) || room > PTRDIFF_MAX / sizeof *listed) return JUNCTION_WRONG_CALL;
    if (listed && (!is_place(listed, alignof(struct junction_listed_stage)) || !is_place(listed_count, alignof(size_t))))
        return JUNCTION_WRONG_CALL;
    size_t *count = listed_count ? listed_count : &none;
    *count = 0;
    while (*made < seconds) {
        struct junction_told *now = &told[*made];
        uint32_t status = make_second(junction, &counts[*made], commands ? &commands[*made] : NULL, now);
        if (status) return (enum junction_status)status;
        ++*made;
        if (!listed || !now->stages) continue;
        if (now->stages > room - *count) return JUNCTION_NO_ROOM;
        list_stages(junction, now, &listed[*count]);
        *count += now->stages;
    }
    return JUNCTION_DONE;
}

enum junction_status junction_each(size_t count, struct junction *const *junctions, const struct junction_counts *counts,
                                   const struct junction_commands *commands, struct junction_told *told,
                                   struct junction_mask *masks, uint32_t *statuses) {
    if (count > PTRDIFF_MAX / sizeof *counts) return JUNCTION_WRONG_CALL;
    if (count && (!is_place(junctions, alignof(struct junction *)) || !is_place(counts, alignof(struct junction_counts)) ||
                  !is_place(told, alignof(struct junction_told)) || !is_place(statuses, alignof(uint32_t))))
        return JUNCTION_WRONG_CALL;
    if (masks && !is_place(masks, alignof(struct junction_mask))) return JUNCTION_WRONG_CALL;
    uint32_t first = JUNCTION_DONE;
    for (size_t i = 0; i < count; i++) {
        uint32_t status = JUNCTION_WRONG_CALL;
        if (is_place(junctions[i], alignof(struct junction)))
            status = make_second(junctions[i], &counts[i], commands ? &commands[i] : NULL, &told[i]);
        if (!status && masks) junction_c_mask(&junctions[i]->handle, &masks[i]);
        statuses[i] = status;
        if (!first) first = status;
    }
    return (enum junction_status)first;
}

enum junction_status junction_refused_stage(struct junction *junction, size_t place, struct junction_refused_stage *told) {
    if (!is_place(junction, alignof(struct junction)) || !told) return JUNCTION_WRONG_CALL;
    return (enum junction_status)junction_c_refused_stage(&junction->handle, place, told);
}

enum junction_status junction_group_name(struct junction *junction, size_t group, char *name, size_t room, size_t *length) {
    uint8_t none = 0;
    if (!is_place(junction, alignof(struct junction)) || !is_place(length, alignof(size_t))) return JUNCTION_WRONG_CALL;
    if (room && !are_bytes(name, room)) return JUNCTION_WRONG_CALL;
    *length = group < 64 ? junction_c_group_name(&junction->handle, (uint8_t)group, room ? (uint8_t *)name : &none, room) : 0;
    if (!*length) return JUNCTION_NOTHING;
    if (*length < room) name[*length] = 0;
    return JUNCTION_DONE;
}

/* whether a name of the list, which is in small letters, is this one */
static bool is_name(const uint8_t *listed, size_t length, const char *name) {
    for (size_t i = 0; i < length; i++) {
        char letter = name[i] >= 'A' && name[i] <= 'Z' ? (char)(name[i] + 'a' - 'A') : name[i];
        if ((uint8_t)letter != listed[i]) return false;
    }
    return name[length] == 0;
}

/* Steps over the next name of a list, which begins at *at; false where none is left. */
static bool next_name(const struct names *names, size_t *at, const uint8_t **name, size_t *length) {
    if (*at >= names->length) return false;
    *name = names->text + *at;
    *length = (size_t)((const uint8_t *)memchr(*name, '\n', names->length - *at) - *name);
    *at += *length + 1;
    return true;
}

/* The number of a name in a list, which is in small letters. */
static enum junction_status number_of(const struct names *names, const char *name, size_t *number) {
    const uint8_t *listed;
    size_t at = 0, length;
    if (!names->text) return JUNCTION_NO_NAMES;
    for (*number = 0; next_name(names, &at, &listed, &length); ++*number)
        if (is_name(listed, length, name)) return JUNCTION_DONE;
    return JUNCTION_NOTHING;
}

enum junction_status junction_value(struct junction *junction, const char *name, int32_t *value) {
    if (!is_place(junction, alignof(struct junction)) || !name || !is_place(value, alignof(int32_t)))
        return JUNCTION_WRONG_CALL;
    size_t number;
    enum junction_status status = number_of(&junction->variables, name, &number);
    return status ? status : (enum junction_status)junction_c_variable_value(&junction->handle, number, value);
}

enum junction_status junction_timer(struct junction *junction, const char *name, uint32_t *seconds) {
    if (!is_place(junction, alignof(struct junction)) || !name || !is_place(seconds, alignof(uint32_t)))
        return JUNCTION_WRONG_CALL;
    size_t number;
    enum junction_status status = number_of(&junction->timers, name, &number);
    return status ? status : (enum junction_status)junction_c_timer_count(&junction->handle, number, seconds);
}

/* Copies the name of that number in a list as far as it fits. */
static enum junction_status tell_name(const struct names *names, size_t number, char *name, size_t room, size_t *length) {
    const uint8_t *listed = NULL;
    size_t at = 0;
    *length = 0;
    if (!names->text) return JUNCTION_NO_NAMES;
    do {
        if (!next_name(names, &at, &listed, length)) return *length = 0, JUNCTION_NOTHING;
    } while (number--);
    if (room) memcpy(name, listed, *length < room ? *length : room);
    if (*length < room) name[*length] = 0;
    return JUNCTION_DONE;
}

enum junction_status junction_variable_name(struct junction *junction, size_t variable, char *name, size_t room,
                                            size_t *length) {
    if (!is_place(junction, alignof(struct junction)) || !is_place(length, alignof(size_t)) || (room && !are_bytes(name, room)))
        return JUNCTION_WRONG_CALL;
    return tell_name(&junction->variables, variable, name, room, length);
}

enum junction_status junction_timer_name(struct junction *junction, size_t timer, char *name, size_t room, size_t *length) {
    if (!is_place(junction, alignof(struct junction)) || !is_place(length, alignof(size_t)) || (room && !are_bytes(name, room)))
        return JUNCTION_WRONG_CALL;
    return tell_name(&junction->timers, timer, name, room, length);
}
