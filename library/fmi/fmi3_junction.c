/* A junction as a co-simulation unit of FMI 3.0 over junction.h. Plain C: what is proved is what the calls of junction.h do.
 *
 * A step is one second. Its inputs are the counts of that second; they hold until they are set again, as FMI's inputs do.
 * Counts that are not taken give fmi3Discard, and nothing has changed: set others and step again from the same time. Where the
 * input by_commands is true the second is made by the commands of the other inputs, in the place of the program's pass. The
 * texts lie in resources/: program.vap, junction.pua, times.csv, intergreens.csv. */
#include "fmi3.h"
#include "junction.h"
#include "junction_log.h"
#include "token.h" /* TOKEN, which modelDescription.xml has too */

#define FMI __attribute__((visibility("default")))

enum {
    TIME,
    FRONTS,
    REARS,
    SECOND,
    GROUPS,
    ASPECTS,
    PLACE,
    FROM,
    TO,
    T,
    FAULT,
    FAULT_LINE,
    STAGES,
    TURNS,
    TURN_GROUPS,
    TURN_RULES,
    TURN_OTHERS,
    TAKEN,
    HEADER,
    RECORD,
    BY_COMMANDS,
    ORDER_FROM,
    ORDER_TO,
    WISHED_STAGE,
    WISHES
};
enum state { INSTANTIATED, INITIALIZATION, STEP, TERMINATED };

struct unit {
    enum state state;
    struct junction *junction;
    struct junction_counts counts, used;
    struct junction_commands commands;
    bool by_commands;
    struct junction_told told;
    struct junction_names names;
    bool taken, logging;
    double time;
    char *header, *record;
    struct junction_text texts[4];
    fmi3InstanceEnvironment environment;
    fmi3LogMessageCallback log;
};

static fmi3Status say(struct unit *u, fmi3Status status, const char *message) {
    if (u->log && (u->logging || status >= fmi3Error))
        u->log(u->environment, status, status >= fmi3Error ? "logStatusError" : "logStatusDiscard", message);
    return status;
}

/* the header, or the line of the last second */
static char *written(struct unit *u, bool header) {
    char *text = NULL;
    size_t length = 0;
    FILE *out = open_memstream(&text, &length);
    if (!out) return NULL;
    if (header)
        junction_put_header(out, &u->names);
    else if (u->told.second)
        junction_put_second(out, u->junction, &u->names, &u->used, &u->told);
    if (fclose(out)) {
        free(text);
        return NULL;
    }
    if (length && text[length - 1] == '\n') text[length - 1] = 0;
    return text;
}

/* before the first second: all groups are red */
static fmi3Status begin(struct unit *u) {
    struct junction_texts texts = {u->texts[0], u->texts[1], u->texts[2], u->texts[3]};
    struct junction_refusal refusal = {0};
    junction_close(u->junction);
    if (junction_open(&u->junction, &texts, &refusal)) return say(u, fmi3Error, refusal.note[0] ? refusal.note : "no memory");
    junction_take_names(u->junction, &u->names);
    memset(&u->counts, 0, sizeof u->counts);
    memset(&u->commands, 0, sizeof u->commands);
    u->by_commands = false;
    memset(&u->told, 0, sizeof u->told);
    u->told.groups = (uint8_t)u->names.groups;
    memset(u->told.aspects, 'R', u->names.groups);
    u->taken = true;
    u->time = 0;
    u->state = INSTANTIATED;
    free(u->header), free(u->record);
    u->record = NULL;
    u->header = written(u, true);
    return u->header ? fmi3OK : say(u, fmi3Error, "no memory");
}

static bool read_text(struct unit *u, int i, const char *folder, const char *name) {
    size_t n = strlen(folder);
    char *path = malloc(n + strlen(name) + 2);
    if (!path) return false;
    sprintf(path, "%s%s%s", folder, n && folder[n - 1] == '/' ? "" : "/", name);
    FILE *file = fopen(path, "rb");
    free(path);
    if (!file) return false;
    size_t most = (1 << 20) + 1; /* one more than a text may have: then it is too long */
    char *bytes = malloc(most);
    if (bytes) u->texts[i] = (struct junction_text){bytes, fread(bytes, 1, most, file)};
    bool read = bytes && !ferror(file);
    fclose(file);
    return read;
}

FMI const char *fmi3GetVersion(void) { return "3.0"; }

FMI void fmi3FreeInstance(fmi3Instance instance) {
    struct unit *u = instance;
    if (!u) return;
    junction_close(u->junction);
    for (int i = 0; i < 4; i++) free((void *)u->texts[i].bytes);
    free(u->header), free(u->record), free(u);
}

FMI fmi3Instance fmi3InstantiateCoSimulation(fmi3String instanceName, fmi3String instantiationToken, fmi3String resourcePath,
                                             fmi3Boolean visible, fmi3Boolean loggingOn, fmi3Boolean eventModeUsed,
                                             fmi3Boolean earlyReturnAllowed,
                                             const fmi3ValueReference requiredIntermediateVariables[],
                                             size_t nRequiredIntermediateVariables, fmi3InstanceEnvironment environment,
                                             fmi3LogMessageCallback logMessage,
                                             fmi3IntermediateUpdateCallback intermediateUpdate) {
    (void)visible, (void)earlyReturnAllowed, (void)requiredIntermediateVariables, (void)intermediateUpdate, (void)instanceName;
    static const char *const names[4] = {"program.vap", "junction.pua", "times.csv", "intergreens.csv"};
    struct unit *u = calloc(1, sizeof *u);
    if (!u) return NULL;
    u->environment = environment, u->log = logMessage, u->logging = loggingOn;
    bool right = false;
    if (!instantiationToken || strcmp(instantiationToken, TOKEN))
        say(u, fmi3Error, "another instantiation token");
    else if (eventModeUsed || nRequiredIntermediateVariables)
        say(u, fmi3Error, "no event mode and no intermediate variables");
    else if (strcmp(junction_version(), JUNCTION_VERSION))
        say(u, fmi3Error, "another version of the library");
    else if (!resourcePath)
        say(u, fmi3Error, "no resources");
    else {
        right = true;
        for (int i = 0; i < 4 && right; i++)
            if (!(right = read_text(u, i, resourcePath, names[i]))) say(u, fmi3Error, names[i]);
        right = right && begin(u) == fmi3OK;
    }
    if (right) return u;
    fmi3FreeInstance(u);
    return NULL;
}

FMI fmi3Status fmi3SetDebugLogging(fmi3Instance instance, fmi3Boolean on, size_t n, const fmi3String categories[]) {
    (void)n, (void)categories;
    ((struct unit *)instance)->logging = on;
    return fmi3OK;
}

FMI fmi3Status fmi3EnterInitializationMode(fmi3Instance instance, fmi3Boolean toleranceDefined, fmi3Float64 tolerance,
                                           fmi3Float64 startTime, fmi3Boolean stopTimeDefined, fmi3Float64 stopTime) {
    (void)toleranceDefined, (void)tolerance, (void)stopTimeDefined, (void)stopTime;
    struct unit *u = instance;
    if (u->state != INSTANTIATED) return say(u, fmi3Error, "fmi3EnterInitializationMode out of turn");
    u->time = startTime;
    u->state = INITIALIZATION;
    return fmi3OK;
}

FMI fmi3Status fmi3ExitInitializationMode(fmi3Instance instance) {
    struct unit *u = instance;
    if (u->state != INITIALIZATION) return say(u, fmi3Error, "fmi3ExitInitializationMode out of turn");
    u->state = STEP;
    return fmi3OK;
}

FMI fmi3Status fmi3Terminate(fmi3Instance instance) {
    struct unit *u = instance;
    if (u->state != STEP) return say(u, fmi3Error, "fmi3Terminate out of turn");
    u->state = TERMINATED;
    return fmi3OK;
}

FMI fmi3Status fmi3Reset(fmi3Instance instance) { return begin(instance); }

FMI fmi3Status fmi3DoStep(fmi3Instance instance, fmi3Float64 currentCommunicationPoint, fmi3Float64 communicationStepSize,
                          fmi3Boolean noSetFMUStatePriorToCurrentPoint, fmi3Boolean *eventHandlingNeeded,
                          fmi3Boolean *terminateSimulation, fmi3Boolean *earlyReturn, fmi3Float64 *lastSuccessfulTime) {
    (void)noSetFMUStatePriorToCurrentPoint;
    struct unit *u = instance;
    if (eventHandlingNeeded) *eventHandlingNeeded = false;
    if (terminateSimulation) *terminateSimulation = false;
    if (earlyReturn) *earlyReturn = false;
    if (lastSuccessfulTime) *lastSuccessfulTime = u->time;
    if (u->state != STEP) return say(u, fmi3Error, "fmi3DoStep out of turn");
    if (communicationStepSize != 1) return say(u, fmi3Error, "a step is one second");
    if (currentCommunicationPoint != u->time) return say(u, fmi3Error, "a step from another time");
    enum junction_status status = u->by_commands ? junction_given_second(u->junction, &u->counts, &u->commands, &u->told)
                                                 : junction_second(u->junction, &u->counts, &u->told);
    u->taken = status == JUNCTION_DONE;
    if (status == JUNCTION_NO_COMMAND) return say(u, fmi3Discard, "a command names no stage or group");
    if (!u->taken) return say(u, fmi3Discard, "the counts are not taken");
    u->used = u->counts;
    free(u->record);
    u->record = NULL;
    u->time += 1;
    if (lastSuccessfulTime) *lastSuccessfulTime = u->time;
    return fmi3OK;
}

/* the place of a variable of so many numbers, or NULL */
static uint32_t *words_of(struct unit *u, fmi3ValueReference v, size_t *n) {
    *n = 1;
    switch (v) {
    case FRONTS: *n = 64; return u->counts.fronts;
    case REARS: *n = 64; return u->counts.rears;
    case SECOND: return &u->told.second;
    case FAULT_LINE: return &u->told.fault_line;
    case STAGES: return &u->told.stages;
    case TURNS: return &u->told.turns;
    default: return NULL;
    }
}

static uint8_t *bytes_of(struct unit *u, fmi3ValueReference v, size_t *n) {
    *n = 1;
    switch (v) {
    case GROUPS: return &u->told.groups;
    case PLACE: return &u->told.place;
    case FROM: return &u->told.from;
    case TO: return &u->told.to;
    case T: return &u->told.t;
    case FAULT: return &u->told.fault;
    case ASPECTS: *n = 64; return u->told.aspects;
    case TURN_GROUPS: *n = 64; return u->told.turn_groups;
    case TURN_RULES: *n = 64; return u->told.turn_rules;
    case TURN_OTHERS: *n = 64; return u->told.turn_others;
    case ORDER_FROM: return &u->commands.from;
    case ORDER_TO: return &u->commands.to;
    case WISHED_STAGE: return &u->commands.stage;
    case WISHES: *n = 64; return u->commands.groups;
    default: return NULL;
    }
}

#define GET(NAME, TYPE, PLACE_OF)                                                                                              \
    FMI fmi3Status fmi3Get##NAME(fmi3Instance instance, const fmi3ValueReference vs[], size_t n, TYPE values[], size_t many) { \
        struct unit *u = instance;                                                                                             \
        size_t at = 0, size = 0;                                                                                               \
        for (size_t i = 0; i < n; i++, at += size) {                                                                           \
            TYPE *from = PLACE_OF(u, vs[i], &size);                                                                            \
            if (!from || size > many - at) return say(u, fmi3Error, "fmi3Get" #NAME ": no such variable, or too few values");  \
            memcpy(values + at, from, size * sizeof *from);                                                                    \
        }                                                                                                                      \
        return at == many ? fmi3OK : say(u, fmi3Error, "fmi3Get" #NAME ": too many values");                                   \
    }
GET(UInt32, fmi3UInt32, words_of)
GET(UInt8, fmi3UInt8, bytes_of)

FMI fmi3Status fmi3SetUInt32(fmi3Instance instance, const fmi3ValueReference vs[], size_t n, const fmi3UInt32 values[],
                             size_t many) {
    struct unit *u = instance;
    if (u->state == TERMINATED) return say(u, fmi3Error, "fmi3SetUInt32 out of turn");
    if (many != 64 * n) return say(u, fmi3Error, "fmi3SetUInt32: 64 values each");
    for (size_t i = 0; i < n; i++)
        if (vs[i] != FRONTS && vs[i] != REARS) return say(u, fmi3Error, "fmi3SetUInt32: no input");
    for (size_t i = 0; i < n; i++)
        memcpy(vs[i] == FRONTS ? u->counts.fronts : u->counts.rears, values + 64 * i, 64 * sizeof *values);
    return fmi3OK;
}

FMI fmi3Status fmi3SetUInt8(fmi3Instance instance, const fmi3ValueReference vs[], size_t n, const fmi3UInt8 values[],
                            size_t many) {
    struct unit *u = instance;
    size_t at = 0, size;
    if (u->state == TERMINATED) return say(u, fmi3Error, "fmi3SetUInt8 out of turn");
    for (size_t i = 0; i < n; i++, at += size) {
        if (vs[i] < ORDER_FROM || !bytes_of(u, vs[i], &size) || size > many - at)
            return say(u, fmi3Error, "fmi3SetUInt8: no input, or too few values");
    }
    if (at != many) return say(u, fmi3Error, "fmi3SetUInt8: too many values");
    for (size_t i = 0; i < n; i++, values += size) {
        uint8_t *to = bytes_of(u, vs[i], &size);
        memcpy(to, values, size);
    }
    return fmi3OK;
}

FMI fmi3Status fmi3SetBoolean(fmi3Instance instance, const fmi3ValueReference vs[], size_t n, const fmi3Boolean values[],
                              size_t many) {
    struct unit *u = instance;
    if (u->state == TERMINATED) return say(u, fmi3Error, "fmi3SetBoolean out of turn");
    if (many != n) return say(u, fmi3Error, "fmi3SetBoolean: one value each");
    for (size_t i = 0; i < n; i++)
        if (vs[i] != BY_COMMANDS) return say(u, fmi3Error, "fmi3SetBoolean: no input");
    if (n) u->by_commands = values[n - 1];
    return fmi3OK;
}

FMI fmi3Status fmi3GetFloat64(fmi3Instance instance, const fmi3ValueReference vs[], size_t n, fmi3Float64 values[],
                              size_t many) {
    struct unit *u = instance;
    if (many != n) return say(u, fmi3Error, "fmi3GetFloat64: one value each");
    for (size_t i = 0; i < n; i++) {
        if (vs[i] != TIME) return say(u, fmi3Error, "fmi3GetFloat64: no such variable");
        values[i] = u->time;
    }
    return fmi3OK;
}

FMI fmi3Status fmi3GetBoolean(fmi3Instance instance, const fmi3ValueReference vs[], size_t n, fmi3Boolean values[],
                              size_t many) {
    struct unit *u = instance;
    if (many != n) return say(u, fmi3Error, "fmi3GetBoolean: one value each");
    for (size_t i = 0; i < n; i++) {
        if (vs[i] != TAKEN && vs[i] != BY_COMMANDS) return say(u, fmi3Error, "fmi3GetBoolean: no such variable");
        values[i] = vs[i] == TAKEN ? u->taken : u->by_commands;
    }
    return fmi3OK;
}

FMI fmi3Status fmi3GetString(fmi3Instance instance, const fmi3ValueReference vs[], size_t n, fmi3String values[], size_t many) {
    struct unit *u = instance;
    if (many != n) return say(u, fmi3Error, "fmi3GetString: one value each");
    for (size_t i = 0; i < n; i++) {
        if (vs[i] == HEADER)
            values[i] = u->header;
        else if (vs[i] == RECORD) {
            if (!u->record && !(u->record = written(u, false))) return say(u, fmi3Error, "no memory");
            values[i] = u->record;
        } else
            return say(u, fmi3Error, "fmi3GetString: no such variable");
    }
    return fmi3OK;
}

/* what this unit does not have */
#define NONE(NAME, ...)                                                                                                        \
    FMI fmi3Status NAME(fmi3Instance instance, ##__VA_ARGS__) { return say(instance, fmi3Error, #NAME ": not of this unit"); }
#define NO_NUMBERS(NAME, TYPE)                                                                                                 \
    NONE(fmi3Get##NAME, const fmi3ValueReference *a __attribute__((unused)), size_t b __attribute__((unused)),                 \
         TYPE *c __attribute__((unused)), size_t d __attribute__((unused)))                                                    \
    NO_SET(NAME, TYPE)
#define NO_SET(NAME, TYPE)                                                                                                     \
    NONE(fmi3Set##NAME, const fmi3ValueReference *a __attribute__((unused)), size_t b __attribute__((unused)),                 \
         const TYPE *c __attribute__((unused)), size_t d __attribute__((unused)))
NO_NUMBERS(Float32, fmi3Float32)
NO_SET(Float64, fmi3Float64)
NO_NUMBERS(Int8, fmi3Int8)
NO_NUMBERS(Int16, fmi3Int16)
NO_NUMBERS(UInt16, fmi3UInt16)
NO_NUMBERS(Int32, fmi3Int32)
NO_NUMBERS(Int64, fmi3Int64)
NO_NUMBERS(UInt64, fmi3UInt64)
NO_SET(String, fmi3String)
#pragma GCC diagnostic push
#pragma GCC diagnostic ignored "-Wunused-parameter"
NONE(fmi3GetBinary, const fmi3ValueReference *a, size_t b, size_t *c, fmi3Binary *d, size_t e)
NONE(fmi3SetBinary, const fmi3ValueReference *a, size_t b, const size_t *c, const fmi3Binary *d, size_t e)
NONE(fmi3GetClock, const fmi3ValueReference *a, size_t b, fmi3Clock *c)
NONE(fmi3SetClock, const fmi3ValueReference *a, size_t b, const fmi3Clock *c)
NONE(fmi3GetNumberOfVariableDependencies, fmi3ValueReference a, size_t *b)
NONE(fmi3GetVariableDependencies, fmi3ValueReference a, size_t *b, fmi3ValueReference *c, size_t *d, fmi3DependencyKind *e,
     size_t f)
NONE(fmi3GetFMUState, fmi3FMUState *a)
NONE(fmi3SetFMUState, fmi3FMUState a)
NONE(fmi3FreeFMUState, fmi3FMUState *a)
NONE(fmi3SerializedFMUStateSize, fmi3FMUState a, size_t *b)
NONE(fmi3SerializeFMUState, fmi3FMUState a, fmi3Byte *b, size_t c)
NONE(fmi3DeserializeFMUState, const fmi3Byte *a, size_t b, fmi3FMUState *c)
NONE(fmi3GetDirectionalDerivative, const fmi3ValueReference *a, size_t b, const fmi3ValueReference *c, size_t d,
     const fmi3Float64 *e, size_t f, fmi3Float64 *g, size_t h)
NONE(fmi3GetAdjointDerivative, const fmi3ValueReference *a, size_t b, const fmi3ValueReference *c, size_t d,
     const fmi3Float64 *e, size_t f, fmi3Float64 *g, size_t h)
NONE(fmi3EnterConfigurationMode)
NONE(fmi3ExitConfigurationMode)
NONE(fmi3GetIntervalDecimal, const fmi3ValueReference *a, size_t b, fmi3Float64 *c, fmi3IntervalQualifier *d)
NONE(fmi3GetIntervalFraction, const fmi3ValueReference *a, size_t b, fmi3UInt64 *c, fmi3UInt64 *d, fmi3IntervalQualifier *e)
NONE(fmi3GetShiftDecimal, const fmi3ValueReference *a, size_t b, fmi3Float64 *c)
NONE(fmi3GetShiftFraction, const fmi3ValueReference *a, size_t b, fmi3UInt64 *c, fmi3UInt64 *d)
NONE(fmi3SetIntervalDecimal, const fmi3ValueReference *a, size_t b, const fmi3Float64 *c)
NONE(fmi3SetIntervalFraction, const fmi3ValueReference *a, size_t b, const fmi3UInt64 *c, const fmi3UInt64 *d)
NONE(fmi3SetShiftDecimal, const fmi3ValueReference *a, size_t b, const fmi3Float64 *c)
NONE(fmi3SetShiftFraction, const fmi3ValueReference *a, size_t b, const fmi3UInt64 *c, const fmi3UInt64 *d)
NONE(fmi3EvaluateDiscreteStates)
NONE(fmi3UpdateDiscreteStates, fmi3Boolean *a, fmi3Boolean *b, fmi3Boolean *c, fmi3Boolean *d, fmi3Boolean *e, fmi3Float64 *f)
NONE(fmi3EnterEventMode)
NONE(fmi3EnterStepMode)
NONE(fmi3GetOutputDerivatives, const fmi3ValueReference *a, size_t b, const fmi3Int32 *c, fmi3Float64 *d, size_t e)
NONE(fmi3EnterContinuousTimeMode)
NONE(fmi3CompletedIntegratorStep, fmi3Boolean a, fmi3Boolean *b, fmi3Boolean *c)
NONE(fmi3SetTime, fmi3Float64 a)
NONE(fmi3SetContinuousStates, const fmi3Float64 *a, size_t b)
NONE(fmi3GetContinuousStateDerivatives, fmi3Float64 *a, size_t b)
NONE(fmi3GetEventIndicators, fmi3Float64 *a, size_t b)
NONE(fmi3GetContinuousStates, fmi3Float64 *a, size_t b)
NONE(fmi3GetNominalsOfContinuousStates, fmi3Float64 *a, size_t b)
NONE(fmi3GetNumberOfEventIndicators, size_t *a)
NONE(fmi3GetNumberOfContinuousStates, size_t *a)
NONE(fmi3ActivateModelPartition, fmi3ValueReference a, fmi3Float64 b)
FMI fmi3Instance fmi3InstantiateModelExchange(fmi3String a, fmi3String b, fmi3String c, fmi3Boolean d, fmi3Boolean e,
                                              fmi3InstanceEnvironment f, fmi3LogMessageCallback g) {
    return NULL;
}
FMI fmi3Instance fmi3InstantiateScheduledExecution(fmi3String a, fmi3String b, fmi3String c, fmi3Boolean d, fmi3Boolean e,
                                                   fmi3InstanceEnvironment f, fmi3LogMessageCallback g,
                                                   fmi3ClockUpdateCallback h, fmi3LockPreemptionCallback i,
                                                   fmi3UnlockPreemptionCallback j) {
    return NULL;
}
#pragma GCC diagnostic pop
