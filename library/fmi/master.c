/* master SO TOKEN RESOURCES/ DETECTORS LOG: plays a detector file by a unit of FMI 3.0 and compares its records with LOG. */
#include "fmi3.h"
#include <dlfcn.h>
#include <stdarg.h>
#include <stdio.h>
#include <stdlib.h>
#include <string.h>

static void *unit;
static void *call(const char *name) {
    void *f = dlsym(unit, name);
    if (!f) {
        printf("WRONG: %s is not there\n", name);
        exit(1);
    }
    return f;
}
static int wrong, logged;
static void check(int is, const char *what) {
    if (!is) {
        printf("WRONG: %s\n", what);
        wrong = 1;
    }
}
static void log_message(fmi3InstanceEnvironment e, fmi3Status s, fmi3String c, fmi3String m) {
    (void)e;
    (void)c;
    (void)m;
    logged += s != fmi3OK;
}

typedef fmi3Instance (*Instantiate)(fmi3String, fmi3String, fmi3String, fmi3Boolean, fmi3Boolean, fmi3Boolean, fmi3Boolean,
                                    const fmi3ValueReference *, size_t, fmi3InstanceEnvironment, fmi3LogMessageCallback,
                                    fmi3IntermediateUpdateCallback);
typedef fmi3Status (*Plain)(fmi3Instance);
typedef fmi3Status (*Enter)(fmi3Instance, fmi3Boolean, fmi3Float64, fmi3Float64, fmi3Boolean, fmi3Float64);
typedef fmi3Status (*Step)(fmi3Instance, fmi3Float64, fmi3Float64, fmi3Boolean, fmi3Boolean *, fmi3Boolean *, fmi3Boolean *,
                           fmi3Float64 *);
typedef fmi3Status (*SetWords)(fmi3Instance, const fmi3ValueReference *, size_t, const fmi3UInt32 *, size_t);
typedef fmi3Status (*GetWords)(fmi3Instance, const fmi3ValueReference *, size_t, fmi3UInt32 *, size_t);
typedef fmi3Status (*GetBytes)(fmi3Instance, const fmi3ValueReference *, size_t, fmi3UInt8 *, size_t);
typedef fmi3Status (*GetBooleans)(fmi3Instance, const fmi3ValueReference *, size_t, fmi3Boolean *, size_t);
typedef fmi3Status (*GetStrings)(fmi3Instance, const fmi3ValueReference *, size_t, fmi3String *, size_t);
static Instantiate instantiate;
static Plain leave, terminate, reset;
static Enter enter;
static Step step;
static SetWords set;
static GetWords words;
static GetBytes bytes;
static GetBooleans booleans;
static GetStrings strings;

static fmi3Status one(fmi3Instance u, double t, double size, double *last) {
    bool events = true, ends = true, early = true;
    fmi3Status s = step(u, t, size, true, &events, &ends, &early, last);
    check(!events && !ends && !early, "the flags of a step");
    return s;
}

static double seconds_of(fmi3Instance u) {
    fmi3ValueReference r[1] = {3};
    fmi3UInt32 s[1];
    check(words(u, r, 1, s, 1) == fmi3OK, "second");
    return s[0];
}

/* the log of a detector file */
static char *play(fmi3Instance u, FILE *detectors, long *seconds) {
    char *text, line[4096];
    size_t length;
    FILE *out = open_memstream(&text, &length);
    fmi3ValueReference header[1] = {18}, record[1] = {19}, inputs[2] = {1, 2};
    fmi3String s[1];
    double last;
    check(enter(u, false, 0, 0, false, 0) == fmi3OK && leave(u) == fmi3OK, "initialization");
    check(strings(u, header, 1, s, 1) == fmi3OK, "the header");
    fprintf(out, "%s\n", s[0]);
    rewind(detectors);
    for (*seconds = 0; fgets(line, sizeof line, detectors); ++*seconds) {
        fmi3UInt32 counts[128] = {0};
        unsigned d, f, r;
        int n;
        for (char *at = line; sscanf(at, " %u:%u:%u%n", &d, &f, &r, &n) == 3; at += n) counts[d - 1] = f, counts[63 + d] = r;
        check(set(u, inputs, 2, counts, 128) == fmi3OK, "the inputs");
        check(one(u, (double)*seconds, 1, &last) == fmi3OK && last == (double)*seconds + 1, "a step");
        check(strings(u, record, 1, s, 1) == fmi3OK, "the record");
        fprintf(out, "%s\n", s[0]);
    }
    fclose(out);
    return text;
}

int main(int n, char **given) {
    if (n != 6) return 2;
    unit = dlopen(given[1], RTLD_NOW | RTLD_LOCAL);
    if (!unit) {
        puts(dlerror());
        return 1;
    }
    static const char *const all[] = {"GetVersion",
                                      "SetDebugLogging",
                                      "InstantiateModelExchange",
                                      "InstantiateCoSimulation",
                                      "InstantiateScheduledExecution",
                                      "FreeInstance",
                                      "EnterInitializationMode",
                                      "ExitInitializationMode",
                                      "EnterEventMode",
                                      "Terminate",
                                      "Reset",
                                      "GetFloat32",
                                      "GetFloat64",
                                      "GetInt8",
                                      "GetUInt8",
                                      "GetInt16",
                                      "GetUInt16",
                                      "GetInt32",
                                      "GetUInt32",
                                      "GetInt64",
                                      "GetUInt64",
                                      "GetBoolean",
                                      "GetString",
                                      "GetBinary",
                                      "GetClock",
                                      "SetFloat32",
                                      "SetFloat64",
                                      "SetInt8",
                                      "SetUInt8",
                                      "SetInt16",
                                      "SetUInt16",
                                      "SetInt32",
                                      "SetUInt32",
                                      "SetInt64",
                                      "SetUInt64",
                                      "SetBoolean",
                                      "SetString",
                                      "SetBinary",
                                      "SetClock",
                                      "GetNumberOfVariableDependencies",
                                      "GetVariableDependencies",
                                      "GetFMUState",
                                      "SetFMUState",
                                      "FreeFMUState",
                                      "SerializedFMUStateSize",
                                      "SerializeFMUState",
                                      "DeserializeFMUState",
                                      "GetDirectionalDerivative",
                                      "GetAdjointDerivative",
                                      "EnterConfigurationMode",
                                      "ExitConfigurationMode",
                                      "GetIntervalDecimal",
                                      "GetIntervalFraction",
                                      "GetShiftDecimal",
                                      "GetShiftFraction",
                                      "SetIntervalDecimal",
                                      "SetIntervalFraction",
                                      "SetShiftDecimal",
                                      "SetShiftFraction",
                                      "EvaluateDiscreteStates",
                                      "UpdateDiscreteStates",
                                      "EnterContinuousTimeMode",
                                      "CompletedIntegratorStep",
                                      "SetTime",
                                      "SetContinuousStates",
                                      "GetContinuousStateDerivatives",
                                      "GetEventIndicators",
                                      "GetContinuousStates",
                                      "GetNominalsOfContinuousStates",
                                      "GetNumberOfEventIndicators",
                                      "GetNumberOfContinuousStates",
                                      "EnterStepMode",
                                      "GetOutputDerivatives",
                                      "DoStep",
                                      "ActivateModelPartition"};
    for (size_t i = 0; i < sizeof all / sizeof *all; i++) {
        char name[64] = "fmi3";
        call(strcat(name, all[i]));
    }
    instantiate = (Instantiate)call("fmi3InstantiateCoSimulation"), enter = (Enter)call("fmi3EnterInitializationMode");
    leave = (Plain)call("fmi3ExitInitializationMode"), terminate = (Plain)call("fmi3Terminate"),
    reset = (Plain)call("fmi3Reset");
    step = (Step)call("fmi3DoStep"), set = (SetWords)call("fmi3SetUInt32"), words = (GetWords)call("fmi3GetUInt32");
    bytes = (GetBytes)call("fmi3GetUInt8"), booleans = (GetBooleans)call("fmi3GetBoolean"),
    strings = (GetStrings)call("fmi3GetString");
    void (*release)(fmi3Instance) = (void (*)(fmi3Instance))call("fmi3FreeInstance");
    check(!strcmp(((const char *(*)(void))call("fmi3GetVersion"))(), "3.0"), "the version");

    check(!instantiate("a", "another", given[3], false, false, false, false, NULL, 0, NULL, log_message, NULL),
          "a wrong token");
    check(!instantiate("a", given[2], "/nowhere/", false, false, false, false, NULL, 0, NULL, log_message, NULL),
          "no resources");
    check(logged == 2, "both are logged");
    fmi3Instance u = instantiate("a", given[2], given[3], false, false, false, false, NULL, 0, NULL, log_message, NULL);
    fmi3Instance v = instantiate("b", given[2], given[3], false, false, false, false, NULL, 0, NULL, log_message, NULL);
    if (!u || !v) {
        puts("WRONG: no instance");
        return 1;
    }
    fmi3ValueReference aspects[2] = {5, 4};
    fmi3UInt8 shown[65];
    check(bytes(u, aspects, 2, shown, 65) == fmi3OK && shown[0] == 'R' && shown[64] >= 1 && shown[shown[64] - 1] == 'R' &&
              !shown[63],
          "all red before the first second");
    check(bytes(u, aspects, 2, shown, 64) == fmi3Error && bytes(u, aspects, 1, shown, 65) == fmi3Error,
          "too few and too many values");
    double last;
    check(one(u, 0, 1, &last) == fmi3Error, "a step before initialization");

    FILE *detectors = fopen(given[4], "r"), *file = fopen(given[5], "r");
    if (!detectors || !file) {
        perror("files");
        return 3;
    }
    long seconds, again;
    char *log = play(u, detectors, &seconds), *wanted;
    size_t length;
    FILE *copy = open_memstream(&wanted, &length);
    for (int c; (c = getc(file)) != EOF;) putc(c, copy);
    fclose(copy);
    check(!strcmp(log, wanted), "the log of the run, byte for byte");
    check(seconds_of(u) == (double)seconds && seconds_of(v) == 0, "two instances do not meddle");

    /* steps that are refused, and counts that are not taken, change nothing */
    double now = (double)seconds;
    fmi3ValueReference rears[1] = {2}, taken[1] = {17};
    fmi3UInt32 many[64] = {0};
    bool t[1];
    many[63] = 2147483648u;
    check(one(u, now, 0.5, &last) == fmi3Error && one(u, now + 1, 1, &last) == fmi3Error && last == now,
          "half a step, and one from another time");
    check(set(u, rears, 1, many, 64) == fmi3OK && one(u, now, 1, &last) == fmi3Discard && last == now && seconds_of(u) == now,
          "more rears than fronts");
    check(booleans(u, taken, 1, t, 1) == fmi3OK && !t[0], "it is not taken");
    many[63] = 0;
    check(set(u, rears, 1, many, 64) == fmi3OK && one(u, now, 1, &last) == fmi3OK && last == now + 1,
          "and then another one is");
    check(terminate(u) == fmi3OK && one(u, now + 1, 1, &last) == fmi3Error, "no step after the end");
    check(reset(u) == fmi3OK && seconds_of(u) == 0, "reset");
    char *second = play(u, detectors, &again);
    check(!strcmp(second, wanted), "the same log after a reset");
    release(u), release(v), release(NULL);
    free(log), free(second), free(wanted), fclose(file), fclose(detectors);
    dlclose(unit);
    printf("%ld seconds by fmi3DoStep; %s\n", seconds, wrong ? "WRONG" : "ok");
    return wrong;
}
