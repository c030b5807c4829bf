/* texts.h: files, read whole, for the tests and examples. */
#ifndef VANTULIG_TEXTS_H
#define VANTULIG_TEXTS_H
#include "junction.h"
#include <stdio.h>
#include <stdlib.h>
#include <string.h>

static int wrong;
static inline void check(int is, const char *what) {
    if (!is) printf("WRONG: %s\n", what), wrong = 1;
}

/* a file's bytes, in a block exactly as long, so that a sanitizer sees one byte too far */
static inline struct junction_text read_text(const char *path) {
    FILE *file = fopen(path, "rb");
    if (!file) perror(path), exit(3);
    fseek(file, 0, SEEK_END);
    size_t length = (size_t)ftell(file);
    rewind(file);
    uint8_t *bytes = malloc(length ? length : 1);
    if (!bytes || fread(bytes, 1, length, file) != length) perror(path), exit(3);
    fclose(file);
    return (struct junction_text){bytes, length};
}

static inline struct junction_texts read_texts(char **paths) {
    return (struct junction_texts){read_text(paths[0]), read_text(paths[1]), read_text(paths[2]), read_text(paths[3])};
}

static inline void free_texts(struct junction_texts texts) {
    free((void *)texts.program.bytes), free((void *)texts.plan.bytes), free((void *)texts.times.bytes),
        free((void *)texts.intergreens.bytes);
}
#endif
