/* example PROGRAM PUA TIMES INTERGREENS < DETECTORS: a second for each line, as a line of the log.
 *
 *   cc example.c $(pkg-config --cflags --libs junction) */
#include "junction.h"
#include "junction_log.h"

/* a file, one byte more than a text may have at most: then it is too long */
static struct junction_text read_text(const char *path) {
    FILE *file = fopen(path, "rb");
    if (!file) perror(path), exit(3);
    size_t most = 1048577;
    char *bytes = malloc(most);
    if (!bytes) exit(1);
    size_t length = fread(bytes, 1, most, file);
    fclose(file);
    return (struct junction_text){bytes, length};
}

int main(int count, char **words) {
    if (count != 5) return 2;
    struct junction_texts texts = {read_text(words[1]), read_text(words[2]), read_text(words[3]), read_text(words[4])};
    struct junction *junction;
    struct junction_refusal refusal;
    enum junction_status status = junction_open(&junction, &texts, &refusal);
    if (status == JUNCTION_REFUSED || status == JUNCTION_TOO_LONG) fputs(refusal.note, stderr);
    if (status) return status;
    struct junction_names names;
    junction_take_names(junction, &names);
    junction_put_header(stdout, &names);
    char line[1026];
    while (!status && fgets(line, sizeof line, stdin)) {
        struct junction_counts counts;
        struct junction_told told;
        if (!junction_read_counts(line, &counts))
            status = JUNCTION_NOT_TAKEN;
        else if (!(status = junction_second(junction, &counts, &told)))
            junction_put_second(stdout, junction, &names, &counts, &told);
    }
    junction_close(junction);
    free((void *)texts.program.bytes), free((void *)texts.plan.bytes), free((void *)texts.times.bytes),
        free((void *)texts.intergreens.bytes);
    return status == JUNCTION_NOT_TAKEN ? 6 : (int)status;
}
