/* lookup EVENT PATHS: looks the paths of the second file up in the first, and prints for each the text of a value that it reaches, or
 * `none`, and then the steps; or says why a file is refused, where, and ends with 1.
 *
 *   (cd crates/eon_c && rt lib)
 *   cc -std=c11 -Iinclude -o lookup examples/c/lookup.c crates/eon_c/out/libeon_c.a
 */
#include <inttypes.h>
#include <stdio.h>
#include <stdlib.h>

#include "eon.h"

/* One byte more than is read, so that a longer file is refused as what it is. */
enum { ROOM = EON_MAX_TEXT + 1, WORDS = EON_TABLE_WORDS(EON_MAX_TEXT) };

/* A file's text with its table. */
struct file {
    const char *path;
    uint8_t text[ROOM];
    size_t len;
    uint32_t table[WORDS];
    size_t records;
};

static int failed(const char *path) {
    perror(path);
    return EXIT_FAILURE;
}

static int refused(const struct file *file, const eon_answer *answer) {
    fputs(file->path, stderr);
    if (answer->number < EON_NO_SPACE) {
        eon_line_column place = eon_line_column_of(file->text, file->len, answer->start);
        fprintf(stderr, ":%zu:%zu", place.line, place.column);
    }
    fprintf(stderr, ": %s\n", eon_refusal_word(answer->number));
    return EXIT_FAILURE;
}

static int load(struct file *file, const char *path) {
    file->path = path;
    FILE *stream = fopen(path, "rb");
    if (stream == NULL) return failed(path);
    file->len = fread(file->text, 1, sizeof file->text, stream);
    int status = ferror(stream) ? failed(path) : EXIT_SUCCESS;
    fclose(stream);
    if (status != EXIT_SUCCESS) return status;
    eon_answer answer = {0};
    eon_read(file->text, file->len, file->table, WORDS, &answer);
    file->records = answer.value;
    return answer.number == 0 ? EXIT_SUCCESS : refused(file, &answer);
}

/* Of a list of paths each list but the first is a path. */
static size_t paths_in(const struct file *paths) {
    size_t lists = 0;
    for (size_t i = 0; i < paths->records; i++) lists += paths->table[EON_RECORD_WORDS * i] == EON_RECORD_LIST;
    return lists - 1;
}

static void print(const struct file *event, uint32_t number) {
    if (number == EON_NONE) {
        puts("none");
        return;
    }
    const uint32_t *record = event->table + EON_RECORD_WORDS * number;
    uint32_t start = record[1], end = record[3];
    fwrite(event->text + start, 1, end - start, stdout);
    putchar('\n');
}

/* Both tables are finished, so that only the form of the paths can be refused. */
static int lookup(const struct file *event, const struct file *paths) {
    uint32_t answers[EON_PATHS_MAX] = {0};
    eon_answer answer = {0};
    eon_lookup(event->text, event->len, event->table, WORDS, paths->text, paths->len, paths->table, WORDS, answers, &answer);
    if (answer.number != 0) return refused(paths, &answer);
    size_t count = paths_in(paths);
    for (size_t i = 0; i < count; i++) print(event, answers[i]);
    printf("steps: %" PRIu64 "\n", answer.value);
    return fflush(stdout) == 0 && !ferror(stdout) ? EXIT_SUCCESS : failed("standard output");
}

int main(int count, char **arguments) {
    static struct file event, paths;
    if (count != 3) {
        fputs("usage: lookup EVENT PATHS\n", stderr);
        return EXIT_FAILURE;
    }
    if (load(&event, arguments[1]) != EXIT_SUCCESS || load(&paths, arguments[2]) != EXIT_SUCCESS) return EXIT_FAILURE;
    return lookup(&event, &paths);
}
