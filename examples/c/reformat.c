/* reformat FILE: prints the file laid out, or says why it is refused, where, and ends with 1.
 *
 *   (cd crates/eon_c && rt lib)
 *   cc -std=c11 -Iinclude -o reformat examples/c/reformat.c crates/eon_c/out/libeon_c.a
 */
#include <stdio.h>
#include <stdlib.h>

#include "eon.h"

/* One byte more than is read, so that a longer file is refused as what it is. */
enum { ROOM = EON_MAX_TEXT + 1 };

static int failed(const char *path) {
    perror(path);
    return EXIT_FAILURE;
}

static int refused(const char *path, const uint8_t *text, size_t len, const eon_answer *answer) {
    fputs(path, stderr);
    if (answer->number < EON_NO_SPACE) {
        eon_line_column place = eon_line_column_of(text, len, answer->start);
        fprintf(stderr, ":%zu:%zu", place.line, place.column);
    }
    fprintf(stderr, ": %s\n", eon_refusal_word(answer->number));
    return EXIT_FAILURE;
}

static int reformat(const char *path, const uint8_t *text, size_t len) {
    eon_answer answer = {0};
    uint32_t *table = calloc(EON_TABLE_WORDS(len), sizeof *table);
    uint8_t *out = calloc(EON_LAYOUT_BYTES(len), 1);
    int status;
    if (table == NULL || out == NULL) {
        status = failed(path);
    } else {
        eon_reformat(text, len, table, EON_TABLE_WORDS(len), EON_DEFAULT_SETTINGS, out, EON_LAYOUT_BYTES(len), &answer);
        if (answer.number != 0) {
            status = refused(path, text, len, &answer);
        } else if (fwrite(out, 1, answer.value, stdout) != answer.value || fflush(stdout) != 0) {
            status = failed("standard output");
        } else {
            status = EXIT_SUCCESS;
        }
    }
    free(table);
    free(out);
    return status;
}

int main(int count, char **arguments) {
    static uint8_t text[ROOM];
    if (count != 2) {
        fputs("usage: reformat FILE\n", stderr);
        return EXIT_FAILURE;
    }
    FILE *file = fopen(arguments[1], "rb");
    if (file == NULL) return failed(arguments[1]);
    size_t len = fread(text, 1, sizeof text, file);
    int status = ferror(file) ? failed(arguments[1]) : reformat(arguments[1], text, len);
    fclose(file);
    return status;
}
