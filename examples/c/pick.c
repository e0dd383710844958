/* pick FILE OFFSET: prints the record at a byte offset of the file, its number, kind, span and text; or says why the file is refused,
 * where, and ends with 1.
 *
 *   (cd crates/eon_c && rt lib)
 *   cc -std=c11 -Iinclude -o pick examples/c/pick.c crates/eon_c/out/libeon_c.a
 */
#include <ctype.h>
#include <inttypes.h>
#include <stdio.h>
#include <stdlib.h>

#include "eon.h"

/* One byte more than is read, so that a longer file is refused as what it is. */
enum { ROOM = EON_MAX_TEXT + 1, WORDS = EON_TABLE_WORDS(EON_MAX_TEXT) };

static const char *const KINDS[] = {
    [EON_RECORD_IDENTIFIER] = "identifier",
    [EON_RECORD_NUMBER] = "number",
    [EON_RECORD_STRING] = "string",
    [EON_RECORD_LIST] = "list",
    [EON_RECORD_MAP] = "map",
    [EON_RECORD_VARIANT] = "variant",
    [EON_RECORD_PREFIX_COMMENT] = "prefix comment",
    [EON_RECORD_SUFFIX_COMMENT] = "suffix comment",
    [EON_RECORD_CLOSING_COMMENT] = "closing comment",
};

static int failed(const char *path) {
    perror(path);
    return EXIT_FAILURE;
}

static int usage(void) {
    fputs("usage: pick FILE OFFSET\n", stderr);
    return EXIT_FAILURE;
}

static int refused(const char *path, const uint8_t *text, size_t len, const eon_answer *answer) {
    fputs(path, stderr);
    if (answer->number < EON_NO_SPACE) {
        eon_line_column place = eon_line_column_of(text, len, answer->start);
        fprintf(stderr, ":%zu:%zu", place.line, place.column);
    }
    fprintf(stderr, ": %s\n", eon_refusal_word(answer->number));
    return EXIT_FAILURE;
}

static int print(const uint8_t *text, uint64_t number, const uint32_t *record) {
    uint32_t kind = record[0], start = record[1], text_end = record[2], end = record[3];
    printf("%" PRIu64 " %s %" PRIu32 "..%" PRIu32 ": ", number, KINDS[kind], start, end);
    fwrite(text + start, 1, text_end - start, stdout);
    putchar('\n');
    return fflush(stdout) == 0 && !ferror(stdout) ? EXIT_SUCCESS : failed("standard output");
}

static int pick(const char *path, const uint8_t *text, size_t len, uint64_t offset) {
    static uint32_t table[WORDS];
    eon_answer answer = {0};
    eon_read(text, len, table, WORDS, &answer);
    if (answer.number == 0) eon_record_at(text, len, table, WORDS, offset, &answer);
    if (answer.number != 0) return refused(path, text, len, &answer);
    return print(text, answer.value, table + EON_RECORD_WORDS * answer.value);
}

int main(int count, char **arguments) {
    static uint8_t text[ROOM];
    char *behind;
    if (count != 3 || !isdigit((unsigned char)*arguments[2])) return usage();
    uint64_t offset = strtoull(arguments[2], &behind, 10);
    if (*behind != '\0') return usage();
    FILE *file = fopen(arguments[1], "rb");
    if (file == NULL) return failed(arguments[1]);
    size_t len = fread(text, 1, sizeof text, file);
    int status = ferror(file) ? failed(arguments[1]) : pick(arguments[1], text, len, offset);
    fclose(file);
    return status;
}
