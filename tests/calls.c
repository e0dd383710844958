/* What include/eon.h says of calls from C and no other test makes: null with length 0, parts that reach beyond their slice, memory of
 * the size that its macros name. Ends by 0, or says the line whose test fails. */
#include <stdio.h>
#include <stdlib.h>
#include <string.h>

#include "eon.h"

#define BYTES(s) (const uint8_t *)(s), strlen(s)

static eon_answer answer;

static void expect(bool holds, int line) {
    if (!holds) {
        fprintf(stderr, "calls.c:%d: not as the header says\n", line);
        exit(1);
    }
}

#define EXPECT(holds) expect(holds, __LINE__)

static bool refused_by(enum eon_refusal number) { return answer.number == number; }

static bool answered(uint64_t value) { return answer.number == 0 && answer.value == value; }

static bool stands(uint64_t slice, uint64_t from, uint64_t value) {
    return answered(value) && answer.slice == slice && answer.from == from;
}

static void null_with_length_0(void) {
    uint32_t table[EON_TABLE_WORDS(0)] = {0};
    uint8_t out[1] = {0};
    eon_read(NULL, 0, NULL, 0, &answer);
    EXPECT(refused_by(EON_NO_SPACE));
    eon_read(NULL, 0, table, EON_TABLE_WORDS(0), &answer);
    EXPECT(answered(1) && table[0] == EON_RECORD_MAP);
    eon_format(NULL, 0, table, EON_TABLE_WORDS(0), NULL, 0, NULL, 0, NULL, 0, NULL, 0, false, NULL, 0, &answer);
    EXPECT(answered(0));
    eon_format(NULL, 0, NULL, 0, EON_DEFAULT_SETTINGS, NULL, 0, &answer);
    EXPECT(refused_by(EON_STALE));
    eon_reformat(NULL, 0, NULL, 0, NULL, 0, NULL, 0, NULL, 0, NULL, 0, true, NULL, 0, &answer);
    EXPECT(refused_by(EON_NO_SPACE));
    eon_compare(NULL, 0, table, EON_TABLE_WORDS(0), NULL, 0, table, EON_TABLE_WORDS(0), &answer);
    EXPECT(answered(1));
    eon_compare(NULL, 0, NULL, 0, NULL, 0, NULL, 0, &answer);
    EXPECT(refused_by(EON_STALE));
    eon_record_at(NULL, 0, table, EON_TABLE_WORDS(0), 0, &answer);
    EXPECT(refused_by(EON_NO_BYTE));
    eon_record_at(NULL, 0, NULL, 0, 0, &answer);
    EXPECT(refused_by(EON_STALE));
    eon_records_in(NULL, 0, table, EON_TABLE_WORDS(0), 0, 1, NULL, 0, &answer);
    EXPECT(answered(0));
    eon_records_in(NULL, 0, NULL, 0, 0, 1, NULL, 0, &answer);
    EXPECT(refused_by(EON_STALE));
    eon_unquote(NULL, 0, NULL, 0, &answer);
    EXPECT(refused_by(EON_NO_OPENING_QUOTE));
    eon_unquote(BYTES("'a'"), NULL, 0, &answer);
    EXPECT(stands(0, 1, 1));
    eon_show(NULL, 0, NULL, 0, 0, 0, 0, &answer);
    EXPECT(stands(0, 0, 0));
    eon_show(NULL, 0, out, sizeof out, 1, 0, 1, &answer);
    EXPECT(stands(1, 0, 1));
    EXPECT(!eon_is_valid_identifier(NULL, 0));
}

static void shown(void) {
    const uint8_t scratch[4] = "abc";
    eon_show(BYTES("'a b'"), scratch, 4, 0, 1, 3, &answer);
    EXPECT(stands(0, 1, 3));
    eon_show(BYTES("'a b'"), scratch, 4, 1, 1, 3, &answer);
    EXPECT(stands(1, 1, 3));
    eon_show(BYTES("'a b'"), scratch, 4, 1, 2, 3, &answer);
    EXPECT(stands(0, 0, 0));
    eon_show(BYTES("'a b'"), scratch, 4, 0, 5, 1, &answer);
    EXPECT(stands(0, 0, 0));
    eon_show(BYTES("'a b'"), scratch, 4, 1, SIZE_MAX, SIZE_MAX, &answer);
    EXPECT(stands(0, 0, 0));
    eon_show(BYTES("'a b'"), scratch, 4, 1, 9, 0, &answer);
    EXPECT(stands(0, 0, 0));
}

/* Of values of one byte, with brackets between them, inside 63 lists, over 40 bytes are written for each that is read. */
static void rooms(void) {
    static uint8_t text[EON_MAX_TEXT], out[EON_LAYOUT_BYTES(EON_MAX_TEXT)];
    static uint32_t table[EON_TABLE_WORDS(EON_MAX_TEXT)];
    size_t depth = 63, n = sizeof text;
    memset(text, '[', depth);
    for (size_t i = depth; i < n; i++) text[i] = "1[]"[i % 3];
    memset(text + n - depth, ']', depth);
    eon_reformat(text, n, table, EON_TABLE_WORDS(n), EON_DEFAULT_SETTINGS, out, EON_LAYOUT_BYTES(n), &answer);
    EXPECT(answer.number == 0 && answer.value > 40 * n);
    eon_unquote(BYTES("\"\\u{e9}\\n\r\""), out, EON_SCRATCH_BYTES(11), &answer);
    EXPECT(stands(1, 0, 3) && memcmp(out, "\xC3\xA9\n", 3) == 0);
}

int main(void) {
    null_with_length_0();
    shown();
    rooms();
    return 0;
}
