/* The records at a place, from C: every offset and every range of small texts against a plain walk over the table, lists of every
 * length that matters, and the order of refusals. Ends by 0, or says the line whose test fails and the text. */
#include <stdio.h>
#include <stdlib.h>
#include <string.h>

#include "eon.h"

#define LENGTH(list) (sizeof(list) / sizeof *(list))

enum {
    MOST = 64,  /* bytes of a text */
    BEYOND = 8, /* bytes behind it that are tried too */
    NONE = -1
};

/* Texts with bytes that no record covers, before, between and behind; ties; records in one another; and beyond ASCII. */
static const char *const TEXTS[] = {
    "",
    " ",
    "1",
    "1 2",
    "1 //d",
    "1  //d",
    "\n\n7\n\n",
    "a: 1",
    "[[[[1]]]]   // end",
    "    //c\n    {} //d",
    "// round 3\n   [1 2]",
    "a:{b:1 b:2} a:{b:3}",
    "a: 1\n// bye\n\"\xC3\xA9\": 2",
    "x: [1, 'two' //s\n, {k: v}] y: 'V'(1 2)",
    "  //p\n[ 'A'(1 //x\n) //c\n ]   //t\n",
};

static const char *text;
static size_t length, records;
static uint32_t table[EON_TABLE_WORDS(MOST)];
static eon_hit hits[EON_HITS(MOST) + 1];
static eon_answer answer;

#define TEXT (const uint8_t *)text, length
#define TABLE table, LENGTH(table)

static void expect(bool holds, int line) {
    if (!holds) {
        fprintf(stderr, "pick.c:%d: not as the header says, on `%s`\n", line, text);
        exit(1);
    }
}

#define EXPECT(holds) expect(holds, __LINE__)

static bool refused_by(enum eon_refusal number) {
    eon_answer refused = {.number = number};
    return memcmp(&answer, &refused, sizeof answer) == 0;
}

static bool answered(uint64_t value) {
    eon_answer done = {.value = value};
    return memcmp(&answer, &done, sizeof answer) == 0;
}

static void take(const char *taken) {
    text = taken;
    length = strlen(taken);
    memset(table, 0xAA, sizeof table);
    eon_read(TEXT, TABLE, &answer);
    records = answer.value;
}

static eon_hit record(size_t number) {
    const uint32_t *words = table + EON_RECORD_WORDS * number;
    return (eon_hit){number, words[1], words[3]};
}

/* The highest-numbered record that holds the byte. */
static int holder(uint64_t byte) {
    int found = NONE;
    for (size_t i = 0; i < records; i++) {
        if (record(i).start <= byte && byte < record(i).end) found = i;
    }
    return found;
}

/* Outward from the offset a byte at a time. */
static int nearest(uint64_t offset) {
    for (uint64_t distance = 0; distance <= offset + length; distance++) {
        int before = distance <= offset ? holder(offset - distance) : NONE;
        int after = holder(offset + distance);
        if (before != NONE) return before;
        if (after != NONE) return after;
    }
    return NONE;
}

static void at(uint64_t offset, int expected) {
    eon_record_at(TEXT, TABLE, offset, &answer);
    EXPECT(expected == NONE ? refused_by(EON_NO_BYTE) : answered(expected));
}

static void every_offset(void) {
    for (uint64_t offset = 0; offset <= length + BEYOND; offset++) at(offset, nearest(offset));
    at(UINT64_MAX, nearest(length));
}

/* Whether a byte of the record is one of the range's. */
static bool shares(eon_hit found, uint64_t start, uint64_t end) {
    for (uint64_t byte = found.start; byte < found.end; byte++) {
        if (start <= byte && byte < end) return true;
    }
    return false;
}

/* A list of so many hits takes those expected, and keeps the others and all that stand behind it; too short a one keeps all. */
static void into(size_t room, uint64_t start, uint64_t end, const eon_hit *expected, size_t count) {
    eon_hit before[LENGTH(hits)];
    memset(before, 0xAA, sizeof before);
    memcpy(hits, before, sizeof hits);
    eon_records_in(TEXT, TABLE, start, end, room == 0 ? NULL : hits, room, &answer);
    if (room < count) {
        EXPECT(refused_by(EON_NO_SPACE));
    } else {
        EXPECT(answered(count));
        memcpy(before, expected, count * sizeof *expected);
    }
    EXPECT(memcmp(hits, before, sizeof hits) == 0);
}

static void in(uint64_t start, uint64_t end) {
    eon_hit expected[EON_HITS(MOST)] = {{0}};
    size_t count = 0;
    for (size_t i = 0; i < records; i++) {
        if (shares(record(i), start, end)) expected[count++] = record(i);
    }
    into(0, start, end, expected, count);
    if (count > 0) into(count - 1, start, end, expected, count);
    into(count, start, end, expected, count);
    into(count + 1, start, end, expected, count);
    into(EON_HITS(length), start, end, expected, count);
}

static void every_range(void) {
    for (uint64_t start = 0; start <= length + BEYOND; start++) {
        for (uint64_t end = 0; end <= length + BEYOND; end++) in(start, end);
        in(start, UINT64_MAX);
        in(UINT64_MAX, start);
    }
    in(UINT64_MAX, UINT64_MAX);
}

/* Both calls refuse by the number, whatever is lent. */
static void both_refuse(enum eon_refusal number, const uint32_t *handed, size_t words) {
    eon_record_at(TEXT, handed, words, 0, &answer);
    EXPECT(answer.number == number);
    eon_records_in(TEXT, handed, words, 0, UINT64_MAX, NULL, 0, &answer);
    EXPECT(answer.number == number);
}

/* 15 comes before 27 and before 14: each word of a table counts, and its length. */
static void stale(void) {
    size_t words = EON_RECORD_WORDS * records;
    for (size_t i = 0; i < words; i++) {
        table[i] ^= 1;
        both_refuse(EON_STALE, TABLE);
        table[i] ^= 1;
    }
    both_refuse(EON_STALE, table, words - 1);
    both_refuse(EON_STALE, NULL, 0);
}

/* What the paper says of two texts, without the walk: a tie, a held offset, records in one another, a touching end. */
static void by_hand(void) {
    take("1 //d");
    at(1, 0);
    at(2, 1);
    at(UINT64_MAX, 1);
    take("[1, 2]");
    at(0, 0);
    at(1, 1);
    at(2, 0);
    into(3, 0, 4, (eon_hit[]){{0, 0, 6}, {1, 1, 2}}, 2);
    into(3, 4, 5, (eon_hit[]){{0, 0, 6}, {2, 4, 5}}, 2);
    into(3, 5, 4, hits, 0);
}

/* The text's own refusals come before the table's. */
static void refused_texts(void) {
    static const struct {
        const char *text;
        enum eon_refusal number;
    } REFUSED[] = {{"\xC3", EON_GARBLED}, {"#", EON_STRAY}, {"[", EON_CUT_OFF}, {"1}", EON_SURPLUS}};
    for (size_t i = 0; i < LENGTH(REFUSED); i++) {
        take(REFUSED[i].text);
        both_refuse(REFUSED[i].number, TABLE);
        both_refuse(REFUSED[i].number, NULL, 0);
    }
}

int main(void) {
    for (size_t i = 0; i < LENGTH(TEXTS); i++) {
        take(TEXTS[i]);
        EXPECT(answer.number == 0);
        every_offset();
        every_range();
        stale();
    }
    by_hand();
    refused_texts();
    return 0;
}
