/* Many paths looked up at once, from C: what the paper says of small texts, by hand; every form that is no list of paths; the order of
 * refusals; what is written, and what is kept. Ends by 0, or says the line whose test fails and the two texts. */
#include <stdio.h>
#include <stdlib.h>
#include <string.h>

#include "eon.h"

#define LENGTH(list) (sizeof(list) / sizeof *(list))

enum {
    MOST = 2048,  /* bytes of a text */
    PATHS = 4,    /* paths of a row */
    VALUES = 3,   /* values that a path of a row reaches */
    GUARDS = 8,   /* words before and behind the lent ones */
    FILLER = 0xAA /* each byte of the lent words before a call */
};

/* A text with its table. */
struct text {
    char bytes[MOST + 1];
    size_t length, words;
    uint64_t records;
    uint32_t table[EON_TABLE_WORDS(MOST)];
};

static struct text event, paths;
static uint32_t lent[GUARDS + EON_PATHS_MAX + GUARDS];
static uint32_t *const answers = lent + GUARDS;
static eon_answer answer;

#define HANDED(text) (const uint8_t *)(text).bytes, (text).length, (text).table, (text).words

static void expect(bool holds, int line) {
    if (!holds) {
        fprintf(stderr, "lookup.c:%d: not as the header says, on `%s` along `%s`\n", line, event.bytes, paths.bytes);
        exit(1);
    }
}

#define EXPECT(holds) expect(holds, __LINE__)

static bool same(const eon_answer *expected) { return memcmp(&answer, expected, sizeof answer) == 0; }

static bool refused_by(enum eon_refusal number) { return same(&(eon_answer){.number = number}); }

static bool answered(uint64_t steps) { return same(&(eon_answer){.value = steps}); }

/* The table is finished if the text is read; it has words behind its records, which are ignored. */
static void take(struct text *text, const char *bytes) {
    text->length = strlen(bytes);
    text->words = LENGTH(text->table);
    memcpy(text->bytes, bytes, text->length + 1);
    memset(text->table, FILLER, sizeof text->table);
    eon_read(HANDED(*text), &answer);
    text->records = answer.value;
}

static bool keeps(const uint32_t *words, size_t count) {
    for (size_t i = 0; i < count; i++) {
        if (words[i] != FILLER * UINT32_C(0x01010101)) return false;
    }
    return true;
}

static void look_up(void) {
    memset(lent, FILLER, sizeof lent);
    eon_lookup(HANDED(event), HANDED(paths), answers, &answer);
}

/* Refused, with all that was lent as it was. */
static void refused(enum eon_refusal number) {
    look_up();
    EXPECT(refused_by(number) && keeps(lent, LENGTH(lent)));
}

/* Answered, with every answer behind the last path EON_NONE and nothing written beside them. */
static void found(uint64_t steps, size_t count) {
    look_up();
    EXPECT(answered(steps) && steps <= event.records);
    for (size_t i = count; i < EON_PATHS_MAX; i++) EXPECT(answers[i] == EON_NONE);
    EXPECT(keeps(lent, GUARDS) && keeps(answers + EON_PATHS_MAX, GUARDS));
}

#define NOTHING {EON_NONE}

/* For each path the numbers that are right, of which any one may be answered. No path reaches record 0, the root. */
static const struct row {
    const char *event, *paths;
    uint64_t steps;
    uint32_t values[PATHS][VALUES];
} ROWS[] = {
    /* the map is record 0, the key 1, the value 2: three steps */
    {"a:1", "[[a]]", 3, {{2}}},
    /* the list of paths may stand without its brackets */
    {"a:1 b:2", "[a] [b]", 5, {{2}, {4}}},
    /* the answers are in the paths' order, not the event's */
    {"a:1 b:2", "[[b] [a]]", 5, {{4}, {2}}},
    /* a path stands twice: it is answered twice, and its steps count once */
    {"a:1", "[a] [a]", 3, {{2}, {2}}},
    /* zero paths have no front, so that the root's map is not entered */
    {"a:1", "[]", 1, {{0}}},
    {"", "[] // none today", 1, {{0}}},

    /* equal keys: either value is right, and every pair is a step */
    {"a:1 a:2", "[[a]]", 5, {{2, 4}}},
    /* both maps are entered, also where the first of two equal keys leads nowhere, or the last */
    {"a:1 a:{b:2}", "[[a b]]", 7, {{6}}},
    {"a:{b:2} a:1", "[[a b]]", 7, {{4}}},
    {"a:{b:1 b:2} a:{b:3}", "[[a b]]", 11, {{4, 6, 10}}},

    /* quotes are bytes of a key: three keys, none of them another */
    {"a:1 \"a\":2 'a':3", "[a] [\"a\"] ['a']", 7, {{2}, {4}, {6}}},
    {"\"a\":1", "[[a]]", 3, {NOTHING}},
    /* so are escapes: the two strings have the same value */
    {"\"\\u{61}\":1", "[[\"a\"]]", 3, {NOTHING}},
    /* neither is the other's beginning */
    {"ab:1", "[a] [abc] [ab]", 3, {NOTHING, NOTHING, {2}}},
    /* a key of an empty string, and one beyond ASCII */
    {"'':1 \"\xC3\xA9\":2", "[''] [\"\xC3\xA9\"] [\"\"]", 5, {{2}, {4}, NOTHING}},
    /* true, false and null are keys as any identifier */
    {"true:1 null:2", "[true] [null] [false]", 5, {{2}, {4}, NOTHING}},
    /* keys of other kinds match none: a number, a list, a map, a variant */
    {"1:2 [a]:3 {a:4}:5 'a'():6", "[a] ['a']", 9, {NOTHING, NOTHING}},

    /* comments in the path text are ignored, wherever they stand */
    {"a:1", "//x\n[//y\n[//z\na//u\n//k\n]//v\n//w\n]//t", 3, {{2}}},
    /* the event's are records and no steps; the value's own record is meant, not the comment before it */
    {"//p\na//q\n://r\n1//s", "[[a]]", 3, {{5}}},
    {"a: // of the map\n{b: // of the number\n1}", "[a b] [a]", 5, {{6}, {3}}},
    /* nor a comment's bytes: `b` is said and not a key */
    {"a:1 // b:2", "[[b]]", 3, {NOTHING}},

    /* through maps from the root: not through a list, a variant or a key, and not from another root */
    {"a:[{b:1}]", "[[a b]]", 3, {NOTHING}},
    {"a:'v'({b:1})", "[[a b]]", 3, {NOTHING}},
    {"{b:1}:2", "[[b]]", 3, {NOTHING}},
    {"[{a:1}]", "[[a]]", 1, {NOTHING}},
    {"a", "[[a]]", 1, {NOTHING}},
    {"", "[[a]]", 1, {NOTHING}},
    /* the root may have its braces */
    {"{a:{b:1}}", "[[a b]]", 5, {{4}}},
    /* from the root and not from any map */
    {"a:{b:1}", "[[b]]", 3, {NOTHING}},
    /* whatever kind the value is */
    {"a:[1] b:{} c:'v'() d:\"s\"", "[a] [b] [c] [d]", 9, {{2}, {5}, {7}, {9}}},

    /* a path that ends at a map does not enter it; one that another path extends is answered all the same */
    {"a:{b:1}", "[[a]]", 3, {{2}}},
    {"a:{b:1}", "[a] [a b]", 5, {{2}, {4}}},
    {"a:{b:1}", "[a b] [a]", 5, {{4}, {2}}},
    /* a front is reached though its path is not */
    {"a:{b:1}", "[[a c]]", 5, {NOTHING}},
    /* a map that no front reaches is no step within; `d` is a key of the root alone */
    {"a:{b:{c:1}} d:{e:2}", "[[a d]]", 7, {NOTHING}},
    /* a map is entered once, however many paths go through it */
    {"a:{b:1 c:2}", "[a b] [a c] [a d] [a]", 7, {{4}, {6}, NOTHING, {2}}},

    /* eight keys */
    {"a:{b:{c:{d:{e:{f:{g:{h:1}}}}}}}", "[[a b c d e f g h]]", 17, {{16}}},
    {"a:1", "[[a b c d e f g h]]", 3, {NOTHING}},
};

static void rows(void) {
    for (size_t i = 0; i < LENGTH(ROWS); i++) {
        const struct row *row = &ROWS[i];
        take(&event, row->event);
        EXPECT(answer.number == 0);
        take(&paths, row->paths);
        EXPECT(answer.number == 0);
        size_t count = 0;
        while (count < PATHS && row->values[count][0] != 0) count++;
        found(row->steps, count);
        for (size_t path = 0; path < count; path++) {
            bool right = false;
            for (size_t value = 0; value < VALUES; value++) {
                right |= row->values[path][value] != 0 && answers[path] == row->values[path][value];
            }
            EXPECT(right);
        }
    }
}

/* So many paths or pairs, one behind the other, each of its number. */
static void each(struct text *text, const char *format, int first, int count) {
    char bytes[MOST + 1] = "";
    size_t length = 0;
    for (int i = 0; i < count; i++) length += snprintf(bytes + length, sizeof bytes - length, format, first + i, first + i);
    take(text, bytes);
    EXPECT(answer.number == 0);
}

/* As many paths as are taken, each found, and one more. */
static void most_paths(void) {
    each(&event, "k%d:%d ", 0, EON_PATHS_MAX + 1);
    uint64_t steps = 1 + 2 * (EON_PATHS_MAX + 1);
    each(&paths, "[k%d] ", 1, EON_PATHS_MAX);
    found(steps, EON_PATHS_MAX);
    for (uint32_t i = 0; i < EON_PATHS_MAX; i++) EXPECT(answers[i] == 2 * (i + 2));
    each(&paths, "[k%d] ", 1, EON_PATHS_MAX - 1);
    found(steps, EON_PATHS_MAX - 1);
    each(&paths, "[k%d] ", 0, EON_PATHS_MAX + 1);
    refused(EON_NO_PATHS);
    /* found or not, a path counts */
    take(&event, "a:1");
    refused(EON_NO_PATHS);
}

/* Path texts that are read and are no list of paths. */
static const char *const OTHER_FORMS[] = {
    "[a]",                   /* a path, not a list of them */
    "a",                     /* a key alone */
    "1",                     /* a number */
    "'a'",                   /* a string */
    "",                      /* the empty text is a map */
    "// nothing",            /* and this too */
    "{}",                    /* a map */
    "p:[[a]]",               /* another */
    "'x'([a])",              /* a variant around paths */
    "[[]]",                  /* a path has a key */
    "[a] []",                /* each has */
    "[[a b c d e f g h i]]", /* nine keys */
    "[[1]]",                 /* a number is no key */
    "[[a 1]]",               /* nor the second of two */
    "[[[a]]]",               /* nor a list */
    "[[{a:b}]]",             /* nor a map */
    "[['a'()]]",             /* nor a variant */
    "['x'(a)]",              /* a variant is no path */
    "[{a:b}]",               /* nor a map */
    "[[a] b]",               /* nor a key, behind one */
    "[a] [1]",               /* each path has the form */
};

static void other_forms(void) {
    take(&event, "a:1");
    for (size_t i = 0; i < LENGTH(OTHER_FORMS); i++) {
        take(&paths, OTHER_FORMS[i]);
        EXPECT(answer.number == 0);
        refused(EON_NO_PATHS);
    }
}

/* The text is refused by reading, and the lookup refuses it alike, with the table that there is and with none. */
static void refused_alike(struct text *text) {
    eon_answer expected;
    eon_read(HANDED(*text), &expected);
    EXPECT(expected.number != 0);
    look_up();
    EXPECT(same(&expected) && keeps(lent, LENGTH(lent)));
    text->words = 0;
    look_up();
    EXPECT(same(&expected) && keeps(lent, LENGTH(lent)));
}

/* The event's refusals, the path text's, each with 15 behind those of its bytes, and then 28. */
static void order(void) {
    static const char *const UNREAD[] = {"\xC3", "1 #", "[", "[1}", "1}", "a:"};
    for (size_t i = 0; i < LENGTH(UNREAD); i++) {
        for (size_t j = 0; j < LENGTH(UNREAD); j++) {
            take(&event, UNREAD[i]);
            take(&paths, UNREAD[j]);
            refused_alike(&event);
        }
        /* before the path text's 15, and before 28 */
        take(&event, UNREAD[i]);
        take(&paths, "[a]");
        paths.words = 0;
        refused_alike(&event);
        take(&event, UNREAD[i]);
        take(&paths, "[a]");
        refused_alike(&event);
        /* the event's 15 before the path text's own */
        take(&event, "a:1");
        take(&paths, UNREAD[i]);
        event.table[0] ^= 1;
        refused(EON_STALE);
        /* whose place is one in the path text */
        take(&event, "a:1");
        take(&paths, UNREAD[i]);
        refused_alike(&paths);
    }
}

/* Each word of a table counts, and its length; of the path text's also where its form is another. */
static void stale_in(struct text *text) {
    size_t words = EON_RECORD_WORDS * text->records;
    for (size_t i = 0; i < words; i++) {
        text->table[i] ^= 1;
        refused(EON_STALE);
        text->table[i] ^= 1;
    }
    for (text->words = 0; text->words < words; text->words++) refused(EON_STALE);
}

static void stale(void) {
    static const char *const LISTS[] = {"[a] [b 'c'] // two", "[a]", ""};
    for (size_t i = 0; i < LENGTH(LISTS); i++) {
        take(&event, "a:1 b:{'c':[]}");
        take(&paths, LISTS[i]);
        stale_in(&event);
        take(&event, "a:1 b:{'c':[]}");
        stale_in(&paths);
    }
    /* exactly the records suffice */
    take(&paths, "[a] [b 'c']");
    event.words = EON_RECORD_WORDS * event.records;
    paths.words = EON_RECORD_WORDS * paths.records;
    found(7, 2);
    EXPECT(answers[0] == 2 && answers[1] == 6);
}

/* The table of the empty text, which is a map: one record. */
static void null_with_length_0(void) {
    take(&event, "");
    take(&paths, "[[a]]");
    memset(lent, FILLER, sizeof lent);
    eon_lookup(NULL, 0, NULL, 0, NULL, 0, NULL, 0, answers, &answer);
    EXPECT(refused_by(EON_STALE) && keeps(lent, LENGTH(lent)));
    eon_lookup(NULL, 0, event.table, event.words, NULL, 0, NULL, 0, answers, &answer);
    EXPECT(refused_by(EON_STALE) && keeps(lent, LENGTH(lent)));
    eon_lookup(NULL, 0, event.table, event.words, NULL, 0, event.table, event.words, answers, &answer);
    EXPECT(refused_by(EON_NO_PATHS) && keeps(lent, LENGTH(lent)));
    eon_lookup(HANDED(paths), NULL, 0, event.table, event.words, answers, &answer);
    EXPECT(refused_by(EON_NO_PATHS) && keeps(lent, LENGTH(lent)));
    eon_lookup(HANDED(paths), (const uint8_t *)paths.bytes, paths.length, NULL, 0, answers, &answer);
    EXPECT(refused_by(EON_STALE) && keeps(lent, LENGTH(lent)));
    eon_lookup((const uint8_t *)paths.bytes, paths.length, NULL, 0, HANDED(paths), answers, &answer);
    EXPECT(refused_by(EON_STALE) && keeps(lent, LENGTH(lent)));
    eon_lookup(NULL, 0, event.table, event.words, HANDED(paths), answers, &answer);
    EXPECT(answered(1));
    for (size_t i = 0; i < EON_PATHS_MAX; i++) EXPECT(answers[i] == EON_NONE);
}

int main(void) {
    rows();
    other_forms();
    most_paths();
    order();
    stale();
    null_with_length_0();
    return 0;
}
