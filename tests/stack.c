/* Makes each call in a thread whose stack is as large as include/eon.h says that the call needs, on the texts that need most: each
 * kind of container nested as deep as is read and one deeper, at every edge of the lengths that the header names.
 *
 *   stack           ends by 0 if every call comes back, and is killed otherwise
 *   stack measure   prints for each length and call the least stack, in KB, with which every call comes back
 */
#include <pthread.h>
#include <stdio.h>
#include <string.h>
#include <sys/wait.h>
#include <unistd.h>

#include "eon.h"

enum {
    DEEPEST = 64,
    STEP = 4,        /* KB: a stack is whole pages */
    LEAST = 16,      /* KB: no thread has less */
    MOST = 4096,     /* KB */
    GUARD = 8 << 20, /* wider than any frame, so that no frame leaps over it */
    THREAD = 10      /* KB that a thread takes for itself */
};

static uint8_t text[EON_MAX_TEXT];
static size_t length;
static uint32_t table[EON_TABLE_WORDS(EON_MAX_TEXT)];
static uint8_t out[EON_LAYOUT_BYTES(EON_MAX_TEXT)];
static eon_hit hits[EON_HITS(EON_MAX_TEXT)];
static uint32_t answers[EON_PATHS_MAX];
static eon_answer answer;

/* As deep as a path goes, into the nested maps. */
static const uint8_t PATHS[] = "[[a a a a a a a a]]";
static uint32_t paths_table[EON_TABLE_WORDS(sizeof PATHS)];

#define TABLE table, sizeof table / sizeof *table
#define PATHS_TABLE paths_table, sizeof paths_table / sizeof *paths_table

static void *read_it(void *unused) {
    eon_read(text, length, TABLE, &answer);
    return unused;
}

static void *format_it(void *unused) {
    eon_format(text, length, TABLE, EON_DEFAULT_SETTINGS, out, sizeof out, &answer);
    return unused;
}

static void *reformat_it(void *unused) {
    eon_reformat(text, length, TABLE, EON_DEFAULT_SETTINGS, out, sizeof out, &answer);
    return unused;
}

static void *compare_it(void *unused) {
    eon_compare(text, length, TABLE, text, length, TABLE, &answer);
    return unused;
}

static void *record_at_it(void *unused) {
    eon_record_at(text, length, TABLE, length / 2, &answer);
    return unused;
}

static void *records_in_it(void *unused) {
    eon_records_in(text, length, TABLE, 0, length, hits, sizeof hits / sizeof *hits, &answer);
    return unused;
}

/* The deepest check of both tables, and the deepest walk. */
static void *lookup_it(void *unused) {
    eon_lookup(text, length, TABLE, text, length, TABLE, answers, &answer);
    eon_lookup(text, length, TABLE, PATHS, sizeof PATHS - 1, PATHS_TABLE, answers, &answer);
    return unused;
}

static void *unquote_it(void *unused) {
    eon_unquote(text, length, out, sizeof out, &answer);
    return unused;
}

static void *show_it(void *unused) {
    eon_show(text, length, out, sizeof out, 1, 0, length, &answer);
    return unused;
}

static void *identify_it(void *unused) {
    answer.value = eon_is_valid_identifier(text, length);
    return unused;
}

/* What the header states for a small text, a middling one, and any other. */
static const struct call {
    const char *name;
    void *(*make)(void *);
    size_t small, medium, large;
} CALLS[] = {
    {"read", read_it, EON_STACK_READ, EON_STACK_READ, EON_STACK_READ},
    {"format", format_it, EON_STACK_FORMAT, EON_STACK_FORMAT, EON_STACK_FORMAT},
    {"reformat", reformat_it, EON_STACK_REFORMAT_SMALL, EON_STACK_REFORMAT_MEDIUM, EON_STACK_REFORMAT},
    {"compare", compare_it, EON_STACK_COMPARE, EON_STACK_COMPARE, EON_STACK_COMPARE},
    {"record_at", record_at_it, EON_STACK_RECORD_AT, EON_STACK_RECORD_AT, EON_STACK_RECORD_AT},
    {"records_in", records_in_it, EON_STACK_RECORDS_IN, EON_STACK_RECORDS_IN, EON_STACK_RECORDS_IN},
    {"lookup", lookup_it, EON_STACK_LOOKUP, EON_STACK_LOOKUP, EON_STACK_LOOKUP},
    {"unquote", unquote_it, EON_STACK_OTHERS, EON_STACK_OTHERS, EON_STACK_OTHERS},
    {"show", show_it, EON_STACK_OTHERS, EON_STACK_OTHERS, EON_STACK_OTHERS},
    {"is_valid_identifier", identify_it, EON_STACK_OTHERS, EON_STACK_OTHERS, EON_STACK_OTHERS},
};

/* In KB. */
static size_t stated(const struct call *call, size_t size) {
    if (size <= EON_SMALL_TEXT) return call->small >> 10;
    return (size <= EON_MEDIUM_TEXT ? call->medium : call->large) >> 10;
}

static void in_thread(const struct call *call, size_t kilobytes) {
    pthread_attr_t attributes;
    pthread_t thread;
    if (pthread_attr_init(&attributes) != 0 || pthread_attr_setstacksize(&attributes, kilobytes << 10) != 0 ||
        pthread_attr_setguardsize(&attributes, GUARD) != 0 ||
        pthread_create(&thread, &attributes, call->make, NULL) != 0 || pthread_join(thread, NULL) != 0 ||
        pthread_attr_destroy(&attributes) != 0) {
        fputs("stack: no thread\n", stderr);
        _exit(1);
    }
}

static void put(const char *part) {
    size_t n = strlen(part);
    memcpy(text + length, part, n);
    length += n;
}

/* How each kind of container is nested, comments around it too, and what stands innermost. */
static const struct nest {
    int containers;
    const char *open, *close;
} NESTS[] = {
    {1, "[", "]"},        {1, "{a:", "}"},        {1, "{", ":1}"},
    {1, "\"A\"(", ")"},   {2, "\"A\"([", "])"},   {2, "\"A\"({a:", "})"},
    {1, "//c\n[1//c\n", "//c\n]"},
};

static const char *const INNERS[] = {"[]", "1", "1 2 3 4 5"};

/* So many containers in one another, and blanks up to the size; a shorter text is cut off. */
static void nested(const struct nest *nest, const char *inner, int containers, size_t size) {
    length = 0;
    for (int i = 0; i < containers; i += nest->containers) put(nest->open);
    put(inner);
    for (int i = 0; i < containers; i += nest->containers) put(nest->close);
    if (length < size) memset(text + length, ' ', size - length);
    length = size;
}

/* A string that has to be unescaped, which the calls on trees read too. */
static void quoted(size_t size) {
    memset(text, 'a', size);
    length = size;
    if (size < 4) return;
    memcpy(text, "\"\\t", 3);
    text[size - 1] = '"';
}

/* The table is finished where the text is read. */
static void make(const struct call *call, size_t kilobytes) {
    eon_read(text, length, TABLE, &answer);
    in_thread(call, kilobytes);
}

static void each_text(const struct call *call, size_t size, size_t kilobytes) {
    for (size_t nest = 0; nest < sizeof NESTS / sizeof *NESTS; nest++) {
        for (size_t inner = 0; inner < sizeof INNERS / sizeof *INNERS; inner++) {
            for (int containers = DEEPEST - 2; containers <= DEEPEST; containers++) {
                nested(&NESTS[nest], INNERS[inner], containers, size);
                make(call, kilobytes);
            }
        }
    }
    quoted(size);
    make(call, kilobytes);
}

/* In a process of its own, which has no larger stack of an earlier thread to use again. */
static bool comes_back(const struct call *call, size_t size, size_t kilobytes) {
    int status;
    fflush(stdout);
    pid_t child = fork();
    if (child == 0) {
        each_text(call, size, kilobytes);
        _exit(0);
    }
    return child > 0 && waitpid(child, &status, 0) == child && status == 0;
}

static size_t least(const struct call *call, size_t size) {
    size_t low = LEAST - STEP, high = MOST;
    while (low + STEP < high) {
        size_t middle = (low + high) / 2 / STEP * STEP;
        if (comes_back(call, size, middle)) {
            high = middle;
        } else {
            low = middle;
        }
    }
    return high;
}

int main(int count, char **arguments) {
    static const size_t SIZES[] = {0, EON_SMALL_TEXT, EON_SMALL_TEXT + 1, EON_MEDIUM_TEXT, EON_MEDIUM_TEXT + 1, EON_MAX_TEXT};
    bool measure = count > 1 && strcmp(arguments[1], "measure") == 0;
    eon_read(PATHS, sizeof PATHS - 1, PATHS_TABLE, &answer);
    for (size_t size = 0; size < sizeof SIZES / sizeof *SIZES; size++) {
        for (size_t call = 0; call < sizeof CALLS / sizeof *CALLS; call++) {
            if (measure) {
                printf("%zu\t%s\t%zu\n", SIZES[size], CALLS[call].name, least(&CALLS[call], SIZES[size]));
            } else {
                each_text(&CALLS[call], SIZES[size], stated(&CALLS[call], SIZES[size]) + THREAD);
            }
        }
    }
    return 0;
}
