/* The proved engine of the line language, for C99 and C++. Link target/staticlib/libengine.a.
 * It declares the calls and their answers; what a text, a report and a refusal are is said in the README and in docs/.
 * host/src/lib.rs has the same declarations for Rust.
 * A call needs at most 192 KiB of stack: give a thread that calls no less.
 * What is lent to one call must not overlap: both texts, report and work are places in memory apart. */
#ifndef BAQOLLUY_H
#define BAQOLLUY_H

#include <stdbool.h>
#include <stddef.h>
#include <stdint.h>

#ifdef __cplusplus
extern "C" {
#endif

#define LINE_TEXT_LENGTH 49567   /* longest text, and least length of a buffer to write one in */
#define LINE_INPUT_LENGTH 8382   /* longest second text of a run; a longer one is no list of parts */
#define LINE_REPORT_LENGTH 1056  /* least length of a report buffer */
#define LINE_WORK_LENGTH 163840  /* least length of a work buffer, and what a run leaves zeroed of it */
#define LINE_TABLE_LENGTH 25616  /* the bytes of a class table: docs/TABLE.md */

/* So many characters of what line_show is given decide its answer. */
#define LINE_SHOWN_LENGTH (LINE_TEXT_LENGTH + LINE_INPUT_LENGTH + 1)
#define LINE_VERDICT_LENGTH 9 /* longest verdict line, its LF included */

/* The number in an answer's `refusal`. A refused call writes nothing in what it was lent. */
enum line_refusal {
    LINE_ACCEPTED = 0,
    LINE_BAD_FORM = 1,       /* not the line form, empty, or too long */
    LINE_BAD_FRAME = 2,      /* unknown first byte; tag, count or nesting over its limit; too short or too long */
    LINE_BAD_ORDER = 3,      /* frames out of order, no main, too many classes or methods */
    LINE_BAD_CLASSES = 4,    /* a class or a name against the rules */
    LINE_BAD_OVERRIDE = 5,   /* a method whose types differ from those of the same name above it */
    LINE_BAD_METHOD = 6,     /* a method without a type */
    LINE_BAD_MAIN = 7,       /* a main without a type */
    LINE_BAD_TABLE = 8,      /* a table that no text reads into */
    LINE_SHORT_TEXT = 9,     /* a text buffer under LINE_TEXT_LENGTH */
    LINE_CLOSED = 11,        /* the session is closed */
    LINE_SHORT_REPORT = 12,  /* a report buffer under LINE_REPORT_LENGTH */
    LINE_SHORT_WORK = 13,    /* a work buffer under LINE_WORK_LENGTH */
    LINE_BAD_INPUT = 14,     /* the second text: none where main needs one, one where main takes none, or no list of parts */
    LINE_UNFIT_INPUT = 15    /* parts or numbers that do not fit the places that hold them, or more than 32 distinct parts */
};

typedef struct line_session {
    bool active;
    uint16_t fuel;
} line_session;

typedef struct line_answer {
    uint8_t refusal;
    line_session session; /* the same one if refused */
    uint16_t length;      /* of the report; 0 if refused */
} line_answer;

typedef struct line_closing {
    uint8_t refusal;
    line_session session;
} line_closing;

typedef struct line_verdict {
    uint8_t refusal;
    uint8_t class_number; /* of main; 0 if refused */
    uint8_t tag;
} line_verdict;

typedef struct line_written {
    uint8_t refusal;
    uint16_t length; /* of the text; 0 if refused */
} line_written;

typedef struct line_shown {
    uint8_t refusal;
    uint8_t verdict_length;               /* 0 if refused */
    uint8_t verdict[LINE_VERDICT_LENGTH]; /* unused bytes are 0 */
    uint16_t length;                      /* of the report; 0 if refused, or if the texts are */
} line_shown;

typedef struct line_table {
    uint8_t bytes[LINE_TABLE_LENGTH];
} line_table;

typedef struct line_reading {
    uint8_t refusal;
    line_table table; /* zeros if refused */
} line_reading;

typedef struct line_finding {
    bool found;
    uint8_t owner;  /* the class that has the method itself; 0 if there is none */
    uint8_t method; /* its number among the text's methods, from 0; 0 if there is none */
} line_finding;

/* Sizes and places as the library has them: from C11 and C++11 on, a compiler that lays these structs out otherwise
 * stops here. */
#if defined(__cplusplus) && __cplusplus >= 201103L
#define LINE_ASSERT(fact) static_assert(fact, #fact);
#elif defined(__STDC_VERSION__) && __STDC_VERSION__ >= 201112L
#define LINE_ASSERT(fact) _Static_assert(fact, #fact);
#else
#define LINE_ASSERT(fact)
#endif
LINE_ASSERT(sizeof(line_session) == 4 && offsetof(line_session, active) == 0 && offsetof(line_session, fuel) == 2)
LINE_ASSERT(sizeof(line_answer) == 8 && offsetof(line_answer, refusal) == 0 && offsetof(line_answer, session) == 2 &&
            offsetof(line_answer, length) == 6)
LINE_ASSERT(sizeof(line_closing) == 6 && offsetof(line_closing, refusal) == 0 && offsetof(line_closing, session) == 2)
LINE_ASSERT(sizeof(line_verdict) == 3 && offsetof(line_verdict, refusal) == 0 &&
            offsetof(line_verdict, class_number) == 1 && offsetof(line_verdict, tag) == 2)
LINE_ASSERT(sizeof(line_written) == 4 && offsetof(line_written, refusal) == 0 && offsetof(line_written, length) == 2)
LINE_ASSERT(sizeof(line_shown) == 14 && offsetof(line_shown, refusal) == 0 && offsetof(line_shown, verdict_length) == 1 &&
            offsetof(line_shown, verdict) == 2 && offsetof(line_shown, length) == 12)
LINE_ASSERT(sizeof(line_table) == LINE_TABLE_LENGTH)
LINE_ASSERT(sizeof(line_reading) == 1 + LINE_TABLE_LENGTH && offsetof(line_reading, refusal) == 0 &&
            offsetof(line_reading, table) == 1)
LINE_ASSERT(sizeof(line_finding) == 3 && offsetof(line_finding, found) == 0 && offsetof(line_finding, owner) == 1 &&
            offsetof(line_finding, method) == 2)
#undef LINE_ASSERT

/* Opens a session. Never refused. */
line_session line_open(uint16_t fuel);

/* Closes a session: its fuel becomes 0. Refused: 11. */
line_closing line_close(line_session session);

/* The class table of a text. Refused: 1 to 5. */
line_reading line_read(const uint8_t *text, size_t length);

/* Writes a table's text at the front of the buffer. Refused: 8, then 9. */
line_written line_write(line_table table, uint8_t *buffer, size_t length);

/* Where the method of a name is found from a class: in the class itself, or in the nearest class above it that has one. Any
 * class and name may be asked for. Never refused; of a table that no text reads into, it is what the table's index says. */
line_finding line_find(const line_table *table, uint8_t class_number, uint8_t name);

/* The type of a text's main. Refused: 1 to 7. */
line_verdict line_check(const uint8_t *text, size_t length);

/* Runs a text, types checked first. A main `04` is given the value whose parts the second text lists; a main `03` takes
 * none. NULL with length 0 is no second text, and an empty one counts as none.
 * Refused: 11, 12, 13, then 1 to 7, 14, 15. */
line_answer line_run(const uint8_t *text, size_t text_length, const uint8_t *input, size_t input_length,
                     line_session session, uint8_t *report, size_t report_length, uint8_t *work, size_t work_length);

/* The same without the check of types. Refused: 11, 12, 13, then 1 to 5, 14, 15. */
line_answer line_trial(const uint8_t *text, size_t text_length, const uint8_t *input, size_t input_length,
                       line_session session, uint8_t *report, size_t report_length, uint8_t *work, size_t work_length);

/* What the program `linerun` writes for an input: the verdict line by value and, after `0800`, the report of a checked run
 * with fuel 1,000 at the front of the buffer. The second text is all that follows the first line beginning `04`.
 * Refused: 12, 13. What the texts are refused for stands in the verdict line; then nothing is written. */
line_shown line_show(const uint8_t *input, size_t input_length, uint8_t *report, size_t report_length, uint8_t *work,
                     size_t work_length);

#ifdef __cplusplus
}
#endif

#endif
