/* Every call of baqolluy.h, with each refusal from the state, on case A of document 01, and runs with a second text. It
 * prints the first line that fails. It tests the header and how structs pass, not the language: that is done in reference/differential. */
#include "baqolluy.h"
#include <stdio.h>
#include <string.h>

static const char text[] = "010100010003\n01020000\n02020101030103004402004041\n"
                           "02020201000102004501014401004041\n03440100450200\n";
static const uint8_t *const bytes = (const uint8_t *)text;
static const size_t length = sizeof text - 1;
/* main gives back what it is given: an object with a field of its own class, which may be undetermined */
static const char giving[] = "010100010103\n0401004200\n";
static const char ring[] = "0500010101\n0501010100\n";
static uint8_t report[LINE_REPORT_LENGTH], work[LINE_WORK_LENGTH], written[LINE_TEXT_LENGTH];
static line_reading reading;

#define EXPECT(condition)                                                                                              \
    do {                                                                                                               \
        if (!(condition)) {                                                                                            \
            printf("calls.c:%d: %s\n", __LINE__, #condition);                                                          \
            return false;                                                                                              \
        }                                                                                                              \
    } while (0)

static bool tables_and_types(void) {
    reading = line_read(bytes, length);
    EXPECT(reading.refusal == LINE_ACCEPTED);
    EXPECT(reading.table.bytes[11] == 2 && reading.table.bytes[12] == 2); /* classes and methods: docs/TABLE.md */
    line_written answer = line_write(reading.table, written, sizeof written);
    EXPECT(answer.refusal == LINE_ACCEPTED && answer.length == length);
    EXPECT(memcmp(written, text, length) == 0);
    EXPECT(line_write(reading.table, written, sizeof written - 1).refusal == LINE_SHORT_TEXT);
    reading.table.bytes[0] = 1; /* Object has no parent */
    EXPECT(line_write(reading.table, written, sizeof written).refusal == LINE_BAD_TABLE);
    EXPECT(line_read(bytes, 0).refusal == LINE_BAD_FORM);
    line_verdict verdict = line_check(bytes, length);
    EXPECT(verdict.refusal == LINE_ACCEPTED && verdict.class_number == 1 && verdict.tag == 3);
    return true;
}

static bool runs(void) {
    line_session session = line_open(7);
    EXPECT(session.active && session.fuel == 7);
    line_answer answer = line_run(bytes, length, NULL, 0, session, report, sizeof report, work, sizeof work);
    EXPECT(answer.refusal == LINE_ACCEPTED && answer.session.fuel == 4 && answer.length == 11);
    EXPECT(memcmp(report, "0500010100\n", 11) == 0);
    answer = line_trial(bytes, length, NULL, 0, line_open(2), report, sizeof report, work, sizeof work);
    EXPECT(answer.refusal == LINE_ACCEPTED && answer.session.fuel == 0 && answer.length == 5);
    EXPECT(memcmp(report, "0702\n", 5) == 0);
    EXPECT(line_run(bytes, length, NULL, 0, session, report, sizeof report - 1, work, 0).refusal == LINE_SHORT_REPORT);
    EXPECT(line_trial(bytes, length, NULL, 0, session, report, sizeof report, work, sizeof work - 1).refusal == LINE_SHORT_WORK);
    line_closing closing = line_close(session);
    EXPECT(closing.refusal == LINE_ACCEPTED && !closing.session.active && closing.session.fuel == 0);
    EXPECT(line_close(closing.session).refusal == LINE_CLOSED);
    EXPECT(line_run(bytes, length, NULL, 0, closing.session, report, 0, work, 0).refusal == LINE_CLOSED);
    return true;
}

/* three classes, each below the one before; names 1 and 2, of which the last class has 1 anew */
static const char chain[] = "01010000\n01020100\n01030200\n02010101000100004040\n"
                            "02020201000100004040\n02030101000100004040\n03450000\n";

static bool is_found(uint8_t class_number, uint8_t name, uint8_t owner, uint8_t method) {
    line_finding answer = line_find(&reading.table, class_number, name);
    return answer.found && answer.owner == owner && answer.method == method;
}

static bool is_nowhere(uint8_t class_number, uint8_t name) {
    line_finding answer = line_find(&reading.table, class_number, name);
    return !answer.found && answer.owner == 0 && answer.method == 0;
}

static bool owners(void) {
    reading = line_read((const uint8_t *)chain, sizeof chain - 1);
    EXPECT(reading.refusal == LINE_ACCEPTED);
    EXPECT(is_found(1, 1, 1, 0) && is_found(2, 1, 1, 0) && is_found(3, 1, 3, 2));
    EXPECT(is_found(2, 2, 2, 1) && is_found(3, 2, 2, 1));
    EXPECT(is_nowhere(1, 2) && is_nowhere(0, 1) && is_nowhere(33, 1) && is_nowhere(254, 1) && is_nowhere(1, 3));
    reading.table.bytes[528 + 256 * 3 + 1] = 0; /* the index no longer has class 3's own: docs/TABLE.md */
    EXPECT(is_found(3, 1, 1, 0));
    reading.table.bytes[16 * 2] = 2; /* no smaller parent: the search ends at class 2 */
    EXPECT(is_nowhere(3, 1) && is_found(3, 2, 2, 1));
    return true;
}

static line_answer given(const char *input) {
    return line_run((const uint8_t *)giving, sizeof giving - 1, (const uint8_t *)input, strlen(input), line_open(7),
                    report, sizeof report, work, sizeof work);
}

/* an object with a number, which main gives back */
static const char number[] = "01010002FE000103\n04010043004200\n05000102FE0102FF\n";

static line_shown shown(const char *input) {
    return line_show((const uint8_t *)input, strlen(input), report, sizeof report, work, sizeof work);
}

static bool is_verdict(line_shown answer, const char *line) {
    static const uint8_t zeros[LINE_VERDICT_LENGTH];
    size_t used = strlen(line);
    return answer.refusal == LINE_ACCEPTED && answer.verdict_length == used && memcmp(answer.verdict, line, used) == 0 &&
           memcmp(answer.verdict + used, zeros, LINE_VERDICT_LENGTH - used) == 0;
}

static bool outputs(void) {
    line_shown answer = shown(text);
    EXPECT(is_verdict(answer, "08000103\n") && answer.length == 11);
    EXPECT(memcmp(report, "0500010100\n", 11) == 0);
    answer = shown(number);
    EXPECT(is_verdict(answer, "0800FE00\n") && answer.length == 7);
    EXPECT(memcmp(report, "090102\n", 7) == 0);
    memset(report, 0x5A, sizeof report);
    memset(work, 0xA5, sizeof work);
    EXPECT(is_verdict(shown(""), "0801\n") && shown("").length == 0);
    EXPECT(is_verdict(shown(giving), "080E\n") && shown(giving).length == 0);
    answer = line_show(bytes, length, report, sizeof report - 1, work, 0);
    EXPECT(answer.refusal == LINE_SHORT_REPORT && answer.verdict_length == 0 && answer.verdict[0] == 0 &&
           answer.length == 0);
    answer = line_show(bytes, length, report, sizeof report, work, sizeof work - 1);
    EXPECT(answer.refusal == LINE_SHORT_WORK && answer.verdict_length == 0 && answer.length == 0);
    EXPECT(line_show(NULL, 0, report, sizeof report, work, sizeof work).verdict_length == 5);
    EXPECT(report[0] == 0x5A && report[sizeof report - 1] == 0x5A && work[0] == 0xA5 && work[sizeof work - 1] == 0xA5);
    return true;
}

static bool second_texts(void) {
    line_answer answer = given(ring); /* two parts, one object */
    EXPECT(answer.refusal == LINE_ACCEPTED && answer.session.fuel == 7 && answer.length == 11);
    EXPECT(memcmp(report, "0500010100\n", 11) == 0);
    EXPECT(given("05000101FF\n").length == 11 && memcmp(report, "05000101FF\n", 11) == 0);
    EXPECT(given("0500000\n").refusal == LINE_BAD_INPUT);
    EXPECT(given("05000000\n").refusal == LINE_UNFIT_INPUT);
    EXPECT(given("").refusal == LINE_BAD_INPUT); /* an empty one counts as none */
    answer = line_trial((const uint8_t *)giving, sizeof giving - 1, NULL, 0, line_open(7), report, sizeof report, work,
                        sizeof work);
    EXPECT(answer.refusal == LINE_BAD_INPUT && answer.session.fuel == 7 && answer.length == 0);
    answer = line_trial(bytes, length, (const uint8_t *)ring, sizeof ring - 1, line_open(7), report, sizeof report,
                        work, sizeof work);
    EXPECT(answer.refusal == LINE_BAD_INPUT); /* a main 03 takes none */
    return true;
}

int main(void) { return tables_and_types() && owners() && runs() && second_texts() && outputs() ? 0 : 1; }
