/* Runs the program in the file named, with the second text in a second file if one is named: verdict line, then report.
 * host/examples/first.rs does the same. */
#include "baqolluy.h"
#include <stdio.h>
#include <stdlib.h>

static uint8_t text[LINE_TEXT_LENGTH + 1], input[LINE_INPUT_LENGTH + 1], report[LINE_REPORT_LENGTH],
    work[LINE_WORK_LENGTH];

/* The bytes of a file; one over the limit is enough to be refused. */
static size_t read_file(const char *name, uint8_t *bytes, size_t room) {
    FILE *file = fopen(name, "rb");
    if (file == NULL) {
        perror(name);
        exit(2);
    }
    size_t length = fread(bytes, 1, room, file);
    fclose(file);
    return length;
}

int main(int count, char **words) {
    if (count != 2 && count != 3) {
        fputs("usage: first FILE [SECOND]\n", stderr);
        return 2;
    }
    size_t length = read_file(words[1], text, sizeof text);
    size_t input_length = count == 3 ? read_file(words[2], input, sizeof input) : 0; /* 0 is no second text */
    line_session session = line_open(1000);
    line_answer answer =
        line_run(text, length, input, input_length, session, report, sizeof report, work, sizeof work);
    if (answer.refusal != LINE_ACCEPTED) {
        printf("08%02X\n", answer.refusal);
        return 0;
    }
    line_verdict verdict = line_check(text, length);
    printf("0800%02X%02X\n", verdict.class_number, verdict.tag);
    fwrite(report, 1, answer.length, stdout);
    return line_close(answer.session).refusal;
}
