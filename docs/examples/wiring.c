/* The wiring list of the program in the file named: for each class and each name that some method has, the class that
 * owns the method which is found there, or none. host/examples/wiring.rs does the same. */
#include "baqolluy.h"
#include <stdio.h>

static uint8_t text[LINE_TEXT_LENGTH + 1]; /* one over the limit is enough to be refused */
static line_reading reading;

/* Whether some class up to this one has a method of this name. */
static bool named(uint8_t classes, uint8_t name) {
    for (uint8_t class_number = 1; class_number <= classes; class_number++)
        if (line_find(&reading.table, class_number, name).found)
            return true;
    return false;
}

int main(int count, char **words) {
    FILE *file = count == 2 ? fopen(words[1], "rb") : NULL;
    if (file == NULL) {
        fputs("usage: wiring FILE\n", stderr);
        return 2;
    }
    reading = line_read(text, fread(text, 1, sizeof text, file));
    fclose(file);
    if (reading.refusal != LINE_ACCEPTED) {
        printf("08%02X\n", reading.refusal);
        return 0;
    }
    uint8_t classes = reading.table.bytes[11]; /* how many there are: docs/TABLE.md */
    for (uint8_t class_number = 1; class_number <= classes; class_number++) {
        for (int name = 0; name < 256; name++) {
            if (!named(classes, (uint8_t)name))
                continue;
            line_finding answer = line_find(&reading.table, class_number, (uint8_t)name);
            printf("class %02X method %02X: ", class_number, name);
            if (answer.found)
                printf("owner %02X\n", answer.owner);
            else
                puts("none");
        }
    }
    return 0;
}
