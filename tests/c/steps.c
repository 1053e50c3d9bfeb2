/*
 * Makes the calls that a file of steps names, and prints a line for each: the step, whether it was accepted, all that was handed over and the state's
 * numbers, or the refusal and which lent numbers it changed. docs/C.md tells what a step may be.
 */
#include "calls.h"
#include "lent.h"
#include "words.h"

#include <stdio.h>
#include <stdlib.h>
#include <string.h>

#define MOST_LINE 8192

struct lent lent, before;

/* What a call hands over stands in memory that is known before. */
static void do_step(const char *text, int is_printed) {
    char line[MOST_LINE];
    strcpy(line, text);
    take_words(line);
    const struct step *step = step_named(word(0));
    memset(lent.dock.out, UNWRITTEN, sizeof lent.dock.out);
    memset(&lent.dock.length, UNWRITTEN, sizeof lent.dock.length);
    memset(lent.laptop.handed, UNWRITTEN, sizeof lent.laptop.handed);
    memset(lent.laptop.out, UNWRITTEN, sizeof lent.laptop.out);
    memset(lent.laptop.catalogue, UNWRITTEN, sizeof lent.laptop.catalogue);
    memset(&lent.laptop.catalogue_length, UNWRITTEN, sizeof lent.laptop.catalogue_length);
    memset(&lent.reader, UNWRITTEN, sizeof lent.reader);
    before = lent;
    unsigned result = step->make();
    if (!is_printed) return;
    printf("%s: ", text);
    step->show(result);
    printf("\n");
}

int main(void) {
    char line[MOST_LINE], last[2][MOST_LINE] = {"", ""};
    while (fgets(line, sizeof line, stdin) != NULL) {
        line[strcspn(line, "\n")] = '\0';
        unsigned long times = strncmp(line, "again ", 6) == 0 ? strtoul(line + 6, NULL, 10) : 0;
        if (line[0] == '#' || line[0] == '\0' || times > 0) puts(line);
        else do_step(line, 1);
        for (; times > 0; times--)
            for (int i = 0; i < 2; i++) do_step(last[i], 0);
        strcpy(last[0], last[1]);
        strcpy(last[1], line);
    }
    return 0;
}
