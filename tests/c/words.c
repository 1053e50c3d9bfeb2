/* The words of a step. */
#include "words.h"

#include <stdio.h>
#include <stdlib.h>
#include <string.h>

static char *words[MOST_WORDS];
static size_t word_count;

void fail(const char *what, const char *where) {
    fprintf(stderr, "steps: %s: %s\n", what, where);
    exit(1);
}

const char *word(size_t i) {
    if (i >= word_count) fail("a word is missing", words[0]);
    return words[i];
}

static unsigned long number(size_t i, int base) {
    char *end;
    unsigned long value = strtoul(word(i), &end, base);
    if (*end != '\0') fail("no number", words[i]);
    return value;
}

uint16_t hex(size_t i) { return (uint16_t)number(i, 16); }
uint8_t decimal(size_t i) { return (uint8_t)number(i, 10); }

controller_count part_of(size_t i, unsigned long whole) {
    if (number(i, 10) > whole) fail("more than there is", words[i]);
    return number(i, 10);
}

controller_count take_bytes(size_t from, uint8_t *bytes) {
    controller_count count = 0;
    for (size_t i = from; i < word_count; i++) {
        unsigned long value = number(i, 16);
        size_t digits = strlen(words[i]);
        if (digits > 8 || digits % 2 != 0) fail("no bytes of an object", words[i]);
        for (; digits > 0; digits -= 2, value >>= 8) bytes[count++] = (uint8_t)value;
    }
    return count;
}

controller_count take_objects(size_t from, uint32_t *objects) {
    controller_count count = 0;
    while (from < word_count && strcmp(words[from], "/") != 0) objects[count++] = (uint32_t)number(from++, 16);
    return count;
}

controller_count take_svids(size_t from, uint16_t *svids) {
    controller_count count = 0;
    while (from < word_count) svids[count++] = hex(from++);
    return count;
}

void take_words(char *line) {
    word_count = 0;
    for (char *next = strtok(line, " "); next != NULL; next = strtok(NULL, " ")) {
        if (word_count == MOST_WORDS) fail("too many words", line);
        words[word_count++] = next;
    }
}
