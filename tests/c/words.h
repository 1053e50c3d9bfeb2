/* The words of the present step. What is no step ends the program. */
#ifndef WORDS_H
#define WORDS_H

#include "controller.h"

#include <stddef.h>

#define MOST_WORDS 1024
#define MOST_BYTES (4 * MOST_WORDS)

void fail(const char *what, const char *where);

/* Takes a line apart; the words stand in it. */
void take_words(char *line);

/* The word at a place, from 0; as a number. */
const char *word(size_t i);
uint16_t hex(size_t i);
uint8_t decimal(size_t i);

/* So much of a buffer or run as a call is to be lent. */
controller_count part_of(size_t i, unsigned long whole);

/* The words from a place to the end as bytes: two digits a byte, the low byte of a word first. */
controller_count take_bytes(size_t from, uint8_t *bytes);

/* Hexadecimal numbers from a place up to a stroke or the end; SVIDs from a place to the end. */
controller_count take_objects(size_t from, uint32_t *objects);
controller_count take_svids(size_t from, uint16_t *svids);

#endif
