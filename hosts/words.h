/* words.h: records, replies and values in words, for people, grep and awk. */
#ifndef WORDS_H
#define WORDS_H

#include <stdbool.h>
#include <stdio.h>
#include "sds_host.h"

enum { WORDS_COLUMN = 56 };    /* where a line goes on behind the ID */

/*
 * Each of these prints without a line's end and gives the count of characters:
 *
 *     to   9    Write   Request     object 3   attribute 10   data 2C 01
 *     from 9    Write   Error       object 3   attribute 10   code 9 (Illegal DLC)
 *     to   9    Write   Request     object 2   attribute 56   fragment 0   of 32  bytes  data 41 42 43 44
 *     to   36   short   Write ON State
 *     unreadable 09 81 00 00 00 00 00 00 00 00  5: DLC 1, or DLC 2 up with a service of 0 to 3
 */
int words_record(FILE *to, const uint8_t record[SDS_RECORD]);

/* the number of a device's reply: "served", or "refused 11: a Write of another length than the attribute's" */
int words_number(FILE *to, uint32_t number);

/* whether a message is an Error with one byte of data, the code that says why */
bool words_says_why(const struct sds_message *m);

/*
 * Behind the words of an Error that says why, the refusals of our devices that its code stands for, with no table looked at: where several share the code,
 * all of them, "  refused 7: Action or Event, or 9: no such object and attribute". Nothing for another record, or another code.
 */
int words_reason(FILE *to, const uint8_t record[SDS_RECORD]);

/* what sds_collect answers: "collected", or "refused 4: a fragment of a message of 0 bytes" */
int words_collect_number(FILE *to, uint32_t number);

/*
 * A value with its bytes, and as a text where all of them are printable (20 to 7E hex) but for zeros at the end, by which names are filled up; these are
 * left out of the text, spaces are not. A " or \ in it has a \ before it, so the text ends at the line's last character.
 *
 *     guest 32   object 0   attribute 56   11  bytes  data 47 41 54 45 20 53 45 4E 53 4F 52  text "GATE SENSOR"
 */
int words_value(FILE *to, const struct sds_value *value, const uint8_t *bytes);

/* bytes as " 2C 01" */
int words_bytes(FILE *to, const uint8_t *bytes, size_t count);

/* the spaces behind a line of this width up to WORDS_COLUMN, or two where it has come as far */
int words_gap(FILE *to, int width);

#endif
