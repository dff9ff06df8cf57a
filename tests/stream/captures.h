/* captures.h: captures (02, 2026-02), and counts of what came up of them in a test that imports lines and exports records. */
#ifndef CAPTURES_H
#define CAPTURES_H

#include "sds_host.h"

/* what each side's two entry points are */
typedef uint32_t captures_function(const uint8_t *from, uint64_t from_len, uint8_t *to, uint64_t to_len);

/* 02: "Importing an export gives back the records with unused bytes (all eight under RTR) cleared" */
void captures_clear(uint8_t cleared[SDS_RECORD], const uint8_t record[SDS_RECORD]);

/* counts an import with this answer; of a line that was imported, how it is spelled, and its record */
void captures_count_import(const uint8_t *line, uint64_t line_len, const uint8_t *record, uint32_t number);

/* counts an export with this answer, and a record that was exported */
void captures_count_export(const uint8_t *record, uint32_t answer);

/* prints the counts; gives whether each kind came up */
int captures_came_up(void);

#endif
