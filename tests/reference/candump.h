/* Captures from candump, reference in C11: a line of a can-utils log to a record and back (02, "2026-02 Captures from candump"). */
#ifndef CANDUMP_H
#define CANDUMP_H

#include <stdint.h>

/* 02: "Refusals of the importer, in order"; the last is that of a record buffer that is not ten bytes long, which 02 does not have, and is asked first */
enum { REF_IMPORTED, REF_LINE_TOO_LONG, REF_BAD_TIME_OR_INTERFACE, REF_BAD_IDENTIFIER, REF_BAD_DATA, REF_NO_ROOM_FOR_RECORD };

/* 02: "The exporter refuses a record not 10 bytes long or with DLC over 8"; the last is that of a line buffer too short for some line, asked last */
enum { REF_EXPORTED, REF_NOT_TEN_BYTES, REF_DLC_OVER_8, REF_NO_ROOM_FOR_LINE };
enum { REF_PER_BYTE = 256 }; /* an export answers its number plus this for each byte of the line */

/* A line without its end, into the record: 0 when done, else the number of the refusal, and then nothing is altered. Buffers do not overlap. */
uint32_t ref_import_line(const uint8_t *line, uint64_t line_len, uint8_t *record, uint64_t record_len);

/* A record, as a line without its end at the front of `line`; on a refusal nothing is altered. Buffers do not overlap. */
uint32_t ref_export_record(const uint8_t *record, uint64_t record_len, uint8_t *line, uint64_t line_len);

#endif
