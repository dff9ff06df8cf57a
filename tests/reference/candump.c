/*
 * Captures from candump, reference in C11. 02 is the requests for changes, here "2026-02 Captures from candump"; 01 is the scope page. It is written from
 * their text and shares nothing with the core but what 02 leaves open: that seconds have a digit, that an interface may end with the line, and the numbers
 * for buffers of other lengths. It is the plain C of the benchmark too. A line is, with "one space between",
 *
 *     (seconds.micros) interface ID#data
 */
#include "candump.h"

#include <string.h>

/* 01, "Frame record": the bytes of a record and the fields of byte 1; 02: "The ID is our byte 0 and the service type" */
enum { RECORD_ADDRESS, RECORD_CONTROL, RECORD_DATA, RECORD_SIZE = 10 };
enum { SERVICE_BITS = 3, SERVICE_MASK = 7, SERVICE_SHIFT = 5, REMOTE = 0x10, DLC_MASK = 0x0F, DLC_MAX = 8 };

/* 02: "line over 128 bytes"; "Seconds are decimal digits, micros six, the interface 1 to 15 bytes of 21 to 7E hex"; "three hex digits up to 7FF" */
enum { LINE_SIZE_MAX = 128, SECONDS_MIN = 1, MICROS = 6, INTERFACE_MIN = 1, INTERFACE_MAX = 15, INTERFACE_LOWEST = 0x21, INTERFACE_HIGHEST = 0x7E };
enum { IDENTIFIER_DIGITS = 3, IDENTIFIER_MAX = 0x7FF, BYTE_DIGITS = 2, BYTE_MAX = 0xFF };

/* 02: time and interface "are dropped on import and written as `(0.000000) can0`" */
static const uint8_t written_front[] = "(0.000000) can0 ";
static const uint8_t written_digits[] = "0123456789ABCDEF"; /* hex is "written in capitals" */
enum { FRONT_SIZE = sizeof written_front - 1, HASH_PLACE = FRONT_SIZE + IDENTIFIER_DIGITS, DATA_PLACE };
enum { WRITTEN_SIZE_MAX = DATA_PLACE + BYTE_DIGITS * DLC_MAX };

/* What hex_value gives for no digit: in whichever place of a number it stands, the number is above IDENTIFIER_MAX and BYTE_MAX */
enum { NO_DIGIT = 0x1000 };

/* 02: "Hex is read in either case" */
static uint32_t hex_value(uint8_t byte) {
    uint32_t decimal = (uint32_t)byte - '0', letter = (uint32_t)(byte | 0x20) - 'a'; /* the bit that tells a small letter from its capital */
    if (decimal <= 9)
        return decimal;
    return letter <= 5 ? 10 + letter : NO_DIGIT;
}

/* A line, and the place of the byte that is read next */
struct cursor {
    const uint8_t *line;
    uint64_t length, at;
};

static uint64_t left(const struct cursor *cursor) { return cursor->length - cursor->at; }

/* Whether a byte from lowest to highest comes next */
static int comes(const struct cursor *cursor, uint8_t lowest, uint8_t highest) {
    return left(cursor) != 0 && cursor->line[cursor->at] >= lowest && cursor->line[cursor->at] <= highest;
}

/* Takes this byte; gives whether it came */
static int take(struct cursor *cursor, uint8_t byte) {
    if (left(cursor) == 0 || cursor->line[cursor->at] != byte)
        return 0;
    cursor->at++;
    return 1;
}

/* Takes bytes from lowest to highest as long as they come; gives how many came */
static uint64_t take_all(struct cursor *cursor, uint8_t lowest, uint8_t highest) {
    uint64_t start = cursor->at;
    while (comes(cursor, lowest, highest))
        cursor->at++;
    return cursor->at - start;
}

static uint64_t take_decimals(struct cursor *cursor) { return take_all(cursor, '0', '9'); }

/* 02: "(seconds.micros)" */
static int take_time(struct cursor *cursor) {
    return take(cursor, '(') && take_decimals(cursor) >= SECONDS_MIN && take(cursor, '.') && take_decimals(cursor) == MICROS && take(cursor, ')');
}

/* The interface is what stands up to the next space or the line's end, so a `#` may be in it */
static int take_interface(struct cursor *cursor) {
    uint64_t length = take_all(cursor, INTERFACE_LOWEST, INTERFACE_HIGHEST);
    return length >= INTERFACE_MIN && length <= INTERFACE_MAX && (left(cursor) == 0 || comes(cursor, ' ', ' '));
}

/* The ID and its `#`: gives a number above IDENTIFIER_MAX where there is "no `#` or before it not three hex digits" */
static uint32_t take_identifier(struct cursor *cursor) {
    if (left(cursor) < IDENTIFIER_DIGITS)
        return NO_DIGIT;
    const uint8_t *digits = cursor->line + cursor->at;
    uint32_t identifier = hex_value(digits[0]) << 8 | hex_value(digits[1]) << 4 | hex_value(digits[2]);
    cursor->at += IDENTIFIER_DIGITS;
    return take(cursor, '#') ? identifier : NO_DIGIT;
}

/* 02: "up to 8 whole bytes", into a record that is zero from its data on; DLC 0 where there are none */
static int take_bytes(struct cursor *cursor, uint8_t *record) {
    const uint8_t *digits = cursor->line + cursor->at;
    uint64_t count = left(cursor) / BYTE_DIGITS;
    if (left(cursor) % BYTE_DIGITS != 0 || count > DLC_MAX)
        return 0;
    for (uint64_t i = 0; i < count; i++, digits += BYTE_DIGITS) {
        uint32_t byte = hex_value(digits[0]) << 4 | hex_value(digits[1]);
        if (byte > BYTE_MAX)
            return 0;
        record[RECORD_DATA + i] = (uint8_t)byte;
    }
    record[RECORD_CONTROL] |= (uint8_t)count;
    return 1;
}

/* 02: "`R` with at most a digit up to 8", of which the `R` is taken: "`#R`, with an optional length digit, is RTR and has no data"; DLC 0 without it */
static int take_remote_length(struct cursor *cursor, uint8_t *record) {
    record[RECORD_CONTROL] |= REMOTE;
    if (comes(cursor, '0', '0' + DLC_MAX))
        record[RECORD_CONTROL] |= (uint8_t)(cursor->line[cursor->at++] - '0');
    return left(cursor) == 0;
}

/* 02: "Import them into 10-byte records"; the record is made apart, since on a refusal "nothing [is] written for that line" */
uint32_t ref_import_line(const uint8_t *line, uint64_t line_len, uint8_t *record, uint64_t record_len) {
    struct cursor cursor = {line, line_len, 0};
    uint8_t made[RECORD_SIZE] = {0};
    if (record_len != RECORD_SIZE)
        return REF_NO_ROOM_FOR_RECORD;
    if (line_len > LINE_SIZE_MAX)
        return REF_LINE_TOO_LONG;
    if (!take_time(&cursor) || !take(&cursor, ' ') || !take_interface(&cursor))
        return REF_BAD_TIME_OR_INTERFACE;
    uint32_t identifier = take(&cursor, ' ') ? take_identifier(&cursor) : NO_DIGIT;
    if (identifier > IDENTIFIER_MAX)
        return REF_BAD_IDENTIFIER;
    made[RECORD_ADDRESS] = (uint8_t)(identifier >> SERVICE_BITS);
    made[RECORD_CONTROL] = (uint8_t)((identifier & SERVICE_MASK) << SERVICE_SHIFT);
    if (!(take(&cursor, 'R') ? take_remote_length(&cursor, made) : take_bytes(&cursor, made)))
        return REF_BAD_DATA;
    memcpy(record, made, RECORD_SIZE);
    return REF_IMPORTED;
}

/* "three hex digits" and the `#` behind them */
static void put_identifier(uint8_t *line, uint32_t identifier) {
    line[FRONT_SIZE] = written_digits[identifier >> 8];
    line[FRONT_SIZE + 1] = written_digits[identifier >> 4 & 15];
    line[FRONT_SIZE + 2] = written_digits[identifier & 15];
    line[HASH_PLACE] = '#';
}

/* The data of a frame without RTR; gives the bytes of the line */
static uint32_t put_bytes(uint8_t *restrict line, const uint8_t *restrict data, uint32_t dlc) {
    uint8_t *digits = line + DATA_PLACE;
    for (uint32_t i = 0; i < dlc; i++, digits += BYTE_DIGITS) {
        digits[0] = written_digits[data[i] >> 4];
        digits[1] = written_digits[data[i] & 15];
    }
    return DATA_PLACE + BYTE_DIGITS * dlc;
}

/* 02: "RTR with its length digit"; gives the bytes of the line */
static uint32_t put_remote(uint8_t *line, uint32_t dlc) {
    line[DATA_PLACE] = 'R';
    line[DATA_PLACE + 1] = written_digits[dlc];
    return DATA_PLACE + 2;
}

/* 02: "and back"; every identifier has a line, whatever the codec says of it */
uint32_t ref_export_record(const uint8_t *record, uint64_t record_len, uint8_t *line, uint64_t line_len) {
    if (record_len != RECORD_SIZE)
        return REF_NOT_TEN_BYTES;
    uint32_t control = record[RECORD_CONTROL], dlc = control & DLC_MASK;
    if (dlc > DLC_MAX)
        return REF_DLC_OVER_8;
    if (line_len < WRITTEN_SIZE_MAX)
        return REF_NO_ROOM_FOR_LINE;
    memcpy(line, written_front, FRONT_SIZE);
    put_identifier(line, (uint32_t)record[RECORD_ADDRESS] << SERVICE_BITS | control >> SERVICE_SHIFT);
    return REF_EXPORTED + REF_PER_BYTE * ((control & REMOTE) != 0 ? put_remote(line, dlc) : put_bytes(line, record + RECORD_DATA, dlc));
}
