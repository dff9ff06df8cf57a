#include <ctype.h>
#include <string.h>
#include "captures.h"
#include "sds_can.h"
#include "tally.h"

enum { BY_IMPORT, BY_SECONDS, BY_INTERFACE, BY_HASHES, BY_LETTERS, BY_ID_READ, BY_READ, BY_EXPORT, BY_ID_WRITTEN, BY_WRITTEN, TALLIES };

/* places of BY_READ and BY_WRITTEN: the bytes of data, then the DLCs under RTR, then RTR without one */
enum { REMOTE = SDS_CAN_DATA + 1, REMOTE_ALONE = REMOTE + SDS_CAN_DATA + 1 };
#define DATA_NAMES "0 bytes", "1", "2", "3", "4", "5", "6", "7", "8", "R0", "R1", "R2", "R3", "R4", "R5", "R6", "R7", "R8"

/* those of addresses that the codec refuses stand alone */
#define IDENTIFIER_NAMES "000 to 3EF", "3F0 to 3FF", "400 to 7EF", "7F0 to 7FF"

static struct tally tallies[TALLIES] = {
    [BY_IMPORT] = TALLY("import", "0", "1", "2", "3", "4", "5"),
    [BY_SECONDS] = TALLY("imported, seconds", "1 digit", "2 to 10", "11 to 80", "over 80"),
    [BY_INTERFACE] = TALLY("imported, interface", "1 byte", "2", "3", "4", "5", "6", "7", "8", "9", "10", "11", "12", "13", "14", "15"),
    [BY_HASHES] = TALLY("imported, # in the interface", "none", "one", "more"),
    [BY_LETTERS] = TALLY("imported, hex letters", "none", "capitals", "small", "both"),
    [BY_ID_READ] = TALLY("imported, ID", IDENTIFIER_NAMES),
    [BY_READ] = TALLY("imported, data", DATA_NAMES, "R"),
    [BY_EXPORT] = TALLY("export", "0", "1", "2", "3"),
    [BY_ID_WRITTEN] = TALLY("exported, ID", IDENTIFIER_NAMES),
    [BY_WRITTEN] = TALLY("exported, data", DATA_NAMES),
};

void captures_clear(uint8_t cleared[SDS_RECORD], const uint8_t record[SDS_RECORD])
{
    sds_can_record(cleared, sds_can_identifier(record), sds_can_rtr(record), sds_can_dlc(record), sds_can_data(record));
}

static void count(unsigned tally, unsigned place)
{
    tallies[tally].counts[place]++;
}

/* how many bytes of a line that was imported stand before the next such byte */
static size_t bytes_before(const uint8_t *from, const uint8_t *end, int byte)
{
    return (size_t)((const uint8_t *)memchr(from, byte, (size_t)(end - from)) - from);
}

static unsigned place_of_seconds(size_t digits)
{
    return digits == 1 ? 0 : digits <= 10 ? 1 : digits <= 80 ? 2 : 3;
}

static unsigned place_of_hashes(const uint8_t *interface, size_t length)
{
    unsigned found = 0;
    for (size_t i = 0; i < length; i++)
        found += interface[i] == '#';
    return found < 2 ? found : 2;
}

/* 1 for capitals among the digits and 2 for small letters; the R of RTR is no digit */
static unsigned place_of_letters(const uint8_t *frame, const uint8_t *end)
{
    unsigned seen = 0;
    for (; frame < end; frame++)
        if (isxdigit(*frame) && !isdigit(*frame))
            seen |= isupper(*frame) ? 1 : 2;
    return seen;
}

static void count_spelling(const uint8_t *line, const uint8_t *end)
{
    const uint8_t *interface = line + bytes_before(line, end, ' ') + 1;
    size_t length = bytes_before(interface, end, ' ');
    count(BY_SECONDS, place_of_seconds(bytes_before(line, end, '.') - 1)); /* behind the parenthesis */
    count(BY_INTERFACE, (unsigned)length - 1);
    count(BY_HASHES, place_of_hashes(interface, length));
    count(BY_LETTERS, place_of_letters(interface + length, end));
}

static unsigned place_of_identifier(const uint8_t *record)
{
    uint32_t address = sds_can_identifier(record) >> 3 & 127, from_guest = sds_can_identifier(record) >> 10;
    return 2 * from_guest + (address > SDS_ADDRESS_MOST);
}

static unsigned place_of_data(const uint8_t *record)
{
    return sds_can_rtr(record) ? REMOTE + sds_can_dlc(record) : sds_can_dlc(record);
}

void captures_count_import(const uint8_t *line, uint64_t line_len, const uint8_t *record, uint32_t number)
{
    count(BY_IMPORT, number);
    if (number != SDS_LINE_IMPORTED)
        return;
    count_spelling(line, line + line_len);
    count(BY_ID_READ, place_of_identifier(record));
    count(BY_READ, line[line_len - 1] == 'R' ? REMOTE_ALONE : place_of_data(record));
}

void captures_count_export(const uint8_t *record, uint32_t answer)
{
    count(BY_EXPORT, SDS_LINE_NUMBER(answer));
    if (SDS_LINE_NUMBER(answer) != SDS_RECORD_EXPORTED)
        return;
    count(BY_ID_WRITTEN, place_of_identifier(record));
    count(BY_WRITTEN, place_of_data(record));
}

int captures_came_up(void)
{
    return tally_print(tallies, TALLIES);
}
