/* words.c: records, replies and values in words. The core takes records apart, so no bit place is said here. */
#include "words.h"

/* 000, figure 3.4 */
static const char *const short_services[] = {
    [SDS_SHORT_CHANGE_OFF] = "Change of State OFF",
    [SDS_SHORT_CHANGE_ON] = "Change of State ON",
    [SDS_SHORT_CHANGE_OFF_ACK] = "Change of State OFF ACK",
    [SDS_SHORT_CHANGE_ON_ACK] = "Change of State ON ACK",
    [SDS_SHORT_WRITE_OFF] = "Write OFF State",
    [SDS_SHORT_WRITE_ON] = "Write ON State",
    [SDS_SHORT_WRITE_OFF_ACK] = "Write OFF State ACK",
    [SDS_SHORT_WRITE_ON_ACK] = "Write ON State ACK",
};

/* 000, figure 3.6, as far as the codec reads it; and what the ID of such a message names */
static const char *const long_services[] = {
    [SDS_SERVICE_WRITE] = "Write",
    [SDS_SERVICE_READ] = "Read",
    [SDS_SERVICE_ACTION] = "Action",
    [SDS_SERVICE_EVENT] = "Event",
};
static const char *const long_ids[] = {
    [SDS_SERVICE_WRITE] = "attribute",
    [SDS_SERVICE_READ] = "attribute",
    [SDS_SERVICE_ACTION] = "action",
    [SDS_SERVICE_EVENT] = "event",
};

static const char *const responses[] = {
    [SDS_REQUEST] = "Request",
    [SDS_SUCCESSFUL] = "Successful",
    [SDS_ERROR] = "Error",
    [SDS_WAIT] = "Wait",
};

/* 000, figure 3.48; it reserves the codes that have no name here */
static const char *const error_codes[256] = {
    [0] = "Service Not Available",
    [1] = "Illegal Service Parameters",
    [2] = "Read Only Variable",
    [3] = "Illegal Data",
    [4] = "EEPROM Read Error",
    [5] = "Time Out",
    [6] = "Unable to Respond",
    [7] = "Embedded object unavailable",
    [8] = "Illegal Object",
    [9] = "Illegal DLC",
    [11] = "Connection Not Available",
    [12] = "Connection Denied",
    [13] = "No Connection Response",
    [14] = "Connection Previously Made",
    [15] = "Connection Fail",
    [21] = "Channel No. Not Available",
    [22] = "Channel Open Fail",
    [23] = "No Channel Response",
    [254] = "ALP Service Timeout",
    [255] = "Other Network",
};

#define BAD_FRAME "RTR, a DLC over 8, or address 126 or 127"
#define UNREAD_SERVICE "DLC 1, or DLC 2 up with a service of 0 to 3"

/* why a device refuses: sds.h, enum sds_number */
static const char *const refusals[] = {
    [SDS_BAD_LENGTH] = "a length, or the own address, is out of its range",
    [SDS_BAD_TABLE] = "the table is not well formed",
    [SDS_BAD_FRAME] = BAD_FRAME,
    [SDS_NOT_ADDRESSED] = "sent by a guest, or to another address",
    [SDS_BAD_SERVICE] = UNREAD_SERVICE "; a short form that is no Write ON or OFF, or that object 0's first network record does not take",
    [SDS_NOT_REQUEST] = "not a Request",
    [SDS_ACTION_OR_EVENT] = "Action or Event",
    [SDS_BAD_FORM] = "a Read with the fragment flag or with data; a fragment of a Write too short for number and total",
    [SDS_NO_ATTRIBUTE] = "no such object and attribute",
    [SDS_NO_ACCESS] = "the attribute may not be read, or not be written",
    [SDS_OTHER_LENGTH] = "a Write of another length than the attribute's",
    [SDS_BAD_FRAGMENT] = "a fragment that begins at or behind the total, or of another length than its place asks for",
    [SDS_OUT_OF_ORDER] = "a fragment that does not follow the one before",
};

/* why a collector refuses: sds_host.h, enum sds_collected */
static const char *const uncollected[] = {
    [SDS_COLLECT_BAD_LENGTH] = "a length of what is lent is out of its range",
    [SDS_COLLECT_BAD_FRAME] = "the record cannot be read",
    [SDS_COLLECT_NO_ANSWER] = "no Successful answer of a guest to a Read",
    [SDS_COLLECT_NO_TOTAL] = "a fragment of a message of 0 bytes",
    [SDS_COLLECT_BAD_SHAPE] = "a fragment that begins at or behind the total, or of another length than its place asks for; an answer without data",
    [SDS_COLLECT_OUT_OF_ORDER] = "a fragment that does not follow the one before it from that guest",
};

/* why a record of the right length is not read, by whoever it is: sds.h, sds_read */
static const char *const unread[] = {
    [SDS_BAD_FRAME] = BAD_FRAME,
    [SDS_BAD_SERVICE] = UNREAD_SERVICE,
    [SDS_BAD_FORM] = "the fragment flag with DLC 2 or 3, too short for number and total",
};

int words_bytes(FILE *to, const uint8_t *bytes, size_t count)
{
    int width = 0;
    for (size_t i = 0; i < count; i++)
        width += fprintf(to, " %02X", (unsigned)bytes[i]);
    return width;
}

int words_gap(FILE *to, int width)
{
    return fprintf(to, "%*s", width < WORDS_COLUMN ? WORDS_COLUMN - width : 2, "");
}

int words_number(FILE *to, uint32_t number)
{
    return number == SDS_SERVED ? fprintf(to, "served") : fprintf(to, "refused %u: %s", number, refusals[number]);
}

bool words_says_why(const struct sds_message *m)
{
    return m->kind == SDS_KIND_WHOLE && m->response == SDS_ERROR && m->length == 1;
}

/* 0 is no refusal's code: the core gives it for a number without one */
static bool is_code_of(uint32_t number, uint8_t code)
{
    return code != 0 && sds_error_code(number) == code;
}

/* A code that is its own refusal's number is not from 000's list, though it has a name there. */
static int error_code(FILE *to, uint8_t code)
{
    const char *name = error_codes[code] != NULL ? error_codes[code] : "reserved";
    return fprintf(to, "code %u (%s%s)", code, is_code_of(code, code) ? "our own number; in the specification's list " : "", name);
}

int words_reason(FILE *to, const uint8_t record[SDS_RECORD])
{
    struct sds_message m;
    int width = 0;
    if (sds_message_read(record, &m) != SDS_SERVED || !words_says_why(&m))
        return width;
    for (uint32_t number = 0; number < sizeof refusals / sizeof refusals[0]; number++)
        if (is_code_of(number, m.data[0]))
            width += fprintf(to, "%s%u: %s", width > 0 ? ", or " : "  refused ", number, refusals[number]);
    return width;
}

static int unreadable(FILE *to, const uint8_t record[SDS_RECORD], uint32_t number)
{
    int width = fprintf(to, "unreadable");
    width += words_bytes(to, record, SDS_RECORD);
    return width + fprintf(to, "  %u: %s", number, unread[number]);
}

int words_record(FILE *to, const uint8_t record[SDS_RECORD])
{
    struct sds_message m;
    uint32_t number = sds_message_read(record, &m);
    if (number != SDS_SERVED)
        return unreadable(to, record, number);

    int width = fprintf(to, "%-4s %-3u  ", m.from_guest ? "from" : "to", m.address);
    if (m.kind == SDS_KIND_SHORT)
        return width + fprintf(to, "short   %s", short_services[m.service]);

    width += fprintf(to, "%-6s  %-10s  object %-2u  %-9s %u", long_services[m.service], responses[m.response], m.object, long_ids[m.service], m.id);
    if (m.kind == SDS_KIND_FRAGMENT || m.length > 0)
        width += fprintf(to, "%*s", WORDS_COLUMN - width, "");
    if (words_says_why(&m))
        return width + error_code(to, m.data[0]);
    if (m.kind == SDS_KIND_FRAGMENT)
        width += fprintf(to, "fragment %-3u of %-3u bytes%s", m.number, m.total, m.length > 0 ? "  " : "");
    if (m.length > 0)
        width += fprintf(to, "data");
    return width + words_bytes(to, m.data, m.length);
}

int words_collect_number(FILE *to, uint32_t number)
{
    return number == SDS_COLLECTED ? fprintf(to, "collected") : fprintf(to, "refused %u: %s", number, uncollected[number]);
}

/* How many of these bytes are a text: those before the zeros at the end, where all of them are printable; otherwise 0. */
static size_t text_length(const uint8_t *bytes, size_t count)
{
    while (count > 0 && bytes[count - 1] == 0)
        count--;
    for (size_t i = 0; i < count; i++)
        if (bytes[i] < 0x20 || bytes[i] > 0x7E)
            return 0;
    return count;
}

static int text(FILE *to, const uint8_t *bytes, size_t count)
{
    int width = fprintf(to, "  text \"");
    for (size_t i = 0; i < count; i++)
        width += fprintf(to, "%s%c", bytes[i] == '"' || bytes[i] == '\\' ? "\\" : "", bytes[i]);
    return width + fprintf(to, "\"");
}

int words_value(FILE *to, const struct sds_value *value, const uint8_t *bytes)
{
    size_t characters = text_length(bytes, value->length);
    int width = fprintf(to, "guest %-3u  object %-2u  attribute %-3u  %-3u bytes  data", value->guest, value->object, value->id, value->length);
    width += words_bytes(to, bytes, value->length);
    return characters > 0 ? width + text(to, bytes, characters) : width;
}
