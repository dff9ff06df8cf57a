/*
 * SDS guest core, reference in C11. 01 is the scope page, 02 the requests for changes, 000 the application layer, 001 the component models. It is
 * written from these papers and shares nothing with the core, but for two decisions where they leave a choice: Unsigned is type 4, and which code of 000
 * names the fault of a refusal (docs/DECISIONS.md). It is the plain C of the benchmark too, so its branches stand where they cost least.
 */
#include "reference.h"

#include <string.h>

/* 01, check 1 and "Object table, store, work area": sizes in bytes */
enum { RECORD_SIZE = 10, ENTRY_SIZE = 8, JOIN_SIZE = 260 };
enum { TABLE_MAX = 1024 * ENTRY_SIZE, STORE_MAX = 32768, WORK_SIZE = 32 * JOIN_SIZE, OUT_MIN = 64 * RECORD_SIZE };

/* 01, "Frame record"; 000, figures 3.3, 3.13 and 3.15: the bytes of a record, then the fields of bytes 0, 1 and 2 */
enum { FRAME_ADDRESS, FRAME_CONTROL, FRAME_SPECIFIERS, FRAME_ID, FRAME_DATA, FRAME_NUMBER = 4, FRAME_TOTAL, FRAME_FRAGMENT_DATA };
enum { FROM_SOURCE = 0x80, DIRECTION_SHIFT = 7, DIRECTION_MAX = 1, ADDRESS_MASK = 0x7F, ADDRESS_MAX = 125 };
enum { SERVICE_SHIFT = 5, SERVICE_MASK = 0xE0, SERVICE_MAX = 7, REMOTE = 0x10, DLC_MASK = 0x0F, DLC_MAX = 8 };
enum { ROLE_SHIFT = 6, ROLE_MAX = 3, FRAGMENTED = 0x20, OBJECT_MASK = 0x1F, OBJECT_MAX = 31 };
enum { WHOLE_HEAD = 2, FRAGMENT_HEAD = 4 }; /* the part of the DLC that is not data */
enum { WHOLE_DATA_MAX = 6, FRAGMENT_DATA_MAX = 4 };

/* 000, figure 3.6: the long services that are read; figure 3.8: Request/Response */
enum { WRITE = 4, READ = 5, ACTION = 6, EVENT = 7 };
enum { REQUEST, SUCCESSFUL, ERROR };

/* 000, figure 3.48: the error codes that name a fault of ours; 3.2.2.1.4.1.1: "data type is Unsigned 8", the bytes of one */
enum { ILLEGAL_SERVICE_PARAMETERS = 1, READ_ONLY_VARIABLE = 2, ILLEGAL_DLC = 9 };
enum { ERROR_CODE_SIZE = 1 };

/* 000, figure 3.4: the services of the short form; 02, 2026-01: the object that a short Write is for, and what it "sets [...] to 1 or 0" */
enum { COS_OFF, COS_ON, COS_OFF_ACK, COS_ON_ACK, WRITE_OFF, WRITE_ON, WRITE_OFF_ACK, WRITE_ON_ACK };
enum { SHORT_FORM_OBJECT = 0, STATE_OFF = 0, STATE_ON = 1 };

/* 01, "Object table": the bytes of a record and its access bits */
enum { ENTRY_OBJECT, ENTRY_ID, ENTRY_ACCESS, ENTRY_LENGTH, ENTRY_OFFSET, ENTRY_DESCRIPTOR = 6 };
enum { ACCESS_READ = 1, ACCESS_WRITE = 2, ACCESS_NETWORK = 4, ACCESS_MAX = 7 };

/* 01, "Work area": the bytes of an object's record and its status */
enum { JOIN_STATUS, JOIN_ID, JOIN_TOTAL, JOIN_NEXT, JOIN_DATA };
enum { STATUS_IDLE, STATUS_FILLING };

/* 01, "Descriptor sizes": the fields; types of 001, figure 11, but Signed and Unsigned as docs/DECISIONS.md takes 01 */
enum { DESCRIPTOR_MAX = 0xFFFF, RESERVED_BITS = 0x3080, TYPE_SHIFT = 8, TYPE_MASK = 15, SIZE_SHIFT = 5, SIZE_MASK = 3, COUNT_MASK = 31 };
enum { TYPE_SIGNED = 0, TYPE_BOOLEAN = 1, TYPE_UNSIGNED = 4, TYPE_EXTENDED_CHARACTER = 5, TYPE_REAL = 6, TYPE_CHARACTER = 7 };
enum { SIZE_UNDEFINED = 0, SIZE_LONG = 3 };

/* 01, "Object table": low byte first */
static uint32_t low_first(const uint8_t *bytes) { return bytes[0] | (uint32_t)bytes[1] << 8; }

/* The pair (object, ID) as one number that orders as the pair does */
static uint32_t pair(uint32_t object, uint32_t id) { return object << 8 | id; }

/* 01, "Frame record", byte 1 */
static uint32_t service_of(const uint8_t *record) { return (uint32_t)record[FRAME_CONTROL] >> SERVICE_SHIFT; }

/* 01, "Frame record", byte 1 */
static uint32_t dlc_of(const uint8_t *record) { return record[FRAME_CONTROL] & DLC_MASK; }

/* 01, "Frame record": "DLC 0 is the short form: Dir/Pri, address and service type are the whole message" */
static int is_short(const uint8_t *record) { return dlc_of(record) == 0; }

/* 01, "Frame record", byte 2: only for a DLC of 2 up */
static uint32_t object_of(const uint8_t *record) { return record[FRAME_SPECIFIERS] & OBJECT_MASK; }

/* 01, "Frame record", byte 2: only for a DLC of 2 up */
static int is_fragment(const uint8_t *record) { return (record[FRAME_SPECIFIERS] & FRAGMENTED) != 0; }

/* 01, codec's refusal 8 and check 8 for a Write: no room for number and total */
static int is_cut_short(const uint8_t *record) { return is_fragment(record) && dlc_of(record) < FRAGMENT_HEAD; }

/* 01, codec's refusal 5 and check 5 for a frame that is not of the short form: DLC 1, or DLC 2 up with service 0 to 3 */
static int is_no_long_form(const uint8_t *record) { return dlc_of(record) < WHOLE_HEAD || service_of(record) < WRITE; }

/* 01, check 3 */
static int is_bad_frame(const uint8_t *record) {
    return (record[FRAME_CONTROL] & REMOTE) != 0 || dlc_of(record) > DLC_MAX || (record[FRAME_ADDRESS] & ADDRESS_MASK) > ADDRESS_MAX;
}

/* 000, figures 3.13 and 3.15: from a record with DLC 2 up that is not refused, into a message that is zero but for its first places */
static void read_long_form(const uint8_t *record, uint8_t *message) {
    int fragment = is_fragment(record);
    uint32_t length = dlc_of(record) - (fragment ? FRAGMENT_HEAD : WHOLE_HEAD);
    message[REF_KIND] = fragment ? REF_FRAGMENT : REF_WHOLE;
    message[REF_ROLE] = (uint8_t)(record[FRAME_SPECIFIERS] >> ROLE_SHIFT);
    message[REF_OBJECT] = (uint8_t)object_of(record);
    message[REF_ID] = record[FRAME_ID];
    if (fragment) {
        message[REF_NUMBER] = record[FRAME_NUMBER];
        message[REF_TOTAL] = record[FRAME_TOTAL];
    }
    message[REF_DATA_LENGTH] = (uint8_t)length;
    memcpy(message + REF_DATA, record + (fragment ? FRAME_FRAGMENT_DATA : FRAME_DATA), length);
}

/* 01, "Frame record": reading, refusals 1, 3, 5 and 8 */
uint32_t ref_read(const uint8_t *record, uint64_t record_len, uint8_t *message, uint64_t message_len) {
    if (record_len != RECORD_SIZE || message_len != REF_MESSAGE_SIZE)
        return REF_BAD_LENGTHS;
    if (is_bad_frame(record))
        return REF_BAD_FRAME;
    if (!is_short(record) && is_no_long_form(record))
        return REF_NOT_SERVABLE;
    if (!is_short(record) && is_cut_short(record))
        return REF_BAD_FORM;
    memset(message, 0, REF_MESSAGE_SIZE); /* kind short form, nothing used */
    message[REF_DIRECTION] = (uint8_t)(record[FRAME_ADDRESS] >> DIRECTION_SHIFT);
    message[REF_ADDRESS] = record[FRAME_ADDRESS] & ADDRESS_MASK;
    message[REF_SERVICE] = (uint8_t)service_of(record);
    if (!is_short(record))
        read_long_form(record, message);
    return REF_SERVED;
}

/* 01, "Frame record": unused places of a message */
static int all_zero(const uint8_t *bytes, uint32_t count) {
    uint8_t seen = 0;
    for (uint32_t i = 0; i < count; i++)
        seen |= bytes[i];
    return seen == 0;
}

/* 01, "Frame record": whether some readable frame carries the message */
static int is_carried(const uint8_t *message) {
    uint32_t kind = message[REF_KIND], length = message[REF_DATA_LENGTH];
    if (kind > REF_FRAGMENT || message[REF_DIRECTION] > DIRECTION_MAX || message[REF_ADDRESS] > ADDRESS_MAX)
        return 0;
    if (kind == REF_SHORT)
        return message[REF_SERVICE] <= SERVICE_MAX && all_zero(message + REF_ROLE, REF_MESSAGE_SIZE - REF_ROLE);
    if (message[REF_SERVICE] < WRITE || message[REF_SERVICE] > EVENT || message[REF_ROLE] > ROLE_MAX || message[REF_OBJECT] > OBJECT_MAX)
        return 0;
    if (kind == REF_WHOLE && (message[REF_NUMBER] != 0 || message[REF_TOTAL] != 0))
        return 0;
    if (length > (kind == REF_WHOLE ? WHOLE_DATA_MAX : FRAGMENT_DATA_MAX))
        return 0;
    return all_zero(message + REF_DATA + length, WHOLE_DATA_MAX - length);
}

/* 000, figures 3.13 and 3.15: into a record that is zero; gives the DLC */
static uint32_t write_long_form(const uint8_t *message, uint8_t *record) {
    uint32_t length = message[REF_DATA_LENGTH];
    record[FRAME_SPECIFIERS] = (uint8_t)(message[REF_ROLE] << ROLE_SHIFT | message[REF_OBJECT]);
    record[FRAME_ID] = message[REF_ID];
    if (message[REF_KIND] == REF_WHOLE) {
        memcpy(record + FRAME_DATA, message + REF_DATA, length);
        return WHOLE_HEAD + length;
    }
    record[FRAME_SPECIFIERS] |= FRAGMENTED;
    record[FRAME_NUMBER] = message[REF_NUMBER];
    record[FRAME_TOTAL] = message[REF_TOTAL];
    memcpy(record + FRAME_FRAGMENT_DATA, message + REF_DATA, length);
    return FRAGMENT_HEAD + length;
}

/* 01, "Frame record": writing, refusals 1 and 3 */
uint32_t ref_write(const uint8_t *message, uint64_t message_len, uint8_t *record, uint64_t record_len) {
    if (record_len != RECORD_SIZE || message_len != REF_MESSAGE_SIZE)
        return REF_BAD_LENGTHS;
    if (!is_carried(message))
        return REF_BAD_FRAME;
    memset(record, 0, RECORD_SIZE);
    uint32_t dlc = message[REF_KIND] == REF_SHORT ? 0 : write_long_form(message, record);
    record[FRAME_ADDRESS] = (uint8_t)(message[REF_DIRECTION] << DIRECTION_SHIFT | message[REF_ADDRESS]);
    record[FRAME_CONTROL] = (uint8_t)((uint32_t)message[REF_SERVICE] << SERVICE_SHIFT | dlc);
    return REF_SERVED;
}

/* 01, "Descriptor sizes", Boolean: container is what a given size holds, in bytes */
static uint32_t boolean_size(uint32_t size, uint32_t container, uint32_t points) {
    if (size == SIZE_UNDEFINED)
        return (points + 7) / 8; /* 02, 2026-04; 001, 5.1.2.5: "the lowest byte increment" that holds all points */
    return points <= 8 * container ? container : 0;
}

/* 01, "Descriptor sizes", bits 11..8 */
static uint32_t type_of(uint32_t descriptor) { return descriptor >> TYPE_SHIFT & TYPE_MASK; }

/* 01, "Descriptor sizes", bits 4..0: "count, one less than the number N" */
static uint32_t number_of(uint32_t descriptor) { return (descriptor & COUNT_MASK) + 1; }

/* 01, "Descriptor sizes" */
uint32_t ref_descriptor_size(uint32_t descriptor) {
    uint32_t size = descriptor >> SIZE_SHIFT & SIZE_MASK;
    uint32_t container = 1u << size >> 1; /* undefined 0, byte 1, word 2, long 4 */
    uint32_t number = number_of(descriptor);
    if (descriptor > DESCRIPTOR_MAX || (descriptor & RESERVED_BITS) != 0)
        return 0;
    switch (type_of(descriptor)) {
    case TYPE_SIGNED:
    case TYPE_UNSIGNED: return container;
    case TYPE_BOOLEAN: return boolean_size(size, container, number);
    case TYPE_REAL: return size == SIZE_LONG ? container : 0;
    case TYPE_CHARACTER: return number;
    case TYPE_EXTENDED_CHARACTER: return 2 * number;
    default: return 0;
    }
}

/* 01, "Object table", "Well formed": bytes 0, 2, 3, 6 and 7 of one record */
static int entry_fits(const uint8_t *entry) {
    uint32_t descriptor = low_first(entry + ENTRY_DESCRIPTOR);
    if (entry[ENTRY_OBJECT] > OBJECT_MAX || entry[ENTRY_ACCESS] > ACCESS_MAX || entry[ENTRY_LENGTH] == 0)
        return 0;
    if ((entry[ENTRY_ACCESS] & ACCESS_NETWORK) == 0)
        return descriptor == 0;
    return ref_descriptor_size(descriptor) == entry[ENTRY_LENGTH]; /* a refused descriptor has size 0, which is no length */
}

/* 01, check 2 */
static int is_well_formed(const uint8_t *table, uint32_t table_len, uint32_t store_len) {
    uint32_t lowest = 0, end = 0; /* lowest pair that may come next; end of the record before */
    for (uint32_t at = 0; at < table_len; at += ENTRY_SIZE) {
        const uint8_t *entry = table + at;
        uint32_t key = pair(entry[ENTRY_OBJECT], entry[ENTRY_ID]);
        if (!entry_fits(entry) || key < lowest || low_first(entry + ENTRY_OFFSET) != end)
            return 0;
        lowest = key + 1;
        end += entry[ENTRY_LENGTH];
    }
    return end <= store_len;
}

/* 01, check 1, the part about table and store */
static int lengths_fit(uint64_t table_len, uint64_t store_len) {
    return table_len % ENTRY_SIZE == 0 && table_len <= TABLE_MAX && store_len <= STORE_MAX;
}

/* 01, checks 1 and 2 for a table and a store alone */
uint32_t ref_table_check(const uint8_t *table, uint64_t table_len, uint64_t store_len) {
    if (!lengths_fit(table_len, store_len))
        return REF_BAD_LENGTHS;
    return is_well_formed(table, (uint32_t)table_len, (uint32_t)store_len) ? REF_SERVED : REF_BAD_TABLE;
}

/* 01, check 9: the table record of the attribute that the request names, or null */
static const uint8_t *find_entry(const uint8_t *table, uint32_t table_len, const uint8_t *request) {
    uint32_t wanted = pair(object_of(request), request[FRAME_ID]);
    for (uint32_t at = 0; at < table_len; at += ENTRY_SIZE)
        if (pair(table[at + ENTRY_OBJECT], table[at + ENTRY_ID]) == wanted)
            return table + at;
    return 0;
}

/* 01, checks 3 to 6: passed over without a frame; check 5 of the short form, which looks at the table, is left to answer_short */
static uint32_t silent_refusal(const uint8_t *record, uint32_t own) {
    if (is_bad_frame(record))
        return REF_BAD_FRAME;
    if (record[FRAME_ADDRESS] != own) /* own is at most 125, so a set Dir/Pri differs too */
        return REF_NOT_ADDRESSED;
    if (is_short(record))
        return REF_SERVED;
    if (is_no_long_form(record))
        return REF_NOT_SERVABLE;
    return record[FRAME_SPECIFIERS] >> ROLE_SHIFT == REQUEST ? REF_SERVED : REF_NOT_REQUEST;
}

/* 01, checks 7 and 8 */
static uint32_t form_refusal(const uint8_t *request) {
    if (service_of(request) >= ACTION)
        return REF_ACTION_OR_EVENT;
    if (service_of(request) == READ)
        return is_fragment(request) || dlc_of(request) != WHOLE_HEAD ? REF_BAD_FORM : REF_SERVED;
    return is_cut_short(request) ? REF_BAD_FORM : REF_SERVED;
}

/* 01, checks 9 to 11 */
static uint32_t attribute_refusal(const uint8_t *request, const uint8_t *entry) {
    int reads = service_of(request) == READ;
    if (entry == 0)
        return REF_NO_ATTRIBUTE;
    if ((entry[ENTRY_ACCESS] & (reads ? ACCESS_READ : ACCESS_WRITE)) == 0)
        return REF_NO_ACCESS;
    if (reads)
        return REF_SERVED;
    uint32_t length = is_fragment(request) ? request[FRAME_TOTAL] : dlc_of(request) - WHOLE_HEAD;
    return length == entry[ENTRY_LENGTH] ? REF_SERVED : REF_WRONG_LENGTH;
}

/* 01, "Work area": a record that is not filling is idle */
static int is_filling(const uint8_t *join) {
    return join[JOIN_STATUS] == STATUS_FILLING && join[JOIN_NEXT] >= 1 && FRAGMENT_DATA_MAX * join[JOIN_NEXT] < join[JOIN_TOTAL];
}

/* 01, checks 12 and 14; 02, 2026-05, took 13 out */
static uint32_t fragment_refusal(const uint8_t *request, const uint8_t *join) {
    uint32_t number = request[FRAME_NUMBER], total = request[FRAME_TOTAL], start = FRAGMENT_DATA_MAX * number;
    if (start >= total)
        return REF_BAD_FRAGMENT;
    uint32_t due = total - start < FRAGMENT_DATA_MAX ? total - start : FRAGMENT_DATA_MAX;
    if (dlc_of(request) - FRAGMENT_HEAD != due)
        return REF_BAD_FRAGMENT;
    if (number == 0)
        return REF_SERVED;
    if (!is_filling(join) || join[JOIN_ID] != request[FRAME_ID] || join[JOIN_TOTAL] != total || join[JOIN_NEXT] != number)
        return REF_OUT_OF_SEQUENCE;
    return REF_SERVED;
}

/* 01, "Frame record": the guest's Dir/Pri and address, the request's service, object and ID; data zero */
static void put_header(uint8_t *restrict out, const uint8_t *restrict request, uint32_t role, uint32_t flag, uint32_t dlc) {
    out[FRAME_ADDRESS] = (uint8_t)(request[FRAME_ADDRESS] | FROM_SOURCE);
    out[FRAME_CONTROL] = (uint8_t)((request[FRAME_CONTROL] & SERVICE_MASK) | dlc);
    out[FRAME_SPECIFIERS] = (uint8_t)(role << ROLE_SHIFT | flag | object_of(request));
    out[FRAME_ID] = request[FRAME_ID];
    memset(out + FRAME_DATA, 0, RECORD_SIZE - FRAME_DATA);
}

/* 02, 2026-06: "The pairs are one table, and every refusal from 7 on has exactly one entry"; the other numbers have 0, which is no code of ours */
static const uint8_t error_codes[] = {
    [REF_ACTION_OR_EVENT] = ILLEGAL_SERVICE_PARAMETERS, /* figure 3.48 has code 0, Service Not Available, for services 0 to 3 alone */
    [REF_BAD_FORM] = ILLEGAL_DLC,
    [REF_NO_ATTRIBUTE] = ILLEGAL_SERVICE_PARAMETERS,
    [REF_NO_ACCESS] = READ_ONLY_VARIABLE, /* a Read of what may only be written has it too: one entry */
    [REF_WRONG_LENGTH] = ILLEGAL_DLC,
    [REF_BAD_FRAGMENT] = ILLEGAL_DLC,
    [REF_OUT_OF_SEQUENCE] = REF_OUT_OF_SEQUENCE, /* no code names the fault: "otherwise our refusal number" */
};

/* 02, 2026-06 */
uint32_t ref_error_code(uint32_t number) { return number < sizeof error_codes ? error_codes[number] : 0; }

/* 02, 2026-06: "Error frames get DLC 3 and one data byte", behind the ID (000, figure 3.9); only for a refusal from 7 on */
static void put_error(uint8_t *restrict out, const uint8_t *restrict request, uint32_t refusal) {
    put_header(out, request, ERROR, 0, WHOLE_HEAD + ERROR_CODE_SIZE);
    out[FRAME_DATA] = error_codes[refusal];
}

/* 000, figure 3.15: one fragment of a Read's answer */
static void put_fragment(uint8_t *restrict out, const uint8_t *restrict request, uint32_t number, uint32_t total,
                         const uint8_t *restrict data, uint32_t size) {
    put_header(out, request, SUCCESSFUL, FRAGMENTED, FRAGMENT_HEAD + size);
    out[FRAME_NUMBER] = (uint8_t)number;
    out[FRAME_TOTAL] = (uint8_t)total;
    memcpy(out + FRAME_FRAGMENT_DATA, data, size);
}

/* 01, "Served Read": gives the count of frames */
static uint32_t serve_read(uint8_t *restrict out, const uint8_t *restrict request, const uint8_t *restrict data, uint32_t length) {
    if (length <= WHOLE_DATA_MAX) {
        put_header(out, request, SUCCESSFUL, 0, WHOLE_HEAD + length);
        memcpy(out + FRAME_DATA, data, length);
        return 1;
    }
    uint32_t number = 0, at = 0;
    for (; length - at > FRAGMENT_DATA_MAX; number++, at += FRAGMENT_DATA_MAX)
        put_fragment(out + RECORD_SIZE * number, request, number, length, data + at, FRAGMENT_DATA_MAX);
    put_fragment(out + RECORD_SIZE * number, request, number, length, data + at, length - at);
    return number + 1;
}

/* 01, "Served fragment": gives the count of frames; the last one's own bytes go to the attribute alone */
static uint32_t serve_fragment(uint8_t *out, const uint8_t *request, uint8_t *join, uint8_t *attribute) {
    uint32_t number = request[FRAME_NUMBER], total = request[FRAME_TOTAL], start = FRAGMENT_DATA_MAX * number;
    if (start + FRAGMENT_DATA_MAX < total) {
        join[JOIN_STATUS] = STATUS_FILLING;
        join[JOIN_ID] = request[FRAME_ID];
        join[JOIN_TOTAL] = (uint8_t)total;
        join[JOIN_NEXT] = (uint8_t)(number + 1);
        memcpy(join + JOIN_DATA + start, request + FRAME_FRAGMENT_DATA, FRAGMENT_DATA_MAX);
        return 0;
    }
    memcpy(attribute, join + JOIN_DATA, start);
    memcpy(attribute + start, request + FRAME_FRAGMENT_DATA, total - start);
    join[JOIN_STATUS] = STATUS_IDLE;
    put_header(out, request, SUCCESSFUL, 0, WHOLE_HEAD);
    return 1;
}

/* 01, the three served cases: gives the count of frames */
static uint32_t serve(uint8_t *out, const uint8_t *request, uint8_t *join, uint8_t *attribute, uint32_t length) {
    if (service_of(request) == READ)
        return serve_read(out, request, attribute, length);
    if (is_fragment(request))
        return serve_fragment(out, request, join, attribute);
    memcpy(attribute, request + FRAME_DATA, length);
    put_header(out, request, SUCCESSFUL, 0, WHOLE_HEAD);
    return 1;
}

/* 01, checks 7 to 14 and the answer of each, or the service */
static uint32_t answer(const uint8_t *request, const uint8_t *table, uint32_t table_len, uint8_t *store, uint8_t *work, uint8_t *out) {
    const uint8_t *entry = 0;
    uint8_t *join = work + JOIN_SIZE * object_of(request);
    uint32_t refusal = form_refusal(request);
    if (refusal == REF_SERVED) {
        entry = find_entry(table, table_len, request);
        refusal = attribute_refusal(request, entry);
    }
    if (refusal == REF_SERVED && is_fragment(request))
        refusal = fragment_refusal(request, join);
    if (refusal == REF_SERVED)
        return REF_PER_FRAME * serve(out, request, join, store + low_first(entry + ENTRY_OFFSET), entry[ENTRY_LENGTH]);
    if (refusal == REF_OUT_OF_SEQUENCE)
        join[JOIN_STATUS] = STATUS_IDLE;
    put_error(out, request, refusal);
    return refusal + REF_PER_FRAME;
}

/* 02, 2026-01: "A short Write ON or OFF"; only for the short form */
static int is_short_write(const uint8_t *request) { return service_of(request) == WRITE_OFF || service_of(request) == WRITE_ON; }

/* 02, 2026-01: "a single Boolean (N = 1, one byte)", of a network record, whose length is its descriptor's size */
static int is_single_boolean(const uint8_t *entry) {
    uint32_t descriptor = low_first(entry + ENTRY_DESCRIPTOR);
    return type_of(descriptor) == TYPE_BOOLEAN && number_of(descriptor) == 1 && entry[ENTRY_LENGTH] == 1;
}

/* 02, 2026-01: "the first network record of object 0", or null; objects rise, so object 0's records are in front */
static const uint8_t *first_network_entry(const uint8_t *table, uint32_t table_len) {
    for (uint32_t at = 0; at < table_len && table[at + ENTRY_OBJECT] == SHORT_FORM_OBJECT; at += ENTRY_SIZE)
        if ((table[at + ENTRY_ACCESS] & ACCESS_NETWORK) != 0)
            return table + at;
    return 0;
}

/* 02, 2026-01: "000's short acknowledge of that Write, with Dir/Pri 1" (figure 3.4, example 5.1.4); 01: bytes beyond the DLC are zero */
static void put_short_acknowledge(uint8_t *out, const uint8_t *request) {
    uint32_t service = service_of(request) == WRITE_ON ? WRITE_ON_ACK : WRITE_OFF_ACK;
    memset(out, 0, RECORD_SIZE);
    out[FRAME_ADDRESS] = (uint8_t)(request[FRAME_ADDRESS] | FROM_SOURCE);
    out[FRAME_CONTROL] = (uint8_t)(service << SERVICE_SHIFT);
}

/* 02, 2026-01: check 5, the last for the short form, "for the other six codes and where object 0 has no such record", or the service */
static uint32_t answer_short(const uint8_t *request, const uint8_t *table, uint32_t table_len, uint8_t *store, uint8_t *out) {
    const uint8_t *entry = is_short_write(request) ? first_network_entry(table, table_len) : 0;
    if (entry == 0 || !is_single_boolean(entry) || (entry[ENTRY_ACCESS] & ACCESS_WRITE) == 0)
        return REF_NOT_SERVABLE;
    store[low_first(entry + ENTRY_OFFSET)] = service_of(request) == WRITE_ON ? STATE_ON : STATE_OFF;
    put_short_acknowledge(out, request);
    return REF_SERVED + REF_PER_FRAME;
}

/* 01, "One frame, one reply" */
uint32_t ref_step(const uint8_t *record, uint64_t record_len, uint32_t own,
                  const uint8_t *table, uint64_t table_len, uint8_t *store, uint64_t store_len,
                  uint8_t *work, uint64_t work_len, uint8_t *out, uint64_t out_len) {
    if (record_len != RECORD_SIZE || !lengths_fit(table_len, store_len) || work_len != WORK_SIZE || out_len < OUT_MIN || own > ADDRESS_MAX)
        return REF_BAD_LENGTHS;
    if (!is_well_formed(table, (uint32_t)table_len, (uint32_t)store_len))
        return REF_BAD_TABLE;
    uint32_t refusal = silent_refusal(record, own);
    if (refusal != REF_SERVED)
        return refusal;
    if (is_short(record))
        return answer_short(record, table, (uint32_t)table_len, store, out);
    return answer(record, table, (uint32_t)table_len, store, work, out);
}
