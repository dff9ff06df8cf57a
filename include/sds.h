/*
 * sds.h: a guest of the Smart Distributed System (SDS) application layer.
 *
 * The device serves Read and Write, whole and in fragments, of the attributes that a table names, and the short Writes ON and OFF of one of
 * them. It has no memory of its own: all that it knows stands in buffers that you lend it for the time of a call. There is no set-up call, no
 * heap and no state besides those buffers, so one program can serve as many devices as it has buffers for.
 *
 *     static const uint8_t table[] = {3, 10, 3, 2, 0, 0, 0, 0};    object 3, attribute 10: two bytes, may be read and written
 *     static uint8_t store[2], work[SDS_WORK], out[SDS_OUT];       zeros: work must begin so
 *
 *     static const struct sds_device device = {
 *         .address = 9,
 *         .table = {table, sizeof table},
 *         .store = {store, sizeof store},
 *         .work = {work, sizeof work},
 *         .out = {out, sizeof out},
 *     };
 *
 *     uint32_t reply = sds_device_step(&device, record, SDS_RECORD);
 *     for (uint32_t i = 0; i < SDS_COUNT(reply); i++)
 *         send(out + SDS_RECORD * i);
 *
 * A record is a CAN frame as ten bytes: the upper eight bits of the 11-bit identifier (Dir/Pri, then the address), then a byte of the lower
 * three (the service), RTR and DLC, then eight data bytes. Data bytes beyond the DLC are not read, and are written as 0. sds_can.h makes
 * records of frames and frames of records.
 *
 * A table is records of struct sds_attribute, up to SDS_ATTRIBUTES of them; none is legal. It is well formed if each field is in its range,
 * object and ID rise from record to record, the first offset is 0 and each next one is the end of the record before, the last end is not
 * beyond the store, and a network record is as long as its descriptor says. sds_table_check tells.
 *
 * A short Write has DLC 0 and so names no attribute. It is for the first network record of object 0, in the order of the table: if that is a
 * single Boolean in one byte (descriptor 0100 or 0120 hex, whatever the upper two bits are) and may be written, its byte becomes 1 (ON) or
 * 0 (OFF), and one frame answers, the acknowledge of that Write in the short form. If it is not, or there is none, the short Write is refused.
 *
 * What you owe: buffers that do not overlap, each as long as you say; a null pointer only with a length of 0. Nothing else: every content and
 * every length gets an answer, and every call ends.
 */
#ifndef SDS_H
#define SDS_H

#include <stdint.h>

#ifdef __cplusplus
extern "C" {
#endif

#define SDS_RECORD 10                                           /* bytes of a record */
#define SDS_MESSAGE 16                                          /* bytes of a message */
#define SDS_ADDRESS_MOST 125                                    /* highest address of a device */
#define SDS_OBJECTS 32                                          /* objects of a device, from 0 */
#define SDS_ATTRIBUTES 1024                                     /* most records of a table */
#define SDS_TABLE_RECORD 8                                      /* bytes of one */
#define SDS_TABLE_MOST (SDS_ATTRIBUTES * SDS_TABLE_RECORD)      /* most bytes of a table */
#define SDS_STORE_MOST 32768                                    /* most bytes of a store */
#define SDS_WORK_RECORD 260                                     /* bytes of one object's part of a work area */
#define SDS_WORK (SDS_OBJECTS * SDS_WORK_RECORD)                /* bytes of a work area */
#define SDS_FRAMES 64                                           /* most frames of an answer */
#define SDS_OUT (SDS_FRAMES * SDS_RECORD)                       /* least bytes of an output */

/* A reply is a number and a count of frames. */
#define SDS_NUMBER(reply) ((reply) & 255u)
#define SDS_COUNT(reply) ((reply) >> 8)

/*
 * The number of a reply. The first whose condition holds is given; 6 to 14 do not apply to the short form.
 *
 * There are thirteen refusals, 1 to 12 and 14: no call answers 13, and that number is not used again. 1 to 6 alter nothing at all. 7 to 12 put one
 * error frame at the front of the output and alter nothing else. 14 does that too, and drops what was joined so far for that object. An error frame says
 * why in its one byte of data (sds_error_code). With 0 there are 0 to SDS_FRAMES frames; the output beyond them stays as it was.
 */
enum sds_number {
    SDS_SERVED = 0,
    SDS_BAD_LENGTH = 1,         /* a record not of SDS_RECORD bytes; a table no multiple of SDS_TABLE_RECORD or over SDS_TABLE_MOST; a store over
                                   SDS_STORE_MOST; a work area not of SDS_WORK; an output under SDS_OUT; an own address over SDS_ADDRESS_MOST */
    SDS_BAD_TABLE = 2,          /* the table is not well formed */
    SDS_BAD_FRAME = 3,          /* RTR, a DLC over 8, or an address over SDS_ADDRESS_MOST */
    SDS_NOT_ADDRESSED = 4,      /* sent by a guest, or to another address */
    SDS_BAD_SERVICE = 5,        /* DLC 1, or DLC 2 up with a service of 0 to 3; of the short form, which is DLC 0, the six services besides
                                   Write ON and OFF, and these two where object 0 has no such record as is said above */
    SDS_NOT_REQUEST = 6,        /* not a Request */
    SDS_ACTION_OR_EVENT = 7,    /* Action or Event */
    SDS_BAD_FORM = 8,           /* a Read with the fragment flag or with data; a fragment of a Write too short for number and total */
    SDS_NO_ATTRIBUTE = 9,       /* no such object and attribute */
    SDS_NO_ACCESS = 10,         /* the attribute may not be read, or not be written */
    SDS_OTHER_LENGTH = 11,      /* a Write of another length than the attribute's */
    SDS_BAD_FRAGMENT = 12,      /* a fragment that begins at or behind the total, or of another length than its place asks for */
    SDS_OUT_OF_ORDER = 14       /* a fragment that does not follow the one before */
};

/*
 * One frame. Gives a reply, whose frames stand at the front of `out`, SDS_RECORD bytes each, in the order in which they are to be sent. Writes
 * that are served alter `store`, of it the bytes of their attribute, and one in fragments with its last. Fragments of Writes alter `work`, and no
 * other frame does: a short Write leaves what is half joined for object 0 as it is. Nothing alters `record` and `table`.
 * `address` is the device's own, and 32 bits wide so that 265 is refused and not taken for 9.
 */
uint32_t sds_step(const uint8_t *record, uint64_t record_len, uint32_t address,
                  const uint8_t *table, uint64_t table_len, uint8_t *store, uint64_t store_len,
                  uint8_t *work, uint64_t work_len, uint8_t *out, uint64_t out_len);

/*
 * The byte of data of the error frame that is put with this number: the code of the specification's list (figure 3.48) that names the same fault, where one
 * does, otherwise the number itself. Some refusals share a code. 0, which is no refusal's code, where no error frame is put with this number. Earlier
 * versions put error frames of DLC 2, without data. docs/ERRORS.md says in plain words what each code means.
 */
uint32_t sds_error_code(uint32_t number);

/* What a device lends to each of its calls, and sds_step by it. */
struct sds_table {
    const uint8_t *bytes;
    uint64_t length;
};
struct sds_area {
    uint8_t *bytes;
    uint64_t length;
};
struct sds_device {
    uint32_t address;
    struct sds_table table;
    struct sds_area store, work, out;
};

static inline uint32_t sds_device_step(const struct sds_device *device, const uint8_t *record, uint64_t record_len)
{
    return sds_step(record, record_len, device->address,
                    device->table.bytes, device->table.length, device->store.bytes, device->store.length,
                    device->work.bytes, device->work.length, device->out.bytes, device->out.length);
}

/* A record of a table. Numbers of two bytes have the low byte first. */
struct sds_attribute {
    uint8_t object;           /* under SDS_OBJECTS */
    uint8_t id;
    uint8_t access;           /* enum sds_access, no other bits */
    uint8_t length;           /* 1 to 255 */
    uint8_t offset[2];        /* in the store */
    uint8_t descriptor[2];    /* the data descriptor; 0 unless network data */
};
enum sds_access { SDS_ACCESS_READ = 1, SDS_ACCESS_WRITE = 2, SDS_ACCESS_NETWORK = 4 };

/* What sds_step says of a table and of a store of this length, for whichever frame: 0 (well), 1 (their lengths) or 2 (not well formed). */
uint32_t sds_table_check(const uint8_t *table, uint64_t table_len, uint64_t store_len);

/*
 * The bytes that a data descriptor of the component model describes; 0 where it is refused, as is every number over 65,535.
 *
 * A Boolean of undefined size takes as few bytes as hold its points. Earlier versions took 4 for 17 to 24 points, descriptors 0110 to 0117 hex, whatever the
 * upper two bits are; now these take 3 (docs/requests/2026-04.md), and a table in which such a record has length 4 is refused with SDS_BAD_TABLE. Give it
 * length 3, take its stray byte out of a store that you have kept, and 1 off each offset behind it; or leave the four bytes and describe them as a long,
 * 0170 to 0177.
 */
uint32_t sds_descriptor_size(uint32_t descriptor);

/* A record taken apart. Fields that a kind does not use are 0: the short form ends at its service, and a whole message has no number and total. */
struct sds_message {
    uint8_t kind;          /* enum sds_kind */
    uint8_t from_guest;    /* Dir/Pri: 0 where the address is that of the receiver, 1 where it is that of the sender */
    uint8_t address;
    uint8_t service;       /* enum sds_service, but in the short form enum sds_short_service */
    uint8_t response;      /* enum sds_response */
    uint8_t object;
    uint8_t id;            /* of the attribute, action or event */
    uint8_t number;        /* of the fragment */
    uint8_t total;         /* bytes of the fragmented message */
    uint8_t length;        /* bytes of data, at most 6, of a fragment 4 */
    uint8_t data[6];
};
enum sds_kind { SDS_KIND_SHORT = 0, SDS_KIND_WHOLE = 1, SDS_KIND_FRAGMENT = 2 };
enum sds_service { SDS_SERVICE_WRITE = 4, SDS_SERVICE_READ = 5, SDS_SERVICE_ACTION = 6, SDS_SERVICE_EVENT = 7 };
enum sds_short_service {
    SDS_SHORT_CHANGE_OFF = 0,    /* Change of State */
    SDS_SHORT_CHANGE_ON = 1,
    SDS_SHORT_CHANGE_OFF_ACK = 2,
    SDS_SHORT_CHANGE_ON_ACK = 3,
    SDS_SHORT_WRITE_OFF = 4,
    SDS_SHORT_WRITE_ON = 5,
    SDS_SHORT_WRITE_OFF_ACK = 6,
    SDS_SHORT_WRITE_ON_ACK = 7
};
enum sds_response { SDS_REQUEST = 0, SDS_SUCCESSFUL = 1, SDS_ERROR = 2, SDS_WAIT = 3 };

/*
 * Takes a record apart. Gives 0, and then `message` holds a struct sds_message; or the first of these, and then `message` stays as it was:
 *
 *     1  the record is not SDS_RECORD bytes, or the message not SDS_MESSAGE
 *     3  as above
 *     5  DLC 1, or DLC 2 up with a service of 0 to 3
 *     8  the fragment flag with DLC 2 or 3, whatever the service
 */
uint32_t sds_read(const uint8_t *record, uint64_t record_len, uint8_t *message, uint64_t message_len);

/*
 * Puts a record together from a message. Gives 0, and then all bytes of `record` are set. Refused are 1 (a length) and 3 (a message that
 * sds_read gives for no record: a field out of its range, or an unused one that is not 0); then `record` stays as it was.
 */
uint32_t sds_write(const uint8_t *message, uint64_t message_len, uint8_t *record, uint64_t record_len);

static inline uint32_t sds_message_read(const uint8_t record[SDS_RECORD], struct sds_message *message)
{
    return sds_read(record, SDS_RECORD, (uint8_t *)message, sizeof *message);
}

static inline uint32_t sds_message_write(const struct sds_message *message, uint8_t record[SDS_RECORD])
{
    return sds_write((const uint8_t *)message, sizeof *message, record, SDS_RECORD);
}

/* The structs of bytes have no gaps: a compiler that sees it otherwise stops here. */
typedef char sds_attribute_has_no_gaps[sizeof(struct sds_attribute) == SDS_TABLE_RECORD ? 1 : -1];
typedef char sds_message_has_no_gaps[sizeof(struct sds_message) == SDS_MESSAGE ? 1 : -1];

#ifdef __cplusplus
}
#endif

#endif
