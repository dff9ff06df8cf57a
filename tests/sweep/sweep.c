/*
 * Sweeps sds_read and sds_write: all 65,536 pairs of a record's first two bytes with four bodies, records of each length from 0 to 20, and messages with one
 * field swept over all 256 values. The numbers below follow from the paper's rules alone; the run has to find them.
 *
 * Reading (01, "Frame record" and check 3). Byte 0 is Dir/Pri (2 values) and address (128), byte 1 service type (8), RTR (2) and DLC (16):
 * 2 * 128 * 8 * 2 * 16 = 65,536 pairs. Each record has ten bytes, so none is refused with 1.
 *   3: RTR 1, DLC over 8, address 126 or 127. What passes has one of 2 * 126 = 252 bytes 0 (Dir/Pri, address 0 to 125) and one of 8 * 9 = 72 bytes 1
 *      (service, RTR 0, DLC 0 to 8): 252 * 72 = 18,144 pairs. So 65,536 - 18,144 = 47,392 are refused with 3.
 *   5: of the 72 bytes 1 those with DLC 1 and any service, 8, and those with DLC 2 to 8 (7) and services 0 to 3 (4), 28: 252 * (8 + 28) = 9,072.
 *   8: with the flag set those with DLC 2 or 3 (2) and services 4 to 7 (4), 8: 252 * 8 = 2,016. With the flag clear none.
 *   read: those with DLC 0 and any service, 8, whatever stands where the flag is, and those with DLC 2 to 8 (7) and services 4 to 7 (4), 28:
 *      252 * (8 + 28) = 9,072. With the flag set DLC 4 to 8 (5) is left of the seven, 20: 252 * (8 + 20) = 7,056.
 *      Each is written back, with zeros beyond its DLC.
 *   Bodies a and d have the flag clear: 9,072 + 47,392 + 9,072 = 65,536. Bodies b and c have it set: 7,056 + 47,392 + 9,072 + 2,016 = 65,536.
 * Of the 21 lengths 0 to 20 one is ten: 1 read, 20 refused with 1.
 *
 * Writing. Of the 256 values of a field are written those that a frame can carry; the others are refused with 3.
 *   dir {0,1}: 2, so 254 refused; address {0 .. 125}: 126 and 130; service {0 .. 7} in the short form: 8 and 248 (000, figure 3.3).
 *   service {4 .. 7} in the long form: 4 and 252 (figure 3.14); response {0 .. 3}: 4 and 252 (figure 3.8); object {0 .. 31}: 32 and 224 (figure 3.12).
 *   id {0 .. 255}: 256 (3.2.2.2.1.1); total {0 .. 255}: 256 (figure 3.15); number: 256, as 01 has any number byte, where figure 3.15 has {0 .. 63}.
 *   len of plain data {0 .. 6}: 7 and 249 (figure 3.13); of a fragment's {0 .. 4}: 5 and 251 (figure 3.15). The data is zero, so that no other
 *   rule refuses. b5 lies beyond a len of 5, where a frame carries nothing: only 0 is written, 1 and 255.
 * A record of 9 or 11 bytes: refused with 1 (01). Each refusal leaves the record as it was.
 */
#include <stdio.h>
#include <string.h>
#include "sds.h"

/* what passed; what was written back, or left as it was; what was refused, by its number */
struct counts {
    unsigned passed, right, refused[256];
};

static void print(const char *label, const char *passed, const char *right, const struct counts *c)
{
    unsigned other = 0;
    for (int n = 1; n < 256; n++)
        other += n == 1 || n == 3 || n == 5 || n == 8 ? 0 : c->refused[n];
    printf("%s: %s %u %s %u refused 1: %u 3: %u 5: %u 8: %u other: %u\n", label, passed, c->passed, right, c->right,
           c->refused[1], c->refused[3], c->refused[5], c->refused[8], other);
}

/* a message is written back into a record of FF bytes; the DLC is taken from byte 1 here, so that the codec does not judge itself */
static int is_back(const uint8_t *record, const uint8_t *message)
{
    uint8_t again[SDS_RECORD], wanted[SDS_RECORD] = {0};
    unsigned end = record[1] % 16u + 2;
    memset(again, 0xFF, sizeof again);
    memcpy(wanted, record, end > SDS_RECORD ? SDS_RECORD : end);
    return sds_write(message, SDS_MESSAGE, again, sizeof again) == 0 && !memcmp(again, wanted, sizeof wanted);
}

/* a refusal has to leave the message buffer: what alters it counts under no number that the rules have */
static void read_one(const uint8_t *record, uint64_t length, struct counts *c)
{
    uint8_t message[SDS_MESSAGE], before[SDS_MESSAGE];
    memset(before, 0x5A, sizeof before);
    memcpy(message, before, sizeof message);
    uint32_t number = sds_read(record, length, message, sizeof message);
    if (number == 0) {
        c->passed++;
        c->right += is_back(record, message) ? 1 : 0;
    } else {
        c->refused[memcmp(message, before, sizeof message) || number > 255 ? 255 : number]++;
    }
}

static void bodies(void)
{
    static const struct { const char *label; uint8_t body[8]; } rows[] = {
        {"a", {0x03, 0x0A, 0x2C, 0x01, 0x55, 0x66, 0x77, 0x88}},    /* the flag is clear, and each data byte is more than 0 */
        {"b", {0x23, 0x38, 0x07, 0x20, 0x41, 0x42, 0x43, 0x44}},    /* the flag is set: fragment 7 of 32 bytes */
        {"c", {0xFF, 0xFF, 0xFF, 0xFF, 0xFF, 0xFF, 0xFF, 0xFF}},    /* the flag is set, and each other field is at its most */
        {"d", {0}},
    };
    for (size_t i = 0; i < sizeof rows / sizeof *rows; i++) {
        struct counts c = {0};
        for (unsigned pair = 0; pair < 65536; pair++) {
            uint8_t record[SDS_RECORD] = {(uint8_t)(pair / 256), (uint8_t)(pair % 256)};
            memcpy(record + 2, rows[i].body, 8);
            read_one(record, sizeof record, &c);
        }
        print(rows[i].label, "read", "written back", &c);
    }
}

/* the first n of twenty bytes. They begin with a record that is read, 01's P1, and it stands there twice */
static void lengths(void)
{
    static const uint8_t bytes[20] = {0x09, 0x84, 0x03, 0x0A, 0x2C, 0x01, 0, 0, 0, 0, 0x09, 0x84, 0x03, 0x0A, 0x2C, 0x01};
    struct counts c = {0};
    for (uint64_t n = 0; n <= sizeof bytes; n++)
        read_one(bytes, n, &c);
    print("lengths 0 to 20", "read", "written back", &c);
}

/* writes into the first n bytes of eleven. A refusal has to leave all of them */
static void write_one(const uint8_t *message, uint64_t n, struct counts *c)
{
    char bytes[] = "ABCDEFGHIJK";
    uint32_t number = sds_write(message, SDS_MESSAGE, (uint8_t *)bytes, n);
    if (number == 0)
        c->passed++;
    else
        c->refused[number > 255 ? 255 : number]++;
    c->right += memcmp(bytes, "ABCDEFGHIJK", sizeof bytes) ? 0 : 1;
}

/* messages that are fine but for one place, which is swept: a Successful Read from address 9, of object 2 and ID 56, and a fragment of a Write to it */
#define SHORT {0, 1, 9, 5}
#define PLAIN {1, 1, 9, 5, 1, 2, 56, 0, 0, 6, 1, 2, 3, 4, 5, 6}
#define PLAIN_OF_5 {1, 1, 9, 5, 1, 2, 56, 0, 0, 5, 1, 2, 3, 4, 5}
#define PLAIN_OF_ZEROS {1, 1, 9, 5, 1, 2, 56}
#define FRAGMENT {2, 0, 9, 4, 0, 2, 56, 7, 32, 4, 1, 2, 3, 4}
#define FRAGMENT_OF_ZEROS {2, 0, 9, 4, 0, 2, 56, 7, 32}

static void fields(void)
{
    static const struct { const char *label; uint8_t fine[SDS_MESSAGE]; int place; } rows[] = {
        {"dir (long)", PLAIN, 1}, {"dir (short)", SHORT, 1}, {"address (long)", PLAIN, 2}, {"address (short)", SHORT, 2},
        {"service (long)", PLAIN, 3}, {"service (short)", SHORT, 3}, {"response", PLAIN, 4}, {"object", PLAIN, 5}, {"id", PLAIN, 6},
        {"number", FRAGMENT, 7}, {"total", FRAGMENT, 8}, {"len (plain)", PLAIN_OF_ZEROS, 9}, {"len (fragment)", FRAGMENT_OF_ZEROS, 9},
        {"b5 (plain, len 5)", PLAIN_OF_5, 15},
    };
    for (size_t i = 0; i < sizeof rows / sizeof *rows; i++) {
        struct counts c = {0};
        for (unsigned x = 0; x < 256; x++) {
            uint8_t message[SDS_MESSAGE];
            memcpy(message, rows[i].fine, sizeof message);
            message[rows[i].place] = (uint8_t)x;
            write_one(message, SDS_RECORD, &c);
        }
        print(rows[i].label, "written", "left as it was", &c);
    }
}

int main(void)
{
    static const uint8_t plain[SDS_MESSAGE] = PLAIN;
    struct counts c = {0};
    bodies();
    lengths();
    fields();
    write_one(plain, 9, &c);
    write_one(plain, 11, &c);
    print("records of 9 and 11 bytes", "written", "left as it was", &c);
    return 0;
}
