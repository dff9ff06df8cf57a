/*
 * Calls all six entry points of the device's archive and checks the cases that the scope page marks P, with every byte of every lent buffer. Then what
 * the headers add to them: structs, and records of CAN frames. Then the three of the host's archive: of captures, and the collector.
 */
#include <stdio.h>
#include <string.h>
#include "sds_can.h"
#include "sds_host.h"

enum { STORE = 67 };
static const uint8_t table[] = {
#include "sample_table.h"
};
static uint8_t store[STORE], work[SDS_WORK], out[SDS_OUT];             /* lent */
static uint8_t store_is[STORE], work_is[SDS_WORK], out_is[SDS_OUT];    /* what they are to hold */
static int failed;

static void check(const char *name, int holds)
{
    printf("%s %s\n", name, holds ? "ok" : "FAILED");
    failed |= !holds;
}

#define RECORD(...) ((const uint8_t[SDS_RECORD]){__VA_ARGS__})

/* the record, its number, and the frame that answers it, if one does */
static void step(const char *name, const uint8_t record[SDS_RECORD], uint32_t number, const uint8_t frame[SDS_RECORD])
{
    uint32_t count = frame != NULL;
    if (count)
        memcpy(out_is, frame, SDS_RECORD);
    const struct sds_device device = {9, {table, sizeof table}, {store, sizeof store}, {work, sizeof work}, {out, sizeof out}};
    uint32_t reply = sds_device_step(&device, record, SDS_RECORD);
    check(name, SDS_NUMBER(reply) == number && SDS_COUNT(reply) == count && !memcmp(store, store_is, sizeof store) &&
                    !memcmp(work, work_is, sizeof work) && !memcmp(out, out_is, sizeof out));
}

static void steps(void)
{
    store_is[33] = 0x2C, store_is[34] = 0x01;
    step("P1", RECORD(0x09, 0x84, 3, 10, 0x2C, 0x01), 0, RECORD(0x89, 0x82, 0x43, 10));
    step("P2", RECORD(0x09, 0x83, 3, 10, 0x2C), 11, RECORD(0x89, 0x83, 0x83, 10, 9));
    step("P3", RECORD(0x09, 0x89, 3, 10, 0x2C, 0x01), 3, NULL);
    step("P4, address 10", RECORD(0x0A, 0x84, 3, 10, 0x2C, 0x01), 4, NULL);
    step("P4, address 126", RECORD(0x7E, 0x84, 3, 10, 0x2C, 0x01), 3, NULL);
    step("P5, DLC 0", RECORD(0x09, 0x80), 5, NULL);
    step("P5, DLC 1", RECORD(0x09, 0x81), 5, NULL);
    step("P6", RECORD(0x09, 0x83, 2, 18, 1), 10, RECORD(0x89, 0x83, 0x82, 18, 2));
    step("P7", RECORD(0x09, 0x83, 2, 19, 1), 9, RECORD(0x89, 0x83, 0x82, 19, 1));
    step("P9", RECORD(0x09, 0x87, 0x22, 56, 7, 32, 1, 2, 3), 12, RECORD(0x89, 0x83, 0x82, 56, 9));
    step("P10", RECORD(0x09, 0x88, 0x22, 56, 8, 32, 1, 2, 3, 4), 12, RECORD(0x89, 0x83, 0x82, 56, 9));
    step("P11", RECORD(0x09, 0x88, 0x22, 56, 0, 31, 1, 2, 3, 4), 11, RECORD(0x89, 0x83, 0x82, 56, 9));
    memcpy(work_is + 2 * SDS_WORK_RECORD, (const uint8_t[]){1, 56, 32, 1, 'A', 'B', 'C', 'D'}, 8);
    step("P8, number 0", RECORD(0x09, 0x88, 0x22, 56, 0, 32, 'A', 'B', 'C', 'D'), 0, NULL);
    work_is[2 * SDS_WORK_RECORD] = 0;
    step("P8, number 2", RECORD(0x09, 0x88, 0x22, 56, 2, 32, 'E', 'F', 'G', 'H'), 14, RECORD(0x89, 0x83, 0x82, 56, 14));
}

static void sizes(void)
{
    static const uint32_t rows[][2] = {{0x0100, 1}, {0x010F, 2}, {0x0143, 2}, {0x0040, 2}, {0x0110, 3}, {0x073F, 32}, {0x0128, 0}, {0x0000, 0}, {0x10100, 0}};
    int holds = 1;
    for (unsigned i = 0; i < sizeof rows / sizeof rows[0]; i++)
        holds &= sds_descriptor_size(rows[i][0]) == rows[i][1];
    check("P12", holds);
}

/* 02, 2026-06: the pairs, and numbers that have no error frame */
static void codes(void)
{
    static const uint32_t rows[][2] = {{7, 1}, {8, 9}, {9, 1}, {10, 2}, {11, 9}, {12, 9}, {14, 14}, {0, 0}, {1, 0}, {6, 0}, {13, 0}, {15, 0}, {256 + 7, 0}};
    int holds = 1;
    for (unsigned i = 0; i < sizeof rows / sizeof rows[0]; i++)
        holds &= sds_error_code(rows[i][0]) == rows[i][1];
    check("error codes", holds);
}

static void messages(void)
{
    const uint8_t *record = RECORD(0x09, 0x84, 3, 10, 0x2C, 0x01, 0xEE, 0xEE, 0xEE, 0xEE);
    const uint8_t expected[SDS_MESSAGE] = {1, 0, 9, 4, 0, 3, 10, 0, 0, 2, 0x2C, 0x01};
    uint8_t message[SDS_MESSAGE], back[SDS_RECORD];
    check("read", sds_read(record, SDS_RECORD, message, sizeof message) == 0 && !memcmp(message, expected, sizeof message));
    check("written", sds_write(message, sizeof message, back, sizeof back) == 0 && !memcmp(back, RECORD(0x09, 0x84, 3, 10, 0x2C, 0x01), sizeof back));
    check("refused", sds_read(record, SDS_RECORD - 1, message, sizeof message) == 1 && sds_write(message, sizeof message - 1, back, sizeof back) == 1);
    message[0] = 3;
    check("no such kind", sds_write(message, sizeof message, back, sizeof back) == 3);
}

/* the fields of the structs are where the bytes are, in a record that uses each of them */
static void fields(void)
{
    const uint8_t *record = RECORD(0x89, 0xA7, 0x63, 56, 7, 31, 'A', 'B', 'C');
    struct sds_message m;
    uint8_t back[SDS_RECORD];
    check("message", sds_message_read(record, &m) == 0 && m.kind == SDS_KIND_FRAGMENT && m.from_guest == 1 && m.address == 9 &&
                         m.service == SDS_SERVICE_READ && m.response == SDS_SUCCESSFUL && m.object == 3 && m.id == 56 && m.number == 7 &&
                         m.total == 31 && m.length == 3 && !memcmp(m.data, "ABC\0\0", sizeof m.data));
    check("message back", sds_message_write(&m, back) == 0 && !memcmp(back, record, sizeof back));
    const struct sds_attribute *tag = (const struct sds_attribute *)table + 3;
    check("attribute", tag->object == 3 && tag->id == 56 && tag->access == (SDS_ACCESS_READ | SDS_ACCESS_WRITE | SDS_ACCESS_NETWORK) &&
                           tag->length == 32 && tag->offset[0] == 35 && tag->offset[1] == 0 && tag->descriptor[0] == 0x3F && tag->descriptor[1] == 0x07);
}

/* the names of the short form's services are those of 000's figure 3.4, by their values; each is read and written */
static void short_services(void)
{
    static const uint8_t figure[] = {SDS_SHORT_CHANGE_OFF, SDS_SHORT_CHANGE_ON, SDS_SHORT_CHANGE_OFF_ACK, SDS_SHORT_CHANGE_ON_ACK,
                                     SDS_SHORT_WRITE_OFF,  SDS_SHORT_WRITE_ON,  SDS_SHORT_WRITE_OFF_ACK,  SDS_SHORT_WRITE_ON_ACK};
    int holds = sizeof figure == 8;
    for (uint8_t value = 0; value < sizeof figure; value++) {
        const uint8_t *record = RECORD(0xA4, (uint8_t)(value << 5), 0xEE), *cleared = RECORD(0xA4, (uint8_t)(value << 5));
        const struct sds_message expected = {.kind = SDS_KIND_SHORT, .from_guest = 1, .address = 36, .service = figure[value]};
        struct sds_message m;
        uint8_t back[SDS_RECORD];
        holds &= sds_message_read(record, &m) == 0 && !memcmp(&m, &expected, sizeof m);
        holds &= sds_message_write(&m, back) == 0 && !memcmp(back, cleared, sizeof back);
    }
    check("short form services", holds);
}

/* a CAN frame and its record; a DLC over 8 has eight data bytes, RTR none */
static void frame(const char *name, uint32_t rtr, uint32_t dlc, const uint8_t expected[SDS_RECORD])
{
    uint8_t record[SDS_RECORD];
    sds_can_record(record, 0x04D, rtr, dlc, (const uint8_t[SDS_CAN_DATA]){1, 2, 3, 4, 5, 6, 7, 8});
    check(name, !memcmp(record, expected, sizeof record) && sds_can_identifier(record) == 0x04D && sds_can_rtr(record) == (rtr != 0) &&
                    sds_can_dlc(record) == dlc && sds_can_data(record) == record + 2);
}

static void frames(void)
{
    frame("frame, DLC 0", 0, 0, RECORD(0x09, 0xA0));
    frame("frame, DLC 3", 0, 3, RECORD(0x09, 0xA3, 1, 2, 3));
    frame("frame, DLC 8", 0, 8, RECORD(0x09, 0xA8, 1, 2, 3, 4, 5, 6, 7, 8));
    frame("frame, DLC 15", 0, 15, RECORD(0x09, 0xAF, 1, 2, 3, 4, 5, 6, 7, 8));
    frame("frame, RTR", 1, 8, RECORD(0x09, 0xB8));
    frame("frame, RTR as a flag of its own", 0x40000000, 3, RECORD(0x09, 0xB3));
}

/* a line to its record, which holds EE before; a refused one leaves it so */
static void imported(const char *name, uint32_t number, const char *line, const uint8_t expected[SDS_RECORD])
{
    uint8_t record[SDS_RECORD];
    memset(record, 0xEE, sizeof record);
    check(name, sds_import_line((const uint8_t *)line, strlen(line), record, sizeof record) == number && !memcmp(record, expected, sizeof record));
}

/* a record to its line, in a buffer of that room which holds EE before; a refused one, whose line is empty, leaves it so */
static void exported(const char *name, uint32_t number, uint64_t room, const uint8_t record[SDS_RECORD], const char *expected)
{
    uint8_t line[SDS_LINE_ROOM + 1], line_is[sizeof line];
    memset(line, 0xEE, sizeof line);
    memset(line_is, 0xEE, sizeof line_is);
    memcpy(line_is, expected, strlen(expected));
    uint32_t answer = sds_export_record(record, SDS_RECORD, line, room);
    check(name, SDS_LINE_NUMBER(answer) == number && SDS_LINE_LENGTH(answer) == strlen(expected) && !memcmp(line, line_is, sizeof line));
}

static void captures(void)
{
    const uint8_t *untouched = RECORD(0xEE, 0xEE, 0xEE, 0xEE, 0xEE, 0xEE, 0xEE, 0xEE, 0xEE, 0xEE), *p1 = RECORD(0x09, 0x84, 3, 10, 0x2C, 0x01);
    imported("line of P1", SDS_LINE_IMPORTED, "(1713859202.902882) can0 04c#030A2c01", p1);
    imported("line of a remote frame", SDS_LINE_IMPORTED, "(0.000000) c#n 7FF#R8", RECORD(0xFF, 0xF8));
    imported("line with a bad time", SDS_LINE_BAD_FRONT, "(0.00000) can0 04C#030A2C01", untouched);
    imported("line with a bad identifier", SDS_LINE_BAD_IDENTIFIER, "(0.000000) can0 800#", untouched);
    imported("line with bad data", SDS_LINE_BAD_DATA, "(0.000000) can0 04C#030A2C0", untouched);
    uint8_t nine[SDS_RECORD - 1] = {0}, none[sizeof nine] = {0};
    check("no record for a line", sds_import_line(NULL, 0, nine, sizeof nine) == SDS_LINE_NO_RECORD && !memcmp(nine, none, sizeof nine));
    exported("record of P1", SDS_RECORD_EXPORTED, SDS_LINE_ROOM, RECORD(0x09, 0x84, 3, 10, 0x2C, 0x01, 9, 9, 9, 9), "(0.000000) can0 04C#030A2C01");
    exported("record of eight bytes", SDS_RECORD_EXPORTED, SDS_LINE_ROOM + 1, RECORD(0xFF, 0xE8, 0xAB, 1, 2, 3, 4, 5, 6, 7),
             "(0.000000) can0 7FF#AB01020304050607");
    exported("record with a bad DLC", SDS_RECORD_BAD_DLC, SDS_LINE_ROOM - 1, RECORD(0x09, 0x89, 3), "");
    exported("no room for a line", SDS_RECORD_NO_LINE, SDS_LINE_ROOM - 1, p1, "");
    check("record of nine bytes", sds_export_record(p1, SDS_RECORD - 1, nine, 0) == SDS_RECORD_BAD_LENGTH);
}

/* 000's worked Read, 5.3.1, into the collector: what is handed over, every byte of the work area and of the value, and the tally */
static uint8_t collected[SDS_COLLECT_WORK], collected_is[SDS_COLLECT_WORK];
static struct sds_tally tally;

static void collect(const char *name, const uint8_t record[SDS_RECORD], uint32_t number, const uint8_t value_is[SDS_VALUE], struct sds_tally tally_is)
{
    struct sds_value value = {9, 9, 9, 9, 9, 9, {9, 9}};
    uint32_t answer = sds_collect_frame(record, collected, &value, &tally);
    check(name, answer == number && !memcmp(&value, value_is, sizeof value) && !memcmp(collected, collected_is, sizeof collected) &&
                    !memcmp(&tally, &tally_is, sizeof tally));
}

#define VALUE(...) ((const uint8_t[SDS_VALUE]){__VA_ARGS__})
#define TALLY(...) ((struct sds_tally){__VA_ARGS__})

static void collects(void)
{
    uint8_t *its = collected_is + 32 * SDS_WORK_RECORD, seven[SDS_VALUE - 1] = {1};
    collect("5.3.1.1, a request", RECORD(0x20, 0xA2, 0, 56), SDS_COLLECT_NO_ANSWER, VALUE(9, 9, 9, 9, 9, 9, 9, 9), TALLY(1, 0, 0));
    memcpy(its, (const uint8_t[]){1, 56, 11, 1, 'G', 'A', 'T', 'E'}, 8);
    collect("5.3.1.2, kept", RECORD(0xA0, 0xA8, 0x60, 56, 0, 11, 'G', 'A', 'T', 'E'), 0, VALUE(0), TALLY(2, 0, 0));
    its[3] = 2, memcpy(its + 8, " SEN", 4);
    collect("5.3.1.3, kept", RECORD(0xA0, 0xA8, 0x60, 56, 1, 11, ' ', 'S', 'E', 'N'), 0, VALUE(0), TALLY(3, 0, 0));
    collect("a whole answer between", RECORD(0xA0, 0xA3, 0x40, 8, 3), 0, VALUE(1, 32, 0, 8, 1, 0, 4, 0), TALLY(4, 1, 0));
    its[0] = 0, memcpy(its + 12, "SOR", 3);
    collect("5.3.1.4, complete", RECORD(0xA0, 0xA7, 0x60, 56, 2, 11, 'S', 'O', 'R'), 0, VALUE(2, 32, 0, 56, 11, 0, 0x84, 0x20), TALLY(5, 2, 0));
    check("its bytes", !memcmp(sds_value_bytes((const struct sds_value *)VALUE(2, 32, 0, 56, 11, 0, 0x84, 0x20), NULL, collected), "GATE SENSOR", 11));
    collect("once more", RECORD(0xA0, 0xA7, 0x60, 56, 2, 11, 'S', 'O', 'R'), SDS_COLLECT_OUT_OF_ORDER, VALUE(9, 9, 9, 9, 9, 9, 9, 9), TALLY(6, 2, 0));
    check("value of seven bytes", sds_collect(NULL, 0, collected, sizeof collected, seven, sizeof seven, &tally) == SDS_COLLECT_BAD_LENGTH && seven[0] == 1 &&
                                      tally.seen == 7);
    check("no work area", sds_collect(NULL, 0, NULL, 0, seven, 0, &tally) == SDS_COLLECT_BAD_LENGTH && tally.seen == 8);
}

int main(void)
{
    check("table", sds_table_check(table, sizeof table, STORE) == 0 && sds_table_check(table, sizeof table - 1, STORE) == 1 &&
                       sds_table_check(table, sizeof table, STORE - 1) == 2);
    steps();
    sizes();
    codes();
    messages();
    fields();
    short_services();
    captures();
    collects();
    frames();
    return failed;
}
