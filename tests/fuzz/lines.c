/*
 * The entry points for captures under a coverage-guided fuzzer (libFuzzer). Each input is a line, which is tried as a record too:
 *
 *     0      the record buffer's length, where 0 stands for SDS_RECORD (their exclusive or)
 *     1      the length of the line buffer for the exporter, where 0 stands for SDS_LINE_ROOM, likewise
 *     2..    the line
 *
 * It goes to the core and to the reference, as a line to be imported, whose record is exported again, and as a record to be exported. Answers and buffers
 * must be equal afterwards (both.h), and what was exported must come back. At the end, what came up is counted.
 */
#include <string.h>
#include "both.h"
#include "candump.h"
#include "captures.h"

enum { FRONT = 2 };
enum buffer { LINE, RECORD, BUFFERS };

static uint32_t call_both(captures_function *core, captures_function *reference, enum buffer from, enum buffer to, const char *what)
{
    const size_t *n = lengths;
    uint32_t ours = core(lent(CORE, from), n[from], lent(CORE, to), n[to]);
    must_be(ours == reference(lent(REFERENCE, from), n[from], lent(REFERENCE, to), n[to]), what);
    same_everywhere();
    return ours;
}

static uint32_t import_both(void)
{
    return call_both(sds_import_line, ref_import_line, LINE, RECORD, "the answer of sds_import_line");
}

static void come_back(uint32_t length)
{
    uint8_t line[SDS_LINE_ROOM], cleared[SDS_RECORD];
    memcpy(line, lent(CORE, LINE), length);
    captures_clear(cleared, lent(CORE, RECORD));
    lend(LINE, length, line, length);
    lend(RECORD, SDS_RECORD, line, length);
    must_be(import_both() == SDS_LINE_IMPORTED && !memcmp(lent(CORE, RECORD), cleared, sizeof cleared), "what comes back");
}

static void export_both(void)
{
    uint32_t answer = call_both(sds_export_record, ref_export_record, RECORD, LINE, "the answer of sds_export_record");
    captures_count_export(lent(CORE, RECORD), answer);
    if (SDS_LINE_NUMBER(answer) == SDS_RECORD_EXPORTED)
        come_back(SDS_LINE_LENGTH(answer));
}

int LLVMFuzzerInitialize(int *argc, char ***argv)
{
    static const char *const names[BUFFERS] = {"line", "record"};
    (void)argc, (void)argv;
    both_start(names, BUFFERS, captures_came_up);
    return 0;
}

int LLVMFuzzerTestOneInput(const uint8_t *input, size_t size)
{
    if (size < FRONT)
        return 0;
    const uint8_t *line = input + FRONT;
    size_t length = size - FRONT, record_room = input[0] ^ SDS_RECORD, line_room = input[1] ^ SDS_LINE_ROOM;
    lend(LINE, length, line, length);
    lend(RECORD, record_room, line, length);
    uint32_t number = import_both();
    captures_count_import(line, length, lent(CORE, RECORD), number);
    if (number == SDS_LINE_IMPORTED) {
        lend(LINE, line_room, line, length);
        export_both();
    }
    lend(RECORD, record_room, line, length);
    lend(LINE, line_room, line, length);
    export_both();
    return 0;
}
