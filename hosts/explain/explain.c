/* explain: frame records in words; with a device's table and address, why it answers as it does. */
#include <err.h>
#include <errno.h>
#include <getopt.h>
#include <stdlib.h>
#include <string.h>
#include "../gateway/device.h"
#include "../words.h"

static const char help[] =
    "usage: explain [--table FILE --address N] [RECORDS..]\n"
    "\n"
    "Prints each Smart Distributed System frame, a record of %d bytes (see sds.h), as\n"
    "a line of words, as it arrives; from standard input where no file is named.\n"
    "\n"
    "An Error frame is followed by what its code stands for; where several refusals\n"
    "share a code, by all of them. With the table and the address of a device,\n"
    "requests to it are played into a device of the same table, and each answer of\n"
    "it is followed by what that one says of the request, so by the exact refusal.\n"
    "\n"
    "Status 1 says that records ended in the middle of one, 2 an error in what was\n"
    "given.\n";

/* The device of our own. Its store is zeros: which requests are served does not depend on what a store holds. */
static struct device device;
static bool follows;

/* what acknowledges a service of the short form (000, figure 3.4); of an acknowledge 0, which acknowledges nothing */
static const uint8_t acknowledges[] = {
    [SDS_SHORT_CHANGE_OFF] = SDS_SHORT_CHANGE_OFF_ACK,
    [SDS_SHORT_CHANGE_ON] = SDS_SHORT_CHANGE_ON_ACK,
    [SDS_SHORT_WRITE_OFF] = SDS_SHORT_WRITE_OFF_ACK,
    [SDS_SHORT_WRITE_ON] = SDS_SHORT_WRITE_ON_ACK,
    [SDS_SHORT_WRITE_ON_ACK] = 0,
};

/* A Change of State is one too: its sender waits for an acknowledge. */
static bool is_request(const struct sds_message *message)
{
    return message->kind == SDS_KIND_SHORT ? acknowledges[message->service] != 0 : message->response == SDS_REQUEST;
}

/* requests that may be answered, oldest first: what their answers carry, how many frames are left, and the number of the reply */
static struct request {
    struct sds_message answer;
    uint32_t frames, number;
} waiting[256];
static size_t waiting_count;

static void forget(size_t count)
{
    waiting_count -= count;
    memmove(waiting, waiting + count, waiting_count * sizeof waiting[0]);
}

/*
 * Our device does not answer a request in short form that it refuses; another, which serves it, answers with this. What else is refused with 5
 * cannot be read.
 */
static bool acknowledged_elsewhere(const uint8_t record[SDS_RECORD], uint32_t number, struct sds_message *answer)
{
    if (number != SDS_BAD_SERVICE || sds_message_read(record, answer) != SDS_SERVED || !is_request(answer))
        return false;
    answer->from_guest = 1;
    answer->service = acknowledges[answer->service];
    return true;
}

/* A frame that is none to the device is refused by its core and alters nothing, so every frame may be played. */
static void play(const uint8_t record[SDS_RECORD])
{
    uint32_t reply = device_step(&device, record);
    struct request request = {.frames = SDS_COUNT(reply), .number = SDS_NUMBER(reply)};
    if (request.frames > 0)
        sds_message_read(device.out, &request.answer);
    else if (acknowledged_elsewhere(record, request.number, &request.answer))
        request.frames = 1;
    else
        return;
    if (waiting_count == sizeof waiting / sizeof waiting[0])
        forget(1);
    waiting[waiting_count++] = request;
}

/* Fragments and whole messages are not told apart: an Error may stand where fragments are due. What a short form does not have is 0. */
static bool answers(const struct sds_message *answer, const struct request *request)
{
    const struct sds_message *due = &request->answer;
    return (answer->kind == SDS_KIND_SHORT) == (due->kind == SDS_KIND_SHORT) && answer->from_guest && answer->address == due->address &&
           answer->service == due->service && answer->object == due->object && answer->id == due->id;
}

/* The request that is answered, the oldest that may be; waiting_count where none was seen. */
static size_t request_for(const struct sds_message *answer)
{
    size_t i = 0;
    while (i < waiting_count && !answers(answer, &waiting[i]))
        i++;
    return i;
}

/* Whether the device says what the table says: an Error or none, and of an Error that says why the code. */
static bool agrees(const struct sds_message *answer, uint32_t number)
{
    bool error = answer->response == SDS_ERROR;
    if (error != (number != SDS_SERVED))
        return false;
    return !words_says_why(answer) || answer->data[0] == sds_error_code(number);
}

/* A guest answers in order: a request that is older than the one answered will not be answered any more. */
static void explain_answer(const struct sds_message *answer, size_t i)
{
    if (i == waiting_count) {
        printf("no request for it was seen");
        return;
    }
    if (!agrees(answer, waiting[i].number))
        printf("but by the table ");
    words_number(stdout, waiting[i].number);
    forget(--waiting[i].frames == 0 ? i + 1 : i);
}

/* What the device sends of its own accord, such as a Change of State, is no answer. */
static bool is_answer_of_device(const uint8_t record[SDS_RECORD], struct sds_message *message)
{
    return sds_message_read(record, message) == SDS_SERVED && message->from_guest && message->address == device.address && !is_request(message);
}

static void explain(const uint8_t record[SDS_RECORD])
{
    struct sds_message message;
    int width = words_record(stdout, record);
    if (follows)
        play(record);
    bool answer = follows && is_answer_of_device(record, &message);
    size_t request = answer ? request_for(&message) : waiting_count;
    if (request == waiting_count)    /* the code is all that tells why */
        width += words_reason(stdout, record);
    if (answer) {
        words_gap(stdout, width);
        explain_answer(&message, request);
    }
    putchar('\n');
}

/* False where a part of a record is left at the end. */
static bool explain_all(FILE *records, const char *name)
{
    uint8_t record[SDS_RECORD];
    size_t length;
    while ((length = fread(record, 1, SDS_RECORD, records)) == SDS_RECORD)
        explain(record);
    if (ferror(records))
        err(2, "%s", name);
    if (length == 0)
        return true;
    printf("%zu byte%s of a record:", length, length == 1 ? "" : "s");
    words_bytes(stdout, record, length);
    putchar('\n');
    return false;
}

static bool explain_file(const char *path)
{
    FILE *records = fopen(path, "rb");
    if (records == NULL)
        err(2, "%s", path);
    bool whole = explain_all(records, path);
    fclose(records);
    return whole;
}

int main(int argc, char **argv)
{
    static const struct option known[] = {
        {"table", required_argument, NULL, 't'},
        {"address", required_argument, NULL, 'a'},
        {"help", no_argument, NULL, 'h'},
        {NULL, 0, NULL, 0},
    };
    const char *table = NULL, *address = NULL;
    argv[0] = program_invocation_short_name;    /* getopt's messages begin with it */
    for (int option; (option = getopt_long(argc, argv, "", known, NULL)) != -1;)
        switch (option) {
        case 't': table = optarg; break;
        case 'a': address = optarg; break;
        case 'h': printf(help, SDS_RECORD); return 0;
        default: return 2;
        }
    if ((table == NULL) != (address == NULL))
        errx(2, "--table and --address go together; --help tells more");
    follows = table != NULL;
    if (follows) {
        device_set_address(&device, address);
        device_load_table(&device, table);
        device_make_store(&device);
    }
    setvbuf(stdout, NULL, _IOLBF, 0);
    bool whole = true;
    if (optind == argc)
        whole = explain_all(stdin, "standard input");
    for (int i = optind; i < argc; i++)
        whole = explain_file(argv[i]) && whole;
    return whole ? 0 : 1;
}
