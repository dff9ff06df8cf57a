/*
 * gateway: serves one SDS device on a CAN interface or on a socket.
 *
 * A frame comes in, the core makes the answers, what it altered in the store goes to disk, and only then the answers go out: what is
 * acknowledged is on disk. The work area is not saved: a half-built message does not survive a restart, and never shows (01).
 */
#include <err.h>
#include <errno.h>
#include <getopt.h>
#include <stdio.h>
#include <stdlib.h>
#include "../link.h"
#include "../words.h"
#include "device.h"

static const char help[] =
    "usage: gateway --address N --table FILE --store FILE [--trace] [--new-store] LINK\n"
    "\n"
    "Serves Read, Write and the short Writes of one Smart Distributed System device.\n"
    LINK_HELP
    "\n"
    "  --address N    the device's logical address, 0 to %d\n"
    "  --table FILE   its attributes, records of %d bytes (see sds.h)\n"
    "  --store FILE   their values; a Write is acknowledged when it is on disk\n"
    "  --new-store    makes the store, of zeros, where the file is missing\n"
    "  --trace        prints each frame and what becomes of it\n"
    "\n"
    "SIGINT and SIGTERM end it between two frames, with status 0. Status 1 is a\n"
    "failure of the link or of saving, 2 an error in what was given.\n";

static struct device device;
static bool trace;

/* Serving */

/* A frame from the link; of an Error the code is all that tells why. */
static void trace_heard(const uint8_t record[SDS_RECORD])
{
    if (!trace)
        return;
    words_record(stdout, record);
    words_reason(stdout, record);
    putchar('\n');
}

/* A frame of ours: why it is an Error, trace_reply has told. */
static void trace_answer(const uint8_t record[SDS_RECORD])
{
    if (!trace)
        return;
    words_record(stdout, record);
    putchar('\n');
}

static void trace_reply(uint32_t reply)
{
    if (!trace)
        return;
    printf("  ");
    words_number(stdout, SDS_NUMBER(reply));
    if (SDS_NUMBER(reply) == SDS_SERVED)
        printf(", %u frame%s", SDS_COUNT(reply), SDS_COUNT(reply) == 1 ? "" : "s");
    putchar('\n');
}

static void serve_record(const struct link *link, const uint8_t record[SDS_RECORD])
{
    trace_heard(record);
    uint32_t reply = device_step(&device, record);
    device_save(&device);
    trace_reply(reply);
    const uint8_t *answer = device.out;
    for (uint32_t left = SDS_COUNT(reply); left > 0; left--, answer += SDS_RECORD) {
        trace_answer(answer);
        link_send(link, answer);
    }
}

/* Until a stop is asked for, or the peer of a link without others leaves. */
static void serve(const char *name)
{
    struct link link = link_open(name);
    uint8_t record[SDS_RECORD];
    const char *fault;
    if (trace)
        printf("serving address %u on %s\n", device.address, name);
    while (link_receive(&link, record, &fault)) {
        if (fault == NULL)
            serve_record(&link, record);
        else if (trace)
            printf("dropped: %s\n", fault);
    }
}

/* Options */

struct options {
    const char *address, *table, *store, *link;
    int trace, new_store, help;
};

static struct options read_options(int count, char **words)
{
    static struct options given;
    static const struct option known[] = {
        {"address", required_argument, NULL, 'a'}, {"table", required_argument, NULL, 't'}, {"store", required_argument, NULL, 's'},
        {"trace", no_argument, &given.trace, 1},   {"new-store", no_argument, &given.new_store, 1},
        {"help", no_argument, &given.help, 1},     {NULL, 0, NULL, 0},
    };
    words[0] = program_invocation_short_name;    /* getopt's messages begin with it */
    for (int option; (option = getopt_long(count, words, "", known, NULL)) != -1;)
        switch (option) {
        case 'a': given.address = optarg; break;
        case 't': given.table = optarg; break;
        case 's': given.store = optarg; break;
        case '?': exit(2);
        default: break;
        }
    if (optind + 1 == count)
        given.link = words[optind];
    return given;
}

int main(int argc, char **argv)
{
    struct options given = read_options(argc, argv);
    if (given.help) {
        printf(help, SDS_ADDRESS_MOST, SDS_TABLE_RECORD);
        return 0;
    }
    if (given.address == NULL || given.table == NULL || given.store == NULL || given.link == NULL)
        errx(2, "--address, --table, --store and one link are needed; --help tells more");
    trace = given.trace;
    setvbuf(stdout, NULL, _IOLBF, 0);
    link_hold_signals(NULL);
    device_set_address(&device, given.address);
    device_load_table(&device, given.table);
    device_load_store(&device, given.store, given.new_store);
    serve(given.link);
    return 0;
}
