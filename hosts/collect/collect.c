/*
 * collect: prints the values that guests answer to Reads.
 *
 * Each frame that is heard goes to the core, in the order of the wire, and what that hands over is printed at once. Nothing is sent: the Reads are
 * another program's, and a guest that stops in the middle of an answer is not noticed here.
 */
#include <err.h>
#include <errno.h>
#include <fcntl.h>
#include <getopt.h>
#include <stdio.h>
#include <stdlib.h>
#include <string.h>
#include <unistd.h>
#include "../link.h"
#include "../words.h"
#include "sds_host.h"

static const char help[] =
    "usage: collect [--trace] [LINK]\n"
    "\n"
    "Prints each value that Smart Distributed System guests answer to Reads, whole or\n"
    "in fragments, as soon as it is complete. It listens, and sends nothing. Without\n"
    "a LINK it takes records of %d bytes (see sds.h) from standard input.\n"
    LINK_HELP
    "\n"
    "  --trace   also prints each frame that is refused, and why\n"
    "\n"
    "A value is a line:\n"
    "\n"
    "  guest 9    object 3   attribute 56   4   bytes  data 41 22 20 00  text \"A\\\" \"\n"
    "\n"
    "The text is there where all bytes are printable, 20 to 7E hex, but for zeros at\n"
    "the end, by which names are filled up; these are left out of it, spaces are not.\n"
    "A \" or \\ in it has a \\ before it.\n"
    "\n"
    "At the end, and on SIGUSR1 between two frames, it prints the tally:\n"
    "\n"
    "  seen 4, finished 1, dropped 0\n"
    "\n"
    "the frames that were seen, the values that were finished, and the messages of\n"
    "which a part was there and is lost. A count stays at 4294967295.\n"
    "\n"
    "SIGINT and SIGTERM end it between two frames, with status 0. Status 1 is a\n"
    "failure of the link or of standard output, or records that end in the middle of\n"
    "one, 2 an error in what was given.\n";

static uint8_t work[SDS_COLLECT_WORK];    /* zeros, as it must begin */
static struct sds_tally tally;
static bool trace;

/* Printing */

/* Where standard output is closed, the link's descriptor would take its number, and lines go out on the link. */
static void prepare_output(void)
{
    if (fcntl(STDOUT_FILENO, F_GETFD) < 0)
        err(1, "standard output");
    setvbuf(stdout, NULL, _IOLBF, 0);
}

/* What cannot be printed ends the program: a reader would take what is there for all. */
static void see_it_printed(void)
{
    if (fflush(stdout) != 0 || ferror(stdout))
        err(1, "standard output");
}

static void end_line(void)
{
    putchar('\n');
    see_it_printed();
}

static void print_tally(void)
{
    printf("seen %u, finished %u, dropped %u", tally.seen, tally.finished, tally.dropped);
    end_line();
}

static void trace_source(const char *name)
{
    if (!trace)
        return;
    printf("collecting on %s", name);
    end_line();
}

static void trace_skipped(const char *fault)
{
    if (!trace)
        return;
    printf("skipped: %s", fault);
    end_line();
}

static void trace_refused(const uint8_t record[SDS_RECORD], uint32_t number)
{
    if (!trace)
        return;
    words_gap(stdout, words_record(stdout, record));
    words_collect_number(stdout, number);
    end_line();
}

/* Collecting */

static void collect_record(const uint8_t record[SDS_RECORD])
{
    struct sds_value value;
    uint32_t number = sds_collect_frame(record, work, &value, &tally);
    if (number != SDS_COLLECTED) {
        trace_refused(record, number);
    } else if (value.kind != SDS_VALUE_NONE) {
        words_value(stdout, &value, sds_value_bytes(&value, record, work));
        end_line();
    }
}

static void collect_from_link(const char *name)
{
    struct link link = link_open(name);
    uint8_t record[SDS_RECORD];
    const char *fault;
    trace_source(name);
    while (link_receive(&link, record, &fault)) {
        if (fault == NULL)
            collect_record(record);
        else
            trace_skipped(fault);
    }
}

/* Takes the records at the front, and moves what is behind them there. Gives how many bytes that is. */
static size_t collect_records(uint8_t *bytes, size_t count)
{
    size_t taken = 0;
    for (; count - taken >= SDS_RECORD; taken += SDS_RECORD)
        collect_record(bytes + taken);
    memmove(bytes, bytes + taken, count - taken);
    return count - taken;
}

/* Gives how many bytes of a record are left at the end; after a stop none, for then it is not the end. */
static size_t collect_from_input(void)
{
    static uint8_t bytes[400 * SDS_RECORD];
    size_t held = 0;
    trace_source("standard input");
    while (link_wait(STDIN_FILENO)) {
        ssize_t count = read(STDIN_FILENO, bytes + held, sizeof bytes - held);
        if (count == 0)
            return held;
        if (count > 0)
            held = collect_records(bytes, held + (size_t)count);
        else if (errno != EINTR && errno != EAGAIN)
            err(2, "standard input");
    }
    return 0;
}

/* Options */

struct options {
    const char *link;
    int trace, help;
};

static struct options read_options(int count, char **words)
{
    static struct options given;
    static const struct option known[] = {
        {"trace", no_argument, &given.trace, 1},
        {"help", no_argument, &given.help, 1},
        {NULL, 0, NULL, 0},
    };
    words[0] = program_invocation_short_name;    /* getopt's messages begin with it */
    for (int option; (option = getopt_long(count, words, "", known, NULL)) != -1;)
        if (option == '?')
            exit(2);
    if (optind + 1 < count)
        errx(2, "one link at most is taken; --help tells more");
    given.link = words[optind];
    return given;
}

int main(int argc, char **argv)
{
    link_hold_signals(print_tally);
    struct options given = read_options(argc, argv);
    size_t rest = 0;
    prepare_output();
    if (given.help) {
        printf(help, SDS_RECORD);
        see_it_printed();
        return 0;
    }
    trace = given.trace;
    if (given.link != NULL)
        collect_from_link(given.link);
    else
        rest = collect_from_input();
    print_tally();
    if (rest > 0)
        errx(1, "standard input ends in the middle of a record, behind %zu of %d bytes", rest, SDS_RECORD);
    return 0;
}
