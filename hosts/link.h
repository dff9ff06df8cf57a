/*
 * link.h: frames from and to a CAN interface or a socket, one in each message, as records of sds.h; and the signals that come between two frames.
 *
 * What was given and is wrong ends the program with one line on stderr and status 2; a link that fails ends it with status 1. Frames that the kernel
 * drops because a socket's queue is full are not noticed here. If of two messages to or of one attribute the one loses its tail and the other its
 * head, what is left can be joined.
 */
#ifndef LINK_H
#define LINK_H

#include <stdbool.h>
#include "sds.h"

/* what --help says of links */
#define LINK_HELP \
    "LINK is one of\n" \
    "\n" \
    "  can:IFACE   a SocketCAN interface\n" \
    "  unix:PATH   a SOCK_SEQPACKET socket that is made there; one peer at a time\n" \
    "  fd:N        an inherited SOCK_SEQPACKET socket; ends when the peer closes it\n" \
    "\n" \
    "and carries one struct can_frame in each message.\n"

struct link {
    int listener;    /* of a Unix socket, which peers connect to one after another; otherwise -1 */
    int peer;        /* where frames come from and go to; -1 while nobody is connected */
};

/*
 * From here on SIGINT and SIGTERM are a stop, which the functions below tell of, and SIGUSR1 calls `report`, if that is not null, before the next frame.
 * A signal that comes in between is not lost. SIGPIPE is ignored.
 */
void link_hold_signals(void (*report)(void));

struct link link_open(const char *name);

/*
 * Waits for the next message. False where a stop is asked for, or the peer of a link without a listener has left. `fault` is null, and then the record
 * is set, or says what makes the message no frame of SDS; all that 01 has a number for is the core's to refuse.
 */
bool link_receive(struct link *link, uint8_t record[SDS_RECORD], const char **fault);

/* Sends a frame without RTR and with a DLC of at most 8. Where the peer has left it is lost, and its end shows behind the frames that it sent before. */
void link_send(const struct link *link, const uint8_t record[SDS_RECORD]);

/* Waits until something can be read from any descriptor, or its end. False where a stop is asked for. */
bool link_wait(int descriptor);

#endif
