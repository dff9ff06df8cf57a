/* link.c: links, waiting on them, and signals between two frames. */
#include <err.h>
#include <errno.h>
#include <linux/can.h>
#include <linux/can/raw.h>
#include <net/if.h>
#include <poll.h>
#include <signal.h>
#include <stdlib.h>
#include <string.h>
#include <sys/socket.h>
#include <sys/stat.h>
#include <sys/un.h>
#include <unistd.h>
#include "link.h"
#include "sds_can.h"

/* Signals. They are held back, but in ppoll, so that none gets lost between a look at what they set and the wait. */

static volatile sig_atomic_t stop, report_asked;
static void (*tell)(void);
static sigset_t held, let_in;

static void ask_to_stop(int number)
{
    (void)number;
    stop = 1;
}

static void ask_to_report(int number)
{
    (void)number;
    report_asked = 1;
}

/* Whoever started us may have held it back too. */
static void hold(int number, void (*handler)(int))
{
    struct sigaction action = {.sa_handler = handler};
    sigaction(number, &action, NULL);
    sigaddset(&held, number);
    sigdelset(&let_in, number);
}

void link_hold_signals(void (*report)(void))
{
    sigemptyset(&held);
    sigprocmask(SIG_SETMASK, NULL, &let_in);
    signal(SIGPIPE, SIG_IGN);
    tell = report;
    hold(SIGINT, ask_to_stop);
    hold(SIGTERM, ask_to_stop);
    if (report != NULL)
        hold(SIGUSR1, ask_to_report);
    sigprocmask(SIG_BLOCK, &held, NULL);
}

/* ppoll lets a signal in only when it waits, which it does not while frames keep coming. */
static bool stopping(void)
{
    sigprocmask(SIG_UNBLOCK, &held, NULL);
    sigprocmask(SIG_BLOCK, &held, NULL);
    if (report_asked) {
        report_asked = 0;
        tell();
    }
    return stop;
}

/* Waiting */

/* Waits for a frame, a peer or a peer's end, and gives poll's events; 0 where a stop is asked for. */
static short wait_to_receive(int descriptor)
{
    struct pollfd ready = {.fd = descriptor, .events = POLLIN | POLLRDHUP};
    while (!stopping()) {
        if (ppoll(&ready, 1, NULL, &let_in) > 0)
            return ready.revents;
        if (errno != EINTR)
            err(1, "poll");
    }
    return 0;
}

bool link_wait(int descriptor)
{
    return wait_to_receive(descriptor) != 0;
}

/*
 * Waits until the link may take a frame. A full queue of a CAN interface (ENOBUFS) shows in no poll; it moves in a moment. After a stop the
 * answers under way have a second left, so that a peer that reads no more cannot hold the program.
 */
static bool wait_to_send(int descriptor, bool queue_full)
{
    static int moments = 500;
    const struct timespec moment = {.tv_nsec = 2000000};
    struct pollfd ready = {.fd = descriptor, .events = POLLOUT};
    ppoll(&ready, queue_full ? 0 : 1, queue_full || stop ? &moment : NULL, &let_in);
    return !stop || moments-- > 0;
}

/* Frames and records */

/* The DLC as it was on the wire: Linux gives 9 to 15 apart, as 8 bytes and, since the headers that name CAN_MAX_RAW_DLC, the rest of it. */
static unsigned dlc_of(const struct can_frame *frame)
{
#ifdef CAN_MAX_RAW_DLC
    if (frame->can_dlc == CAN_MAX_DLEN && frame->len8_dlc > CAN_MAX_DLEN)
        return frame->len8_dlc;
#endif
    return frame->can_dlc;
}

/* Null, or what makes it no frame of SDS. */
static const char *record_of(const struct can_frame *frame, uint8_t record[SDS_RECORD])
{
    unsigned dlc = dlc_of(frame);
    if (frame->can_id & CAN_ERR_FLAG)
        return "an error frame";
    if (frame->can_id & CAN_EFF_FLAG)
        return "an extended frame";
    if (dlc > 15)
        return "a frame with a length over 15";
    sds_can_record(record, frame->can_id & CAN_SFF_MASK, frame->can_id & CAN_RTR_FLAG, dlc, frame->data);
    return NULL;
}

static struct can_frame frame_of(const uint8_t record[SDS_RECORD])
{
    struct can_frame frame = {.can_id = sds_can_identifier(record), .can_dlc = (uint8_t)sds_can_dlc(record)};
    memcpy(frame.data, sds_can_data(record), SDS_CAN_DATA);
    return frame;
}

/* Receiving and sending */

/*
 * The size of the next message; -1 where the peer has left or a stop is asked for. A peer's empty message and its end both read as nothing; only at
 * the end it has hung up. One that leaves answers unread shows once as a reset, before the frames that it sent.
 */
static ssize_t receive(int peer, struct can_frame *frame)
{
    short events;
    while ((events = wait_to_receive(peer)) != 0) {
        ssize_t size = recv(peer, frame, sizeof *frame, MSG_DONTWAIT | MSG_TRUNC);
        if (size == 0 && (events & (POLLHUP | POLLRDHUP)))
            return -1;
        if (size >= 0)
            return size;
        if (errno != EINTR && errno != EAGAIN && errno != ECONNRESET)
            err(1, "receive");
    }
    return -1;
}

/* The next that connects; -1 where a stop is asked for. */
static int next_peer(int listener)
{
    while (wait_to_receive(listener) != 0) {
        int peer = accept(listener, NULL, NULL);
        if (peer >= 0)
            return peer;
        if (errno != EINTR && errno != EAGAIN && errno != ECONNABORTED)
            err(1, "accept");
    }
    return -1;
}

/* Closes a peer that has left, or that a stop leaves. False where no other can come. */
static bool leave(struct link *link)
{
    if (link->listener < 0)
        return false;
    close(link->peer);
    link->peer = -1;
    return true;
}

bool link_receive(struct link *link, uint8_t record[SDS_RECORD], const char **fault)
{
    struct can_frame frame;
    ssize_t size;
    do {
        if (link->peer < 0)
            link->peer = next_peer(link->listener);
        if (link->peer < 0)
            return false;
        size = receive(link->peer, &frame);
        if (size < 0 && !leave(link))
            return false;
    } while (size < 0);
    *fault = size == (ssize_t)sizeof frame ? record_of(&frame, record) : "a message of another size than a frame";
    return true;
}

void link_send(const struct link *link, const uint8_t record[SDS_RECORD])
{
    struct can_frame frame = frame_of(record);
    ssize_t sent;
    while ((sent = send(link->peer, &frame, sizeof frame, MSG_DONTWAIT | MSG_NOSIGNAL)) != (ssize_t)sizeof frame) {
        if (sent >= 0)
            errx(1, "the link took %zd of the %zu bytes of a frame", sent, sizeof frame);
        if (errno == EPIPE || errno == ECONNRESET)
            return;
        if (errno != EINTR && errno != EAGAIN && errno != ENOBUFS)
            err(1, "send");
        if (errno != EINTR && !wait_to_send(link->peer, errno == ENOBUFS))
            return;
    }
}

/* Opening */

static int open_can(const char *interface)
{
    struct sockaddr_can address = {.can_family = AF_CAN, .can_ifindex = (int)if_nametoindex(interface)};
    int link = address.can_ifindex == 0 ? -1 : socket(AF_CAN, SOCK_RAW | SOCK_CLOEXEC, CAN_RAW);
    if (link < 0 || bind(link, (const struct sockaddr *)&address, sizeof address) < 0)
        err(2, "can:%s", interface);
    return link;
}

static const char *socket_path;

static void remove_socket(void)
{
    unlink(socket_path);
}

/* A socket file that nobody listens at is left from a crash. */
static void remove_stale(const struct sockaddr_un *address)
{
    struct stat there;
    if (lstat(address->sun_path, &there) < 0)
        return;
    if (!S_ISSOCK(there.st_mode))
        errx(2, "unix:%s: there is a file that is no socket", address->sun_path);
    int probe = socket(AF_UNIX, SOCK_SEQPACKET | SOCK_NONBLOCK | SOCK_CLOEXEC, 0);
    if (connect(probe, (const struct sockaddr *)address, sizeof *address) == 0 || errno != ECONNREFUSED)
        errx(2, "unix:%s: another program listens there", address->sun_path);
    close(probe);
    unlink(address->sun_path);
}

static int open_unix(const char *path)
{
    struct sockaddr_un address = {.sun_family = AF_UNIX};
    if (*path == '\0' || strlen(path) >= sizeof address.sun_path)
        errx(2, "unix:%s: the path has not 1 to %zu bytes", path, sizeof address.sun_path - 1);
    strcpy(address.sun_path, path);
    remove_stale(&address);
    int listener = socket(AF_UNIX, SOCK_SEQPACKET | SOCK_NONBLOCK | SOCK_CLOEXEC, 0);
    if (listener < 0 || bind(listener, (const struct sockaddr *)&address, sizeof address) < 0)
        err(2, "unix:%s", path);
    socket_path = path;
    atexit(remove_socket);
    if (listen(listener, 8) < 0)
        err(2, "unix:%s", path);
    return listener;
}

static int inherited(const char *text)
{
    char *rest;
    long link = strtol(text, &rest, 10);
    int type = 0;
    socklen_t size = sizeof type;
    if (*text == '\0' || *rest != '\0' || link < 0 || link > 65535 || getsockopt((int)link, SOL_SOCKET, SO_TYPE, &type, &size) < 0 ||
        type != SOCK_SEQPACKET)
        errx(2, "fd:%s: no open SOCK_SEQPACKET socket", text);
    return (int)link;
}

struct link link_open(const char *name)
{
    struct link link = {.listener = -1, .peer = -1};
    if (strncmp(name, "unix:", 5) == 0)
        link.listener = open_unix(name + 5);
    else if (strncmp(name, "can:", 4) == 0)
        link.peer = open_can(name + 4);
    else if (strncmp(name, "fd:", 3) == 0)
        link.peer = inherited(name + 3);
    else
        errx(2, "%s: a link is can:IFACE, unix:PATH or fd:N", name);
    return link;
}
