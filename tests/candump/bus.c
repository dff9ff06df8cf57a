/*
 * A CAN bus for candump and canplayer where the kernel has none: loaded before the C library (LD_PRELOAD), it gives them in place of their CAN
 * sockets the socket of sequenced packets whose descriptor BUS names. What a program receives there is a packet of struct arrival; what it sends
 * is passed on as it is, a struct can_frame. All else they do themselves, and above all how they write a line of a log and read one.
 */
#include <errno.h>
#include <linux/can.h>
#include <net/if.h>
#include <stdarg.h>
#include <stddef.h>
#include <stdint.h>
#include <stdlib.h>
#include <string.h>
#include <sys/ioctl.h>
#include <sys/socket.h>
#include <sys/time.h>
#include <unistd.h>

struct arrival {
    char interface[IFNAMSIZ];
    int64_t seconds, micros;
    uint8_t frame[CANFD_MTU];    /* or CAN_MTU bytes of it, and the packet ends there */
};

/* An interface's index is its place here, from 1. The test has few of them. */
static char interfaces[16][IFNAMSIZ];

static int index_of(const char *name)
{
    int i = 0;
    while (interfaces[i][0] != '\0' && strncmp(interfaces[i], name, IFNAMSIZ) != 0)
        i++;
    memcpy(interfaces[i], name, IFNAMSIZ);
    return i + 1;
}

int socket(int domain, int type, int protocol)
{
    (void)domain, (void)type, (void)protocol;
    return dup(atoi(getenv("BUS")));
}

int bind(int link, const struct sockaddr *address, socklen_t length)
{
    (void)link, (void)address, (void)length;
    return 0;
}

int setsockopt(int link, int level, int option, const void *value, socklen_t length)
{
    (void)link, (void)level, (void)option, (void)value, (void)length;
    return 0;
}

/* candump asks only how large its receive buffer is, and says so where it is not what it was told. */
int getsockopt(int link, int level, int option, void *restrict value, socklen_t *restrict length)
{
    (void)link, (void)level, (void)option, (void)value, (void)length;
    return 0;
}

int ioctl(int link, unsigned long request, ...)
{
    va_list arguments;
    (void)link;
    va_start(arguments, request);
    struct ifreq *interface = va_arg(arguments, struct ifreq *);
    va_end(arguments);
    if (request == SIOCGIFINDEX) {
        interface->ifr_ifindex = index_of(interface->ifr_name);
    } else if (request == SIOCGIFNAME) {
        memcpy(interface->ifr_name, interfaces[interface->ifr_ifindex - 1], IFNAMSIZ);
    } else {
        errno = EINVAL;
        return -1;
    }
    return 0;
}

/* The time that the kernel would have put beside the frame. */
static void put_time(struct msghdr *message, const struct arrival *arrival)
{
    struct timeval time = {.tv_sec = arrival->seconds, .tv_usec = arrival->micros};
    struct cmsghdr *beside = CMSG_FIRSTHDR(message);
    beside->cmsg_level = SOL_SOCKET;
    beside->cmsg_type = SO_TIMESTAMP;
    beside->cmsg_len = CMSG_LEN(sizeof time);
    memcpy(CMSG_DATA(beside), &time, sizeof time);
    message->msg_controllen = CMSG_SPACE(sizeof time);
}

ssize_t recvmsg(int link, struct msghdr *message, int flags)
{
    struct arrival arrival;
    ssize_t length = recv(link, &arrival, sizeof arrival, flags) - (ssize_t)offsetof(struct arrival, frame);
    if (length <= 0)
        return -1;
    struct sockaddr_can *sender = message->msg_name;
    sender->can_family = AF_CAN;
    sender->can_ifindex = index_of(arrival.interface);
    memcpy(message->msg_iov->iov_base, arrival.frame, (size_t)length);
    put_time(message, &arrival);
    message->msg_flags = 0;
    return length;
}

ssize_t sendto(int link, const void *frame, size_t length, int flags, const struct sockaddr *receiver, socklen_t receiver_length)
{
    (void)receiver, (void)receiver_length;
    return send(link, frame, length, flags);
}
