/* Preloaded into the built program (LD_PRELOAD): stands for the network and for the clock, and tells what is asked of
 * them.
 *
 * ASKED=FILE gets a line for each: 'looks up NAME', 'connects tcp ADDRESS PORT', 'binds tcp ADDRESS PORT', the same of
 * udp, and 'waits N' of the milliseconds that a socket's reads wait, 0 where they have no end.
 * Each name has the address 127.0.0.1. AT=PORT: whatever is connected to is at that port of 127.0.0.1, else at the port
 * that is asked for. Over TCP a free port of it is bound, and over UDP the one that is asked for. FROM=ADDRESS: who
 * connects, or sends a datagram, comes from there. OWN=ADDRESS: the own end of a socket that has a peer. UNKNOWN=CALL:
 * that end is not found out, since this call fails: 'socket', 'bind' or 'connect' of a socket for datagrams behind the
 * first one, or 'getsockname' of any that has a peer.
 * ROOM=N: so many bytes of room has an accepted connection for what is sent, or as few as may be.
 * UNWATCHED=N: the Nth socket that is to be watched is not, since its user has as many watched as may be.
 * UNACCEPTED=ERROR: the first connection that waits is not accepted at first, for this error, and waits on.
 * The clock stands still, but that a sleep ends at once, and it is so much later then. CLOCK=FILE: its milliseconds are
 * the eight bytes of that file, which others may change; a wait for events looks often. SILENT=1: nothing comes to a
 * socket that is connected, and a read ends at once with the time up for which it would wait.
 */
#define _DEFAULT_SOURCE
#include <arpa/inet.h>
#include <dlfcn.h>
#include <errno.h>
#include <fcntl.h>
#include <netdb.h>
#include <poll.h>
#include <stdarg.h>
#include <stdio.h>
#include <stdlib.h>
#include <string.h>
#include <sys/epoll.h>
#include <sys/mman.h>
#include <sys/socket.h>
#include <sys/time.h>
#include <time.h>
#include <unistd.h>
#ifndef RTLD_NEXT
#define RTLD_NEXT ((void *)-1L)
#endif

/* The C library's own function, behind the one that stands here. */
#define OWN(name) ((__typeof__(&name))dlsym(RTLD_NEXT, #name))
/* The milliseconds after which a wait for events looks at the clock again. */
enum { OFTEN = 5 };

extern int accept4(int, struct sockaddr *restrict, socklen_t *restrict, int);

static long waits, watched, unaccepted, for_datagrams, own_moment, *moment;

static void tell(const char *line, ...) {
    const char *file = getenv("ASKED");
    int to = file ? open(file, O_WRONLY | O_APPEND | O_CREAT, 0644) : -1;
    if (to < 0) return;
    va_list words;
    va_start(words, line);
    vdprintf(to, line, words);
    va_end(words);
    close(to);
}

/* The milliseconds at which the clock stands. */
static long *now(void) {
    const char *file = getenv("CLOCK");
    if (moment) return moment;
    int of = file ? open(file, O_RDWR) : -1;
    void *there = of < 0 ? MAP_FAILED : mmap(0, sizeof *moment, PROT_READ | PROT_WRITE, MAP_SHARED, of, 0);
    return moment = there == MAP_FAILED ? &own_moment : there;
}

int clock_gettime(clockid_t clock, struct timespec *to) {
    if (clock != CLOCK_MONOTONIC) return OWN(clock_gettime)(clock, to);
    to->tv_sec = 1000 + *now() / 1000;
    to->tv_nsec = *now() % 1000 * 1000000;
    return 0;
}

int nanosleep(const struct timespec *asked, struct timespec *left) {
    *now() += asked->tv_sec * 1000 + asked->tv_nsec / 1000000;
    return 0;
}

int epoll_wait(int poll, struct epoll_event *events, int most, int timeout) {
    return OWN(epoll_wait)(poll, events, most, timeout > OFTEN ? OFTEN : timeout);
}

int getaddrinfo(const char *name, const char *service, const struct addrinfo *hints, struct addrinfo **found) {
    tell("looks up %s\n", name ? name : "");
    return OWN(getaddrinfo)("127.0.0.1", service, hints, found);
}

/* Whether an own end is not found out, since this call fails with this error. */
static int is_unknown(const char *call, int error) {
    const char *failing = getenv("UNKNOWN");
    if (!failing || strcmp(failing, call)) return 0;
    errno = error;
    return 1;
}

/* A socket for IPv6 is one for IPv4, since all of them are at 127.0.0.1. */
int socket(int family, int kind, int protocol) {
    int is_for_datagrams = (kind & ~(SOCK_CLOEXEC | SOCK_NONBLOCK)) == SOCK_DGRAM;
    if (is_for_datagrams && ++for_datagrams > 1 && is_unknown("socket", EMFILE)) return -1;
    return OWN(socket)(family == AF_INET6 ? AF_INET : family, kind, protocol);
}

/* Tells what is asked of a socket over the internet; 0 of one that is of this host alone. */
static int is_told(const char *what, int of, const struct sockaddr *at) {
    const struct sockaddr_in *four = (const void *)at;
    const struct sockaddr_in6 *six = (const void *)at;
    const void *address = at->sa_family == AF_INET ? (const void *)&four->sin_addr : &six->sin6_addr;
    char text[INET6_ADDRSTRLEN];
    int kind = 0;
    socklen_t length = sizeof kind;
    if (at->sa_family != AF_INET && at->sa_family != AF_INET6) return 0;
    getsockopt(of, SOL_SOCKET, SO_TYPE, &kind, &length);
    inet_ntop(at->sa_family, address, text, sizeof text);
    tell("%s %s %s %d\n", what, kind == SOCK_STREAM ? "tcp" : "udp", text, ntohs(four->sin_port));
    return kind;
}

static struct sockaddr_in port_of_this_host(int port) {
    struct sockaddr_in made = {.sin_family = AF_INET, .sin_port = htons(port)};
    made.sin_addr.s_addr = htonl(INADDR_LOOPBACK);
    return made;
}

int connect(int from, const struct sockaddr *to, socklen_t length) {
    const char *at = getenv("AT");
    struct sockaddr_in there = port_of_this_host(at ? atoi(at) : 0);
    if (!at) there.sin_port = ((const struct sockaddr_in *)to)->sin_port;
    int kind = is_told("connects", from, to);
    if (!kind) return OWN(connect)(from, to, length);
    if (kind == SOCK_DGRAM && is_unknown("connect", ENETUNREACH)) return -1;
    return OWN(connect)(from, (const struct sockaddr *)&there, sizeof there);
}

int bind(int it, const struct sockaddr *at, socklen_t length) {
    int kind = is_told("binds", it, at);
    if (!kind) return OWN(bind)(it, at, length);
    if (for_datagrams > 1 && kind == SOCK_DGRAM && is_unknown("bind", EADDRNOTAVAIL)) return -1;
    struct sockaddr_in here = port_of_this_host(0);
    if (kind == SOCK_DGRAM) here.sin_port = ((const struct sockaddr_in *)at)->sin_port;
    return OWN(bind)(it, (const struct sockaddr *)&here, sizeof here);
}

/* Whether a connection waits that is not accepted now, and was not before. */
static int is_unaccepted(int at) {
    const char *error = getenv("UNACCEPTED");
    struct pollfd waiting = {.fd = at, .events = POLLIN};
    if (!error || unaccepted || poll(&waiting, 1, 0) != 1) return 0;
    unaccepted = 1;
    errno = atoi(error);
    return 1;
}

int accept4(int at, struct sockaddr *restrict from, socklen_t *restrict length, int how) {
    if (is_unaccepted(at)) return -1;
    int made = OWN(accept4)(at, from, length, how);
    const char *there = getenv("FROM"), *room = getenv("ROOM");
    int bytes = room ? atoi(room) : 0;
    if (made >= 0 && room) OWN(setsockopt)(made, SOL_SOCKET, SO_SNDBUF, &bytes, sizeof bytes);
    if (made >= 0 && there && from && from->sa_family == AF_INET)
        inet_pton(AF_INET, there, &((struct sockaddr_in *)from)->sin_addr);
    return made;
}

/* A datagram comes from FROM, at its sender's port, and one to FROM goes to that port of this host. */
ssize_t recvfrom(int at, void *restrict to, size_t count, int how, struct sockaddr *restrict from,
                 socklen_t *restrict length) {
    ssize_t came = OWN(recvfrom)(at, to, count, how, from, length);
    const char *there = getenv("FROM");
    if (came >= 0 && there && from && from->sa_family == AF_INET)
        inet_pton(AF_INET, there, &((struct sockaddr_in *)from)->sin_addr);
    return came;
}

ssize_t sendto(int from, const void *what, size_t count, int how, const struct sockaddr *to, socklen_t length) {
    struct sockaddr_in here = port_of_this_host(0);
    if (!getenv("FROM") || !to || to->sa_family != AF_INET) return OWN(sendto)(from, what, count, how, to, length);
    here.sin_port = ((const struct sockaddr_in *)to)->sin_port;
    return OWN(sendto)(from, what, count, how, (const struct sockaddr *)&here, sizeof here);
}

/* The own end of a socket that has a peer is OWN, as if the system had it so. */
int getsockname(int of, struct sockaddr *restrict end, socklen_t *restrict length) {
    int told = OWN(getsockname)(of, end, length);
    const char *own = getenv("OWN");
    struct sockaddr_in peer;
    socklen_t room = sizeof peer;
    if (told || end->sa_family != AF_INET || getpeername(of, (struct sockaddr *)&peer, &room) != 0) return told;
    if (is_unknown("getsockname", ENOBUFS)) return -1;
    if (own) inet_pton(AF_INET, own, &((struct sockaddr_in *)end)->sin_addr);
    return 0;
}

int epoll_ctl(int poll, int what, int of, struct epoll_event *event) {
    const char *unwatched = getenv("UNWATCHED");
    if (what == EPOLL_CTL_ADD && unwatched && ++watched == atol(unwatched)) {
        errno = ENOSPC;
        return -1;
    }
    return OWN(epoll_ctl)(poll, what, of, event);
}

int setsockopt(int of, int level, int name, const void *value, socklen_t length) {
    if (level == SOL_SOCKET && name == SO_RCVTIMEO) {
        const struct timeval *time = value;
        waits = time->tv_sec * 1000 + time->tv_usec / 1000;
        tell("waits %ld\n", waits);
    }
    return OWN(setsockopt)(of, level, name, value, length);
}

ssize_t recv(int from, void *to, size_t count, int how) {
    if (!getenv("SILENT")) return OWN(recv)(from, to, count, how);
    *now() += waits;
    errno = EAGAIN;
    return -1;
}
