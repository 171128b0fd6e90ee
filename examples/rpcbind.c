/* A registry in rpcbind's place: over TCP and UDP by IPv4 and IPv6 and over a local socket, until SIGTERM or SIGINT.
 *
 *   ./build-library library && cc -Ilibrary/include examples/rpcbind.c library/liboncrpc.a -o rpcbind
 *   ./rpcbind 0 /tmp/rpcbind.sock ::ffff:127.0.0.1  prints the port that it has
 *   ./rpcbind 111 /run/rpcbind.sock                 at every address, where rpcinfo and services look for it
 *
 * Rows are changed by callers of this host alone, and the kernel says who owns what is set over the local socket. */
#define _GNU_SOURCE
#include <arpa/inet.h>
#include <errno.h>
#include <signal.h>
#include <stdio.h>
#include <stdlib.h>
#include <string.h>
#include <sys/epoll.h>
#include <sys/socket.h>
#include <sys/stat.h>
#include <sys/un.h>
#include <time.h>
#include <unistd.h>

#include "oncrpc.h"

enum { MOST_PEERS = 1000, BOUND = 65536, IDLE = 60, MOST_DATAGRAM = 65507 };

/* What is waited for, what is done when it is ready, and what is kept of a connection. */
struct source {
    int fd;      /* 0: this is free for a connection */
    void (*ready)(struct source *);
    uint32_t wanted;
    bool ends;   /* nothing more is read: it is closed once its output was written */
    time_t last; /* when a record of it was last answered, or output written */
    oncrpc_session session;
};

static int waiting, peer_count;
static struct timespec now;
static volatile sig_atomic_t is_over;
static struct source datagrams, streams, local, peers[MOST_PEERS];
static oncrpc_registry registry = ONCRPC_NONE;

static int add(struct source *source, int fd, void (*ready)(struct source *)) {
    struct epoll_event event = {.events = EPOLLIN, .data.ptr = source};
    *source = (struct source){.fd = fd, .ready = ready, .wanted = EPOLLIN, .last = now.tv_sec, .session = ONCRPC_NONE};
    return fd < 0 ? -1 : epoll_ctl(waiting, EPOLL_CTL_ADD, fd, &event);
}

static void want(struct source *source, uint32_t events) {
    struct epoll_event event = {.events = events, .data.ptr = source};
    if (source->wanted != events && !epoll_ctl(waiting, EPOLL_CTL_MOD, source->fd, &event)) {
        source->wanted = events;
    }
}

static void want_peers(bool are_wanted) {
    want(&streams, are_wanted ? EPOLLIN : 0);
    want(&local, are_wanted ? EPOLLIN : 0);
}

/* Who is at an address, and to which host the call came. IPv4 has its addresses at ::ffff:0:0. */
static oncrpc_caller caller_at(const struct in6_addr *from, const struct in6_addr *to) {
    bool is_local = IN6_IS_ADDR_LOOPBACK(from) || (IN6_IS_ADDR_V4MAPPED(from) && from->s6_addr[12] == IN_LOOPBACKNET);
    oncrpc_caller who = {.peer = is_local ? ONCRPC_PEER_LOCAL : ONCRPC_PEER_REMOTE};
    who.has_host = IN6_IS_ADDR_V4MAPPED(to);
    memcpy(who.host, to->s6_addr + 12, sizeof who.host);
    return who;
}

/* Who is at the other end of a connection: at its address, or a user of this host, as the kernel says. */
static oncrpc_caller caller_over(int fd, bool is_local) {
    struct sockaddr_in6 from = {0}, to = {0};
    struct ucred user = {0};
    socklen_t from_size = sizeof from, to_size = sizeof to, user_size = sizeof user;
    if (is_local && !getsockopt(fd, SOL_SOCKET, SO_PEERCRED, &user, &user_size)) {
        return (oncrpc_caller){.peer = ONCRPC_PEER_LOCAL_USER, .uid = user.uid};
    }
    getpeername(fd, (struct sockaddr *)&from, &from_size);
    getsockname(fd, (struct sockaddr *)&to, &to_size);
    return caller_at(&from.sin6_addr, &to.sin6_addr);
}

static void end_peer(struct source *peer) {
    close(peer->fd);
    peer->fd = 0;
    oncrpc_session_free(&peer->session);
    peer_count--;
    want_peers(true);
}

/* Feeds a piece of what was received, and leaves in the socket what waits for output. Says whether more may come. */
static bool read_piece(struct source *peer) {
    static uint8_t piece[4096];
    size_t at = 0;
    oncrpc_outcome outcome;
    ssize_t count = recv(peer->fd, piece, sizeof piece, MSG_PEEK);
    if (count <= 0) {
        return count < 0 && (errno == EAGAIN || errno == EINTR);
    }
    uint32_t status;
    while ((status = oncrpc_session_feed(&peer->session, &registry, piece + at, (size_t)count - at, &outcome))
        == ONCRPC_OK) {
        at += outcome.at, peer->last = now.tv_sec;
    }
    at = status == ONCRPC_OUTPUT_WAITS ? at : (size_t)count;
    return (!at || recv(peer->fd, piece, at, 0) == (ssize_t)at)
        && (status == ONCRPC_MORE_WANTED || status == ONCRPC_OUTPUT_WAITS);
}

/* Writes what waits. Says how many bytes wait on, BOUND for those and more, or -1 where the other end is gone. */
static long write_output(struct source *peer) {
    static uint8_t buffer[BOUND];
    oncrpc_outcome outcome;
    while (oncrpc_session_output(&peer->session, buffer, BOUND, &outcome) <= ONCRPC_MORE_FOLLOWS && outcome.at) {
        ssize_t sent = send(peer->fd, buffer, outcome.at, MSG_NOSIGNAL);
        if (sent < 0) {
            return errno == EAGAIN || errno == EINTR ? (long)outcome.at : -1;
        }
        peer->last = now.tv_sec;
        oncrpc_session_took(&peer->session, (size_t)sent, &outcome);
    }
    return 0;
}

/* A connection's turn: a piece is read, where not too much waits, and what waits is written. */
static void serve_peer(struct source *peer) {
    peer->ends = peer->ends || (peer->wanted & EPOLLIN && !read_piece(peer));
    long waits = write_output(peer);
    if (waits < 0 || (peer->ends && !waits)) {
        end_peer(peer);
    } else {
        want(peer, (waits ? EPOLLOUT : 0u) | (peer->ends || waits == BOUND ? 0u : EPOLLIN));
    }
}

static void take_peer(struct source *listener) {
    oncrpc_outcome outcome;
    struct source *peer = peers;
    int fd = peer_count < MOST_PEERS ? accept4(listener->fd, NULL, NULL, SOCK_NONBLOCK | SOCK_CLOEXEC) : -1;
    if (fd < 0) {
        usleep(1000); /* descriptors may be wanting */
        return;
    }
    while (peer->fd) {
        peer++;
    }
    const char *netid = listener == &local ? "local" : "tcp";
    oncrpc_caller who = caller_over(fd, listener == &local);
    want_peers(++peer_count < MOST_PEERS);
    if (add(peer, fd, serve_peer)
        || oncrpc_session_start(&peer->session, netid, strlen(netid), &who, BOUND, &outcome) != ONCRPC_OK) {
        end_peer(peer);
    }
}

/* The reply goes from the address that was called, as the kernel noted it. Over IPv6 too, rows over IPv4 are told. */
static void answer_datagram(struct source *source) {
    static uint8_t record[65536], reply[MOST_DATAGRAM];
    union { struct cmsghdr first; uint8_t bytes[CMSG_SPACE(sizeof(struct in6_pktinfo))]; } note;
    struct sockaddr_in6 from = {0};
    struct iovec bytes = {record, sizeof record};
    struct msghdr message = {.msg_name = &from, .msg_namelen = sizeof from, .msg_iov = &bytes, .msg_iovlen = 1,
        .msg_control = &note, .msg_controllen = sizeof note};
    oncrpc_outcome outcome;
    ssize_t count = recvmsg(source->fd, &message, 0);
    if (count < 0 || !CMSG_FIRSTHDR(&message)) {
        return;
    }
    struct in6_pktinfo *to = (void *)CMSG_DATA(CMSG_FIRSTHDR(&message));
    oncrpc_caller who = caller_at(&from.sin6_addr, &to->ipi6_addr);
    to->ipi6_ifindex = 0; /* by whichever interface leads back */
    if (oncrpc_registry_answer_from(&registry, &who, "udp", 3, record, (size_t)count, reply, sizeof reply, &outcome)
        == ONCRPC_OK) {
        bytes = (struct iovec){reply, outcome.at};
        sendmsg(source->fd, &message, MSG_DONTWAIT);
    }
}

static void end(int number) {
    is_over = number;
}

/* A socket at this address and port, which may be 0 for one that is free. */
static int socket_at(int type, const char *address, uint16_t *port) {
    struct sockaddr_in6 at = {.sin6_family = AF_INET6, .sin6_port = htons(*port)};
    socklen_t size = sizeof at;
    int on = 1, off = 0, made = socket(AF_INET6, type | SOCK_NONBLOCK | SOCK_CLOEXEC, 0);
    if (made < 0 || (errno = EINVAL, inet_pton(AF_INET6, address, &at.sin6_addr) != 1)
        || (type == SOCK_STREAM && setsockopt(made, SOL_SOCKET, SO_REUSEADDR, &on, sizeof on))
        || setsockopt(made, IPPROTO_IPV6, IPV6_V6ONLY, &off, sizeof off)
        || setsockopt(made, IPPROTO_IPV6, IPV6_RECVPKTINFO, &on, sizeof on)
        || bind(made, (struct sockaddr *)&at, sizeof at) || (type == SOCK_STREAM && listen(made, SOMAXCONN))
        || getsockname(made, (struct sockaddr *)&at, &size)) {
        return -1;
    }
    *port = ntohs(at.sin6_port);
    return made;
}

/* A socket at this path, in place of whatever stands there, which every user may write to. */
static int socket_of(const char *path) {
    struct sockaddr_un at = {.sun_family = AF_UNIX};
    int made = socket(AF_UNIX, SOCK_STREAM | SOCK_NONBLOCK | SOCK_CLOEXEC, 0);
    bool is_whole = snprintf(at.sun_path, sizeof at.sun_path, "%s", path) < (int)sizeof at.sun_path;
    unlink(path);
    return made < 0 || !is_whole || bind(made, (struct sockaddr *)&at, sizeof at) || chmod(path, 0666)
        || listen(made, SOMAXCONN) ? -1 : made;
}

/* Serves what is ready, and ends idle connections, until a signal comes. */
static void serve(void) {
    struct epoll_event ready[64];
    while (!is_over) {
        int count = epoll_wait(waiting, ready, 64, 1000);
        clock_gettime(CLOCK_MONOTONIC, &now);
        for (int i = 0; i < count; i++) {
            struct source *source = ready[i].data.ptr;
            source->ready(source);
        }
        for (int i = 0; i < MOST_PEERS; i++) {
            if (peers[i].fd && now.tv_sec - peers[i].last > IDLE) {
                end_peer(&peers[i]);
            }
        }
    }
}

int main(int count, char **words) {
    uint16_t port = (uint16_t)(count > 1 ? atoi(words[1]) : 0);
    const char *path = count > 2 ? words[2] : "", *address = count > 3 ? words[3] : "::";
    uint8_t seed[16];
    oncrpc_outcome outcome;
    waiting = epoll_create1(EPOLL_CLOEXEC);
    if (add(&streams, socket_at(SOCK_STREAM, address, &port), take_peer)
        || add(&datagrams, socket_at(SOCK_DGRAM, address, &port), answer_datagram)
        || add(&local, socket_of(path), take_peer) || getentropy(seed, sizeof seed)
        || oncrpc_registry_start(&registry, port, seed, sizeof seed, &outcome) != ONCRPC_OK) {
        perror("rpcbind");
        return 1;
    }
    signal(SIGTERM, end);
    signal(SIGINT, end);
    dprintf(STDOUT_FILENO, "port %u\n", port);
    serve();
    for (int i = 0; i < MOST_PEERS; i++) {
        oncrpc_session_free(&peers[i].session);
    }
    oncrpc_registry_free(&registry);
    unlink(path);
    return 0;
}
