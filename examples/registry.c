/* A registry over TCP and UDP on this machine, at the port that is named, until standard input ends.
 *
 *   ./build-library library && cc -Ilibrary/include examples/registry.c library/liboncrpc.a -o registry
 *   sleep 60 | ./registry 0       prints the port that it has; at port 111 'rpcinfo -p 127.0.0.1' lists its rows
 *   sleep 60 | ./registry 0 any   the same at every address of the host
 *
 * Connections are read and written by turns: whoever does not read a reply is dropped. SET and UNSET are taken from
 * peers at 127.x.x.x alone, since the user that a call claims proves nothing. */
#define _DEFAULT_SOURCE
#include <arpa/inet.h>
#include <poll.h>
#include <stdio.h>
#include <stdlib.h>
#include <string.h>
#include <sys/socket.h>
#include <unistd.h>

#include "oncrpc.h"

enum { INPUT, DATAGRAMS, LISTENER, FIRST_PEER, MOST_PEERS = 16, MOST_BYTES = 65536 };

/* A connection: who is at its other end, and the records that come over it. */
struct peer {
    struct sockaddr_in address;
    oncrpc_records records;
};

static struct pollfd waited[FIRST_PEER + MOST_PEERS];
static struct peer peers[MOST_PEERS];
static oncrpc_registry registry = ONCRPC_NONE;

/* The record that was received, and a reply behind space for the header of its fragment. A record has at most as many
 * bytes as its buffer, and a reply that the other cannot grow for is SYSTEM_ERR. */
static uint8_t record[MOST_BYTES];
static uint8_t *buffer;
static size_t buffer_count = 128;

/* Whether the record would change rows and comes from another host: SET and UNSET are procedures 1 and 2 of program
 * 100000 (RFC 1833 section 2.2.1). */
static int is_forbidden(const struct sockaddr_in *from, size_t count) {
    oncrpc_call call;
    return oncrpc_call_read(record, count, &call) == ONCRPC_OK && call.program == 100000
        && (call.procedure == 1 || call.procedure == 2) && ntohl(from->sin_addr.s_addr) >> 24 != IN_LOOPBACKNET;
}

/* A reply of this state to the record, if that is a call, and its count of bytes. At ONCRPC_AUTH_ERROR it says
 * AUTH_TOOWEAK (RFC 5531 section 9). */
static size_t refuse(size_t count, uint32_t state) {
    oncrpc_call call;
    oncrpc_reply reply = {0};
    size_t written = 0;
    if (oncrpc_call_read(record, count, &call) == ONCRPC_OK) {
        reply.xid = call.xid;
        reply.state = state;
        reply.auth_stat = 5;
        oncrpc_reply_write(&reply, NULL, 0, NULL, 0, buffer + 4, buffer_count - 4, &written);
    }
    return written;
}

/* Answers the record, and tells how many bytes the reply has, 0 where there is none. */
static size_t answer(const char *netid, const struct sockaddr_in *from, size_t count) {
    oncrpc_outcome outcome;
    if (is_forbidden(from, count)) {
        return refuse(count, ONCRPC_AUTH_ERROR);
    }
    uint32_t status = oncrpc_registry_answer(&registry, netid, strlen(netid), record, count, buffer + 4,
        buffer_count - 4, &outcome);
    if (status == ONCRPC_NO_ROOM) {
        uint8_t *larger = realloc(buffer, outcome.at + 4);
        if (!larger) {
            return refuse(count, ONCRPC_SYSTEM_ERR);
        }
        buffer = larger;
        buffer_count = outcome.at + 4;
        status = oncrpc_registry_reply(&registry, buffer + 4, buffer_count - 4, &outcome);
    }
    return status == ONCRPC_OK ? outcome.at : 0;
}

static void answer_datagram(void) {
    struct sockaddr_in from;
    socklen_t size = sizeof from;
    ssize_t count = recvfrom(waited[DATAGRAMS].fd, record, sizeof record, 0, (struct sockaddr *)&from, &size);
    size_t reply = count < 0 ? 0 : answer("udp", &from, (size_t)count);
    if (reply) {
        sendto(waited[DATAGRAMS].fd, buffer + 4, reply, MSG_DONTWAIT, (struct sockaddr *)&from, size);
    }
}

/* Answers the record that waits, behind the header of a last fragment (RFC 5531 section 11). Says whether the
 * connection goes on. */
static int answer_record(int socket, struct peer *peer) {
    oncrpc_outcome outcome;
    if (oncrpc_records_take(&peer->records, record, sizeof record, &outcome) != ONCRPC_OK) {
        return 0;
    }
    size_t reply = answer("tcp", &peer->address, outcome.at);
    return !reply
        || (oncrpc_record_header(reply, true, buffer) == ONCRPC_OK
            && send(socket, buffer, reply + 4, MSG_NOSIGNAL | MSG_DONTWAIT) == (ssize_t)reply + 4);
}

/* Answers each record that is whole with what was received. Says whether the connection goes on. */
static int answer_piece(int socket, struct peer *peer, const uint8_t *piece, size_t count) {
    oncrpc_outcome outcome;
    uint32_t status;
    while ((status = oncrpc_records_feed(&peer->records, piece, count, &outcome)) == ONCRPC_OK) {
        piece += outcome.at;
        count -= outcome.at;
        if (!answer_record(socket, peer)) {
            return 0;
        }
    }
    return status == ONCRPC_MORE_WANTED;
}

static void read_peer(struct pollfd *from, struct peer *peer) {
    static uint8_t piece[MOST_BYTES];
    ssize_t count = recv(from->fd, piece, sizeof piece, 0);
    if (count <= 0 || !answer_piece(from->fd, peer, piece, (size_t)count)) {
        close(from->fd);
        from->fd = -1;
        oncrpc_records_free(&peer->records);
    }
}

static void take_peer(void) {
    oncrpc_outcome outcome;
    struct sockaddr_in address;
    socklen_t size = sizeof address;
    int socket = accept(waited[LISTENER].fd, (struct sockaddr *)&address, &size);
    for (int i = 0; socket >= 0 && i < MOST_PEERS; i++) {
        if (waited[FIRST_PEER + i].fd < 0
            && oncrpc_records_start(&peers[i].records, MOST_BYTES, &outcome) == ONCRPC_OK) {
            waited[FIRST_PEER + i].fd = socket;
            peers[i].address = address;
            return;
        }
    }
    if (socket >= 0) {
        close(socket);
    }
}

/* A socket at this address and port, or at a port that is free where it is 0. */
static int socket_at(int type, uint32_t host, uint16_t *port) {
    struct sockaddr_in address = {0};
    socklen_t size = sizeof address;
    int on = 1, made = socket(AF_INET, type, 0);
    address.sin_family = AF_INET;
    address.sin_addr.s_addr = htonl(host);
    address.sin_port = htons(*port);
    if (made < 0 || setsockopt(made, SOL_SOCKET, SO_REUSEADDR, &on, sizeof on)
        || bind(made, (struct sockaddr *)&address, sizeof address)
        || getsockname(made, (struct sockaddr *)&address, &size)) {
        return -1;
    }
    *port = ntohs(address.sin_port);
    return made;
}

/* Answers what comes until standard input ends. */
static void serve(void) {
    char byte;
    while (poll(waited, FIRST_PEER + MOST_PEERS, -1) > 0) {
        if (waited[INPUT].revents && read(waited[INPUT].fd, &byte, 1) <= 0) {
            return;
        }
        if (waited[DATAGRAMS].revents) {
            answer_datagram();
        }
        for (int i = 0; i < MOST_PEERS; i++) {
            if (waited[FIRST_PEER + i].revents) {
                read_peer(&waited[FIRST_PEER + i], &peers[i]);
            }
        }
        if (waited[LISTENER].revents) {
            take_peer();
        }
    }
}

int main(int count, char **words) {
    uint16_t port = (uint16_t)(count > 1 ? atoi(words[1]) : 0);
    uint32_t host = count > 2 && !strcmp(words[2], "any") ? INADDR_ANY : INADDR_LOOPBACK;
    uint8_t seed[16];
    oncrpc_outcome outcome;
    for (int i = 0; i < FIRST_PEER + MOST_PEERS; i++) {
        waited[i].fd = -1;
        waited[i].events = POLLIN;
    }
    waited[INPUT].fd = STDIN_FILENO;
    waited[LISTENER].fd = socket_at(SOCK_STREAM, host, &port);
    waited[DATAGRAMS].fd = socket_at(SOCK_DGRAM, host, &port);
    buffer = malloc(buffer_count);
    if (!buffer || waited[DATAGRAMS].fd < 0 || listen(waited[LISTENER].fd, 16) || getentropy(seed, sizeof seed)
        || oncrpc_registry_start(&registry, port, seed, sizeof seed, &outcome) != ONCRPC_OK) {
        return 1;
    }
    printf("port %u\n", port);
    fflush(stdout);
    serve();
    for (int i = 0; i < MOST_PEERS; i++) {
        oncrpc_records_free(&peers[i].records);
    }
    oncrpc_registry_free(&registry);
    free(buffer);
    return 0;
}
