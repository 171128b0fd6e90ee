/* Calls of a registry over one TCP connection to 127.0.0.1, so many unanswered at a time; prints the calls a second.
 * Each reply is looked at: its xid is the next one's, and it is SUCCESS. usage: registry_load PORT
 * fill|null|getaddr|getother|setunset|dump|fill-udp|udp-null|udp-getaddr COUNT WINDOW ROWS A work that begins with udp-
 * goes by datagrams, one a call, of which none may be lost. fill sets COUNT rows after the first ROWS, and fill-udp
 * rows of udp; getaddr asks for rows that lie all over the first ROWS, and getother for versions of their programs that
 * are not registered; setunset sets a row that is not there and removes it. A SET or an UNSET whose result is FALSE is
 * counted, and said at the end. */
#include <arpa/inet.h>
#include <errno.h>
#include <fcntl.h>
#include <poll.h>
#include <stdint.h>
#include <stdio.h>
#include <stdlib.h>
#include <string.h>
#include <sys/socket.h>
#include <time.h>
#include <unistd.h>
enum { FIRST = 0x20000000, ROOM = 1 << 16, KEPT = 1 << 21 };
static unsigned char call[256], out[ROOM], in[KEPT];
static size_t made;
static const char *netid = "tcp";
static void word(uint32_t v) {
    uint32_t wire = htonl(v);
    memcpy(call + made, &wire, 4);
    made += 4;
}
static void text(const char *s) {
    size_t n = strlen(s);
    word(n);
    memset(call + made, 0, (n + 3) & ~3u);
    memcpy(call + made, s, n);
    made += (n + 3) & ~3u;
}
static void rpcb(uint32_t prog, uint32_t vers, const char *at) {
    word(prog), word(vers), text(netid), text(at), text("");
}
static void make(const char *work, uint32_t xid, uint32_t rows) {
    uint32_t prog = FIRST + rows + xid - 1, proc = 0, vers = 1;
    const char *at = "127.0.0.1.8.1";
    made = 4;
    if (!strncmp(work, "fill", 4)) proc = 1;
    if (!strncmp(work, "get", 3)) proc = 3, prog = FIRST + xid * 2654435761u % rows, at = "";
    if (!strcmp(work, "getother")) vers = 2;
    if (!strcmp(work, "setunset")) proc = xid % 2 ? 1 : 2, prog = FIRST - 1;
    if (!strcmp(work, "dump")) proc = 4;
    word(xid), word(0), word(2), word(100000), word(proc ? 4 : 2), word(proc), word(0), word(0), word(0), word(0);
    if (proc && proc != 4) rpcb(prog, vers, at);
    uint32_t header = htonl(0x80000000u | (made - 4));
    memcpy(call, &header, 4);
}
static uint32_t number(const unsigned char *at) {
    uint32_t wire;
    memcpy(&wire, at, 4);
    return ntohl(wire);
}
static double now(void) {
    struct timespec t;
    clock_gettime(CLOCK_MONOTONIC, &t);
    return t.tv_sec + t.tv_nsec / 1e9;
}
static int stop(const char *why) {
    fprintf(stderr, "registry_load: %s\n", why);
    exit(1);
}
static void datagrams(const struct sockaddr_in *at, const char *work, uint32_t count, uint32_t window, uint32_t rows) {
    uint32_t sent = 0, got = 0;
    int s = socket(AF_INET, SOCK_DGRAM, 0);
    struct timeval most = {20, 0};
    setsockopt(s, SOL_SOCKET, SO_RCVTIMEO, &most, sizeof most);
    if (connect(s, (void *)at, sizeof *at)) stop("no socket");
    double begun = now();
    for (; got < count; got++) {
        for (; sent < count && sent - got < window; sent++) {
            make(work, sent + 1, rows);
            if (send(s, call + 4, made - 4, 0) < 0) stop("a send failed");
        }
        ssize_t n = recv(s, in, sizeof in, 0);
        if (n < 0) stop("no reply for 20 seconds");
        if (n < 24 || number(in) != got + 1 || number(in + 4) != 1 || number(in + 8) || number(in + 20))
            stop("no successful reply to the next call");
    }
    printf("%.0f\n", count / (now() - begun));
}
int main(int c, char **v) {
    if (c != 6) return stop("five words are wanted");
    const char *work = v[2];
    uint32_t count = atol(v[3]), window = atol(v[4]), rows = atol(v[5]), sent = 0, got = 0, refused = 0;
    int tells = !strncmp(work, "fill", 4) || !strcmp(work, "setunset"), fresh = 1, s = socket(AF_INET, SOCK_STREAM, 0);
    struct sockaddr_in at = {
        .sin_family = AF_INET, .sin_port = htons(atoi(v[1])), .sin_addr.s_addr = htonl(INADDR_LOOPBACK)};
    if (strstr(work, "udp")) netid = "udp";
    if (!strncmp(work, "udp-", 4)) return datagrams(&at, work + 4, count, window, rows), 0;
    if (connect(s, (void *)&at, sizeof at)) return stop("no connection");
    fcntl(s, F_SETFL, O_NONBLOCK);
    size_t full = 0, went = 0, held = 0;
    double begun = now();
    while (got < count) {
        for (; sent < count && sent - got < window && full + sizeof call < sizeof out; sent++) {
            make(work, sent + 1, rows);
            memcpy(out + full, call, made);
            full += made;
        }
        if (went < full) {
            ssize_t n = write(s, out + went, full - went);
            if (n < 0 && errno != EAGAIN) return stop("a write failed");
            if (n > 0) went += n;
            if (went == full) went = full = 0;
        }
        ssize_t n = read(s, in + held, sizeof in - held);
        if (n == 0) return stop("closed");
        if (n < 0 && errno != EAGAIN) return stop("a read failed");
        if (n < 0) {
            struct pollfd wait = {s, POLLIN | (went < full ? POLLOUT : 0), 0};
            if (poll(&wait, 1, 20000) == 0) return stop("no reply for 20 seconds");
            continue;
        }
        held += n;
        size_t done = 0;
        while (held - done >= 4) {
            uint32_t header = number(in + done), size = header & 0x7fffffff;
            const unsigned char *reply = in + done + 4;
            if (held - done < 4 + (size_t)size) break;
            if (fresh && (size < 24 || number(reply) != got + 1 || number(reply + 4) != 1 || number(reply + 8) ||
                          number(reply + 20)))
                return stop("no successful reply to the next call");
            if (fresh && tells) refused += size < 28 || !number(reply + 24);
            fresh = header >> 31;
            got += fresh;
            done += 4 + size;
        }
        memmove(in, in + done, held - done);
        held -= done;
    }
    printf("%.0f\n", count / (now() - begun));
    if (refused) fprintf(stderr, "registry_load: %s: %u of %u were refused\n", work, refused, count);
    return 0;
}
