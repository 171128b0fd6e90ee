/* NULL calls of a registry over many TCP connections to 127.0.0.1 at once, each with so many unanswered at a time;
 * prints the calls a second, and the slowest in a hundred of the times from a call to its reply in microseconds. Each
 * reply is looked at: its xid is its connection's next, and it is SUCCESS. usage: registry_many PORT CONNECTIONS
 * WINDOW COUNT, of all connections together. A connection that is refused or ends is said, and the status is 1. */
#include <arpa/inet.h>
#include <errno.h>
#include <fcntl.h>
#include <netinet/tcp.h>
#include <stdint.h>
#include <stdio.h>
#include <stdlib.h>
#include <string.h>
#include <sys/epoll.h>
#include <sys/resource.h>
#include <sys/socket.h>
#include <time.h>
#include <unistd.h>
enum { CALL = 44, REPLY = 28, MOST = 256, KEPT = REPLY * MOST };
struct peer {
    int fd;
    uint32_t asked, answered;
    size_t held;
    double at[MOST];
    unsigned char in[KEPT];
};
static double now(void) {
    struct timespec t;
    clock_gettime(CLOCK_MONOTONIC, &t);
    return t.tv_sec + t.tv_nsec / 1e9;
}
static void fail(const char *what) {
    perror(what);
    exit(1);
}
static void put(unsigned char *at, uint32_t v) {
    uint32_t wire = htonl(v);
    memcpy(at, &wire, 4);
}
static uint32_t number(const unsigned char *at) {
    uint32_t wire;
    memcpy(&wire, at, 4);
    return ntohl(wire);
}
/* Sends what may be asked more, in one write. */
static void ask(struct peer *p, uint32_t window, uint32_t count) {
    static unsigned char out[CALL * MOST];
    size_t made = 0;
    double t = now();
    while (p->asked < count && p->asked - p->answered < window) {
        unsigned char *call = out + made;
        memset(call, 0, CALL);
        put(call, 0x80000028u), put(call + 4, p->asked), put(call + 12, 2), put(call + 16, 100000), put(call + 20, 2);
        p->at[p->asked++ % MOST] = t;
        made += CALL;
    }
    if (made && write(p->fd, out, made) != (ssize_t)made) fail("write");
}
static double *times;
static size_t timed;
/* Takes the replies that are there. */
static void take(struct peer *p) {
    ssize_t n = read(p->fd, p->in + p->held, KEPT - p->held);
    if (n < 0 && (errno == EAGAIN || errno == EINTR)) return;
    if (n <= 0) fail("read");
    p->held += n;
    double t = now();
    size_t at = 0;
    for (; p->held - at >= REPLY; at += REPLY) {
        const unsigned char *reply = p->in + at;
        int is_well = number(reply) == 0x80000018u && number(reply + 4) == p->answered && number(reply + 8) == 1;
        if (!is_well || number(reply + 12) || number(reply + 24)) {
            fprintf(stderr, "another reply\n");
            exit(1);
        }
        times[timed++] = t - p->at[p->answered++ % MOST];
    }
    p->held -= at;
    memmove(p->in, p->in + at, p->held);
}
static int by_size(const void *a, const void *b) {
    double x = *(const double *)a, y = *(const double *)b;
    return (x > y) - (x < y);
}
int main(int argc, char **argv) {
    if (argc != 5) return 2;
    uint32_t connections = atoi(argv[2]), window = atoi(argv[3]), each = atoi(argv[4]) / connections;
    if (window > MOST) return 2;
    struct rlimit most = {connections + 64, connections + 64};
    setrlimit(RLIMIT_NOFILE, &most);
    struct sockaddr_in to = {.sin_family = AF_INET, .sin_port = htons(atoi(argv[1]))};
    to.sin_addr.s_addr = htonl(INADDR_LOOPBACK);
    struct peer *peers = calloc(connections, sizeof *peers);
    times = malloc(sizeof *times * each * connections);
    int ready = epoll_create1(0), one = 1;
    for (uint32_t i = 0; i < connections; i++) {
        struct peer *p = peers + i;
        p->fd = socket(AF_INET, SOCK_STREAM, 0);
        if (p->fd < 0 || connect(p->fd, (struct sockaddr *)&to, sizeof to)) fail("connect");
        setsockopt(p->fd, IPPROTO_TCP, TCP_NODELAY, &one, sizeof one);
        fcntl(p->fd, F_SETFL, O_NONBLOCK);
        struct epoll_event it = {.events = EPOLLIN, .data.ptr = p};
        epoll_ctl(ready, EPOLL_CTL_ADD, p->fd, &it);
    }
    double begun = now();
    for (uint32_t i = 0; i < connections; i++) ask(peers + i, window, each);
    for (uint32_t done = 0; done < connections;) {
        struct epoll_event got[256];
        int n = epoll_wait(ready, got, 256, 60000);
        if (n == 0) errno = ETIMEDOUT, fail("a minute without a reply");
        for (int i = 0; i < n; i++) {
            struct peer *p = got[i].data.ptr;
            if (p->answered == each) continue;
            take(p);
            ask(p, window, each);
            done += p->answered == each;
        }
    }
    double took = now() - begun;
    qsort(times, timed, sizeof *times, by_size);
    printf("%.0f %.0f\n", timed / took, times[timed - 1 - timed / 100] * 1e6);
    return 0;
}
