/* Calls of libtirpc's own client library to a registry at port 111 of 127.0.0.1.

   clients getport PROG VERS             GETPORT of version 2 for TCP, over TCP (pmap_getport itself asks by datagram)
   clients askport PROG VERS NETID       pmap_getport
   clients getmaps                       pmap_getmaps
   clients getaddr PROG VERS NETID       rpcb_getaddr over NETID, tcp or udp
   clients getrows NETID                 rpcb_getmaps over NETID
   clients set PROG VERS UADDR           SET of version 4 over TCP, as uid 0
   clients local PROG VERS UADDR NETID   rpcb_set, which goes over the socket of rpcbind
   clients unset PROG VERS NETID         rpcb_unset, likewise */
#include <arpa/inet.h>
#include <rpc/rpc.h>
#include <rpc/pmap_clnt.h>
#include <rpc/pmap_prot.h>
#include <rpc/rpcb_clnt.h>
#include <stdio.h>
#include <stdlib.h>
#include <string.h>

static struct sockaddr_in registry(void) {
    struct sockaddr_in at = {.sin_family = AF_INET, .sin_port = htons(111)};
    at.sin_addr.s_addr = htonl(INADDR_LOOPBACK);
    return at;
}

static int set(char **words) {
    struct sockaddr_in at = registry();
    struct timeval wait = {5, 0};
    gid_t group = 0;
    int fd = RPC_ANYSOCK;
    bool_t done = FALSE;
    RPCB row = {strtoul(words[0], 0, 10), strtoul(words[1], 0, 10), "tcp", words[2], "superuser"};
    CLIENT *client = clnttcp_create(&at, RPCBPROG, RPCBVERS4, &fd, 0, 0);
    if (!client) return 1;
    client->cl_auth = authunix_create("localhost", 0, 0, 1, &group);
    if (clnt_call(client, RPCBPROC_SET, (xdrproc_t)xdr_rpcb, (void *)&row, (xdrproc_t)xdr_bool, (void *)&done, wait))
        clnt_perror(client, "SET");
    return !done;
}

static int local(char **words) {
    struct netconfig *over = getnetconfigent(words[3]);
    struct netbuf *at = uaddr2taddr(over, words[2]);
    return !at || !rpcb_set(strtoul(words[0], 0, 10), strtoul(words[1], 0, 10), over, at);
}

static int getport(char **words) {
    struct sockaddr_in at = registry();
    struct timeval wait = {5, 0};
    int fd = RPC_ANYSOCK;
    u_int port = 0;
    struct pmap row = {strtoul(words[0], 0, 10), strtoul(words[1], 0, 10), IPPROTO_TCP, 0};
    CLIENT *client = clnttcp_create(&at, PMAPPROG, PMAPVERS, &fd, 0, 0);
    if (!client) return 1;
    if (clnt_call(client, PMAPPROC_GETPORT, (xdrproc_t)xdr_pmap, (void *)&row, (xdrproc_t)xdr_u_int, (void *)&port,
                  wait))
        clnt_perror(client, "GETPORT");
    printf("%u\n", port);
    return 0;
}

static int askport(char **words) {
    struct sockaddr_in at = registry();
    u_int over = strcmp(words[2], "udp") ? IPPROTO_TCP : IPPROTO_UDP;
    printf("%u\n", pmap_getport(&at, strtoul(words[0], 0, 10), strtoul(words[1], 0, 10), over));
    return 0;
}

static int getmaps(void) {
    struct sockaddr_in at = registry();
    for (struct pmaplist *row = pmap_getmaps(&at); row; row = row->pml_next)
        printf("%lu %lu %lu %lu\n", row->pml_map.pm_prog, row->pml_map.pm_vers, row->pml_map.pm_prot,
               row->pml_map.pm_port);
    return 0;
}

static int getrows(const char *netid) {
    for (rpcblist *row = rpcb_getmaps(getnetconfigent(netid), "127.0.0.1"); row; row = row->rpcb_next)
        printf("%u %u %s %s %s\n", row->rpcb_map.r_prog, row->rpcb_map.r_vers, row->rpcb_map.r_netid,
               row->rpcb_map.r_addr, row->rpcb_map.r_owner);
    return 0;
}

static int getaddr(char **words) {
    struct netconfig *over = getnetconfigent(words[2]);
    struct sockaddr_storage room;
    struct netbuf at = {.maxlen = sizeof room, .len = sizeof room, .buf = &room};
    if (!rpcb_getaddr(strtoul(words[0], 0, 10), strtoul(words[1], 0, 10), over, &at, "127.0.0.1")) {
        clnt_pcreateerror("rpcb_getaddr");
        return 1;
    }
    puts(taddr2uaddr(over, &at));
    return 0;
}

int main(int count, char **words) {
    if (count == 2 && !strcmp(words[1], "getmaps")) return getmaps();
    if (count == 3 && !strcmp(words[1], "getrows")) return getrows(words[2]);
    if (count == 4 && !strcmp(words[1], "getport")) return getport(words + 2);
    if (count == 5 && !strcmp(words[1], "getaddr")) return getaddr(words + 2);
    if (count == 5 && !strcmp(words[1], "askport")) return askport(words + 2);
    if (count == 5 && !strcmp(words[1], "set")) return set(words + 2);
    if (count == 6 && !strcmp(words[1], "local")) return local(words + 2);
    if (count == 5 && !strcmp(words[1], "unset"))
        return !rpcb_unset(strtoul(words[2], 0, 10), strtoul(words[3], 0, 10), getnetconfigent(words[4]));
    return 2;
}
