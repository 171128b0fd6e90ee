/* The nearest to our directory_bench: rpcbind's registry is a linked list of libtirpc's RPCB, which each call walks.
 * libtirpc itself keeps no registry, so this is that list written again: a look-up compares program and netid, then the
 * version; a set looks the row up and is added at the end; an unset walks the whole list. usage: loop_registry
 * getaddr|refused|last|first ROWS COUNT */
#include <stdio.h>
#include <stdlib.h>
#include <string.h>
#include <rpc/rpc.h>
#include <rpc/rpcb_prot.h>
static struct rpcblist *rows;
static struct rpcblist *find(rpcprog_t prog, rpcvers_t vers, const char *netid) {
    for (struct rpcblist *at = rows; at; at = at->rpcb_next)
        if (at->rpcb_map.r_prog == prog && !strcmp(at->rpcb_map.r_netid, netid) && at->rpcb_map.r_vers == vers)
            return at;
    return 0;
}
static void discard(struct rpcblist *row) {
    free(row->rpcb_map.r_netid);
    free(row->rpcb_map.r_addr);
    free(row->rpcb_map.r_owner);
    free(row);
}
static int set(rpcprog_t prog, rpcvers_t vers, const char *netid, const char *address, const char *owner) {
    if (find(prog, vers, netid)) return 0;
    struct rpcblist *row = malloc(sizeof *row), **end = &rows;
    if (!row) return 0;
    row->rpcb_map.r_prog = prog;
    row->rpcb_map.r_vers = vers;
    row->rpcb_map.r_netid = strdup(netid);
    row->rpcb_map.r_addr = strdup(address);
    row->rpcb_map.r_owner = strdup(owner);
    row->rpcb_next = 0;
    if (!row->rpcb_map.r_netid || !row->rpcb_map.r_addr || !row->rpcb_map.r_owner) return discard(row), 0;
    while (*end) end = &(*end)->rpcb_next;
    *end = row;
    return 1;
}
static int unset(rpcprog_t prog, rpcvers_t vers, const char *netid, const char *owner) {
    int gone = 0;
    for (struct rpcblist **at = &rows; *at;) {
        struct rpcblist *row = *at;
        if (row->rpcb_map.r_prog != prog || row->rpcb_map.r_vers != vers ||
            (*netid && strcmp(netid, row->rpcb_map.r_netid))) {
            at = &row->rpcb_next;
            continue;
        }
        if (strcmp(owner, "superuser") && strcmp(row->rpcb_map.r_owner, owner)) return 0;
        *at = row->rpcb_next;
        discard(row);
        gone = 1;
    }
    return gone;
}
static int add(rpcprog_t prog) { return set(prog, 1, "tcp", "127.0.0.1.8.1", "1000"); }
int main(int c, char **v) {
    if (c != 4) return c != 1;
    const char *work = v[1];
    unsigned count = strtoul(v[3], 0, 10), all = strtoul(v[2], 0, 10), well = all > 0;
    for (unsigned prog = 0; prog < all; prog++) add(prog);
    for (unsigned turn = 0; turn < count && well; turn++) {
        unsigned some = turn * 2654435761u % all;
        if (!strcmp(work, "getaddr")) {
            struct rpcblist *row = find(some, 1, "tcp");
            well = row && !strcmp(row->rpcb_map.r_addr, "127.0.0.1.8.1");
        } else if (!strcmp(work, "refused")) {
            well = !add(some);
        } else {
            unsigned prog = !strcmp(work, "last") ? all - 1 : turn % all;
            well = unset(prog, 1, "tcp", "1000") && add(prog);
        }
    }
    return !well;
}
