/* A client of examples/nfsd.c by libtirpc and the code that rpcgen makes of its declarations. It looks around as the
 * example's own client does, and prints the same lines.
 *
 * usage: client PORT    of 127.0.0.1 */
#include <arpa/inet.h>
#include <netinet/in.h>
#include <stdio.h>
#include <stdlib.h>
#include <string.h>

#include "nfs.h"

static CLIENT *client;

/* Prints the text of a file, which is read in pieces of 20 bytes. */
static int print_text(const char *name, nfs_fh3 file) {
    READ3args asked = {.file = file, .offset = 0, .count = 20};
    READ3res *results;
    do {
        results = nfsproc3_read_3(&asked, client);
        if (!results || results->status != NFS3_OK) {
            printf("%s: no text\n", name);
            return 0;
        }
        READ3resok *read = &results->READ3res_u.resok;
        printf("%.*s", (int)read->data.data_len, read->data.data_val);
        asked.offset += read->data.data_len;
        if (read->count != read->data.data_len) {
            return 0;
        }
    } while (!results->READ3res_u.resok.eof);
    return 1;
}

/* Prints what has this handle, and the text of a file. */
static int print_file(const char *name, nfs_fh3 file) {
    GETATTR3args asked = {.object = file};
    GETATTR3res *results = nfsproc3_getattr_3(&asked, client);
    if (!results || results->status != NFS3_OK) {
        printf("%s: no attributes\n", name);
        return 0;
    }
    fattr3 *attributes = &results->GETATTR3res_u.resok.obj_attributes;
    printf("%s: %s %u, mode %o, %u bytes\n", name, attributes->type == NF3REG ? "file" : "folder",
        (unsigned)attributes->fileid, attributes->mode, (unsigned)attributes->size);
    return attributes->type != NF3REG || print_text(name, file);
}

/* Looks a name up and prints what it leads to, or the status. `found` has the handle then. */
static int follow(nfs_fh3 folder, char *name, nfs_fh3 *found) {
    LOOKUP3args asked = {.what = {.dir = folder, .name = name}};
    LOOKUP3res *results = nfsproc3_lookup_3(&asked, client);
    if (!results) {
        return 0;
    }
    if (results->status != NFS3_OK) {
        printf("%s: status %u\n", name, results->status);
        return 1;
    }
    found->data.data_len = results->LOOKUP3res_u.resok.object.data.data_len;
    memcpy(found->data.data_val, results->LOOKUP3res_u.resok.object.data.data_val, found->data.data_len);
    return print_file(name, *found);
}

int main(int argc, char **argv) {
    struct sockaddr_in at = {.sin_family = AF_INET, .sin_addr.s_addr = htonl(INADDR_LOOPBACK)};
    static char rhymes_bytes[64], file_bytes[64];
    nfs_fh3 root = {{4, "root"}}, rhymes = {{0, rhymes_bytes}}, file = {{0, file_bytes}};
    int socket = RPC_ANYSOCK;
    if (argc != 2) {
        return 2;
    }
    at.sin_port = htons((uint16_t)atoi(argv[1]));
    client = clnttcp_create(&at, NFS_PROGRAM, NFS_V3, &socket, 0, 0);
    if (!client) {
        clnt_pcreateerror("client");
        return 1;
    }
    int is_well = print_file("/", root) && follow(root, "README", &file) && follow(file, "more", &file)
        && follow(root, "rhymes", &rhymes) && follow(rhymes, "jack.txt", &file) && follow(rhymes, "empty.txt", &file)
        && follow(rhymes, "jill.txt", &file);
    clnt_destroy(client);
    return !is_well;
}
