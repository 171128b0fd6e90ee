/* A server for the client of examples/nfsd.c, by libtirpc and the code that rpcgen makes of its declarations, on the
 * socket that is its standard input. It serves the example's tree. */
#include <poll.h>
#include <stdio.h>
#include <string.h>

#include "nfs.h"

/* What rpcgen writes beside its main function. */
void nfs_program_3(struct svc_req *request, SVCXPRT *transport);

struct served {
    char *handle, *folder, *name, *text;
};
static const struct served tree[] = {
    {"root", "", "", NULL},
    {"a", "root", "README", "A tree of three files.\n"},
    {"b", "root", "rhymes", NULL},
    {"c", "b", "jack.txt", "Jack and Jill went up the hill\nto fetch a pail of water.\n"},
    {"d", "b", "empty.txt", ""},
};
static const struct served *const tree_end = tree + sizeof tree / sizeof *tree;

/* What has this handle, or NULL. */
static const struct served *served_by(const nfs_fh3 *handle) {
    for (const struct served *it = tree; it < tree_end; it++) {
        if (strlen(it->handle) == handle->data.data_len
            && !memcmp(it->handle, handle->data.data_val, handle->data.data_len)) {
            return it;
        }
    }
    return NULL;
}

static fattr3 attributes_of(const struct served *it) {
    fattr3 told = {.type = it->text ? NF3REG : NF3DIR, .mode = it->text ? 0644 : 0755, .nlink = 1, .fsid = 1};
    told.size = told.used = it->text ? strlen(it->text) : 0;
    told.fileid = (u_quad_t)(it - tree) + 1;
    return told;
}

static post_op_attr optional_of(const struct served *it) {
    post_op_attr told = {.attributes_follow = it != NULL};
    if (it) {
        told.post_op_attr_u.attributes = attributes_of(it);
    }
    return told;
}

GETATTR3res *nfsproc3_getattr_3_svc(GETATTR3args *asked, struct svc_req *request) {
    static GETATTR3res results;
    const struct served *it = served_by(&asked->object);
    (void)request;
    results.status = it ? NFS3_OK : NFS3ERR_STALE;
    if (it) {
        results.GETATTR3res_u.resok.obj_attributes = attributes_of(it);
    }
    return &results;
}

LOOKUP3res *nfsproc3_lookup_3_svc(LOOKUP3args *asked, struct svc_req *request) {
    static LOOKUP3res results;
    const struct served *folder = served_by(&asked->what.dir), *it = tree;
    (void)request;
    while (folder && it < tree_end && (strcmp(it->folder, folder->handle) || strcmp(it->name, asked->what.name))) {
        it++;
    }
    results.status = !folder ? NFS3ERR_STALE : folder->text ? NFS3ERR_NOTDIR : it == tree_end ? NFS3ERR_NOENT : NFS3_OK;
    if (results.status != NFS3_OK) {
        results.LOOKUP3res_u.resfail.dir_attributes = optional_of(folder);
        return &results;
    }
    results.LOOKUP3res_u.resok.object.data.data_len = (u_int)strlen(it->handle);
    results.LOOKUP3res_u.resok.object.data.data_val = it->handle;
    results.LOOKUP3res_u.resok.obj_attributes = optional_of(it);
    results.LOOKUP3res_u.resok.dir_attributes = optional_of(folder);
    return &results;
}

READ3res *nfsproc3_read_3_svc(READ3args *asked, struct svc_req *request) {
    static READ3res results;
    const struct served *it = served_by(&asked->file);
    (void)request;
    results.status = !it ? NFS3ERR_STALE : it->text ? NFS3_OK : NFS3ERR_INVAL;
    if (results.status != NFS3_OK) {
        results.READ3res_u.resfail.file_attributes = optional_of(it);
        return &results;
    }
    u_quad_t size = strlen(it->text), offset = asked->offset < size ? asked->offset : size;
    u_int count = asked->count < size - offset ? asked->count : (u_int)(size - offset);
    READ3resok *read = &results.READ3res_u.resok;
    *read = (READ3resok){.file_attributes = optional_of(it), .count = count, .eof = offset + count == size};
    read->data.data_len = count;
    read->data.data_val = it->text + offset;
    return &results;
}

int main(void) {
    struct pollfd waiting = {.fd = 0, .events = POLLIN};
    SVCXPRT *transport = svc_fd_create(0, 0, 0);
    if (!transport || !svc_register(transport, NFS_PROGRAM, NFS_V3, nfs_program_3, 0)) {
        fprintf(stderr, "server: not registered\n");
        return 1;
    }
    /* At the client's end the transport closes its socket. */
    while (poll(&waiting, 1, -1) == 1 && !(waiting.revents & POLLNVAL)) {
        svc_getreq_common(0);
    }
    return 0;
}
