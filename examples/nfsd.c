/* Three procedures of NFS version 3 (RFC 1813), GETATTR, LOOKUP and READ, and a client that calls them, over a pair of
 * sockets: no port is opened. Arguments and results are written by their items, and read by their parts.
 *
 *   ./build-library library && cc -Ilibrary/include examples/nfsd.c library/liboncrpc.a -o nfsd && ./nfsd
 *
 * With the word serve or ask it is the server or the client alone, on a socket that is its standard input. */
#define _DEFAULT_SOURCE
#include <stdio.h>
#include <string.h>
#include <sys/socket.h>
#include <sys/wait.h>
#include <unistd.h>

#include "oncrpc.h"

/* After RFC 1813 sections 2 and 3. */
static const char text[] =
    "enum nfsstat3 { NFS3_OK = 0, NFS3ERR_NOENT = 2, NFS3ERR_NOTDIR = 20, NFS3ERR_INVAL = 22, NFS3ERR_STALE = 70 };"
    "enum ftype3 { NF3REG = 1, NF3DIR = 2 }; struct nfs_fh3 { opaque data<64>; };"
    "struct specdata3 { unsigned int specdata1; unsigned int specdata2; };"
    "struct nfstime3 { unsigned int seconds; unsigned int nseconds; };"
    "struct fattr3 { ftype3 type; unsigned int mode; unsigned int nlink; unsigned int uid; unsigned int gid;"
    "    unsigned hyper size; unsigned hyper used; specdata3 rdev; unsigned hyper fsid; unsigned hyper fileid;"
    "    nfstime3 atime; nfstime3 mtime; nfstime3 ctime; };"
    "union post_op_attr switch (bool attributes_follow) { case TRUE: fattr3 attributes; case FALSE: void; };"
    "struct GETATTR3args { nfs_fh3 object; }; struct GETATTR3resok { fattr3 obj_attributes; };"
    "union GETATTR3res switch (nfsstat3 status) { case NFS3_OK: GETATTR3resok resok; default: void; };"
    "struct diropargs3 { nfs_fh3 dir; string name<>; }; struct LOOKUP3args { diropargs3 what; };"
    "struct LOOKUP3resok { nfs_fh3 object; post_op_attr obj_attributes; post_op_attr dir_attributes; };"
    "struct LOOKUP3resfail { post_op_attr dir_attributes; };"
    "union LOOKUP3res switch (nfsstat3 status) { case NFS3_OK: LOOKUP3resok resok; default: LOOKUP3resfail resfail; };"
    "struct READ3args { nfs_fh3 file; unsigned hyper offset; unsigned int count; };"
    "struct READ3resok { post_op_attr file_attributes; unsigned int count; bool eof; opaque data<>; };"
    "struct READ3resfail { post_op_attr file_attributes; };"
    "union READ3res switch (nfsstat3 status) { case NFS3_OK: READ3resok resok; default: READ3resfail resfail; };"
    "program NFS_PROGRAM { version NFS_V3 { GETATTR3res NFSPROC3_GETATTR(GETATTR3args) = 1;"
    "    LOOKUP3res NFSPROC3_LOOKUP(LOOKUP3args) = 3; READ3res NFSPROC3_READ(READ3args) = 6; } = 3; } = 100003;";

enum { PROGRAM = 100003, VERSION = 3, GETATTR = 1, LOOKUP = 3, READ = 6, REGULAR = 1, FOLDER = 2 };
enum { OK = 0, NOENT = 2, NOTDIR = 20, INVAL = 22, STALE = 70 };
enum { MOST_PARTS = 64, MOST_DATA = 512, MOST_READ = 256, MOST_NAMES = 1024, MOST_VALUE = 1024, MOST_RECORD = 2048 };

/* What is served: a file has a text, a folder none. */
struct file {
    const char *handle, *folder, *name, *text;
};
static const struct file tree[] = {
    {"root", "", "", NULL},
    {"a", "root", "README", "A tree of three files.\n"},
    {"b", "root", "rhymes", NULL},
    {"c", "b", "jack.txt", "Jack and Jill went up the hill\nto fetch a pail of water.\n"},
    {"d", "b", "empty.txt", ""},
};
static const struct file *const tree_end = tree + sizeof tree / sizeof *tree;

/* The items of a value that is written, and what their content is taken from. */
struct list {
    oncrpc_item items[MOST_PARTS];
    uint8_t data[MOST_DATA];
    size_t count, data_count;
};

/* A value that was received: its bytes and its parts. */
struct value {
    const uint8_t *bytes;
    oncrpc_value_part parts[MOST_PARTS];
    uint8_t names[MOST_NAMES];
    size_t count;
};

/* One end of the connection: the record that came, and of the piece behind it the bytes that were not taken. */
struct end {
    int socket;
    oncrpc_records records;
    uint8_t record[MOST_RECORD], piece[MOST_RECORD];
    size_t count, at, to;
};

static oncrpc_declarations held = ONCRPC_NONE;

/* Says what a status is, where it is not the one that was wanted. */
static int fails(const char *what, uint32_t status) {
    if (status != ONCRPC_OK) {
        fprintf(stderr, "%s: %s\n", what, oncrpc_status_text(status));
    }
    return status != ONCRPC_OK;
}

static void put_number(struct list *to, uint64_t number) {
    to->items[to->count++] = (oncrpc_item){.form = ONCRPC_ITEM_UNSIGNED, .number = number};
}

/* There is space: for a handle of at most 64 bytes, and a name of the client or a piece of MOST_READ. */
static void put_content(struct list *to, const void *bytes, size_t count) {
    to->items[to->count++] = (oncrpc_item){.form = ONCRPC_ITEM_CONTENT, .at = to->data_count, .count = count};
    memcpy(to->data + to->data_count, bytes, count);
    to->data_count += count;
}

/* The name of what a procedure takes or gives. */
static const char *kind_of(uint32_t procedure, const char *which) {
    static char kind[32];
    snprintf(kind, sizeof kind, "%d.%d.%u.%s", PROGRAM, VERSION, procedure, which);
    return kind;
}

static uint32_t write_value(const char *kind, const struct list *from, uint8_t *buffer, size_t *count) {
    oncrpc_outcome outcome;
    return oncrpc_declarations_write(&held, kind, strlen(kind), ONCRPC_MOST_DEPTH, MOST_VALUE, from->items, from->count,
        from->data, from->data_count, buffer, MOST_VALUE, count, &outcome);
}

static uint32_t read_value(const char *kind, const uint8_t *bytes, size_t count, struct value *to) {
    oncrpc_parts_outcome outcome;
    uint32_t status = oncrpc_declarations_parts(&held, kind, strlen(kind), ONCRPC_MOST_DEPTH, MOST_VALUE, bytes, count,
        to->parts, MOST_PARTS, to->names, sizeof to->names, &outcome);
    to->bytes = bytes;
    to->count = outcome.parts;
    return status;
}

/* The first part of this name and role, or NULL. */
static const oncrpc_value_part *find(const struct value *in, const char *name, uint32_t role) {
    for (const oncrpc_value_part *part = in->parts; part < in->parts + in->count; part++) {
        if (part->role == role && part->name_count == strlen(name)
            && !memcmp(in->names + part->name_at, name, part->name_count)) {
            return part;
        }
    }
    return NULL;
}

/* The number of this name. That without a name is the discriminant of the value itself: the status of a result. */
static uint64_t number_in(const struct value *in, const char *name) {
    const oncrpc_value_part *part = find(in, name, ONCRPC_ROLE_NUMBER);
    uint64_t number = 0;
    for (size_t i = 0; part && i < part->count; i++) {
        number = number << 8 | in->bytes[part->at + i];
    }
    return number;
}

static int is_content(const struct value *in, const char *name, const char *wanted) {
    const oncrpc_value_part *part = find(in, name, ONCRPC_ROLE_CONTENT);
    return part && part->count == strlen(wanted) && !memcmp(in->bytes + part->at, wanted, part->count);
}

/* Receives the next record: 1. At the end of the stream there is none: 0. At a fault, which is told: -1. */
static int receive(struct end *end) {
    oncrpc_outcome outcome;
    uint32_t status;
    while ((status = oncrpc_records_feed(&end->records, end->piece + end->at, end->to - end->at, &outcome))
        == ONCRPC_MORE_WANTED) {
        ssize_t count = read(end->socket, end->piece, sizeof end->piece);
        if (count <= 0) {
            return count || fails("the end", oncrpc_records_end(&end->records, &outcome)) ? -1 : 0;
        }
        end->at = 0, end->to = (size_t)count;
    }
    end->at += outcome.at;
    if (fails("a record", status)
        || fails("a record", oncrpc_records_take(&end->records, end->record, sizeof end->record, &outcome))) {
        return -1;
    }
    end->count = outcome.at;
    return 1;
}

/* Sends a record, which stands behind space for its header. */
static int send_record(const struct end *end, uint8_t *buffer, size_t count) {
    return !fails("a header", oncrpc_record_header(count, true, buffer))
        && send(end->socket, buffer, count + 4, MSG_NOSIGNAL) == (ssize_t)count + 4;
}

/* ---- the server */

/* The attributes (RFC 1813 section 2.6): a type, a mode, links, ids, sizes, a device, a number and times. */
static void put_attributes(struct list *to, const struct file *file) {
    uint64_t size = file->text ? strlen(file->text) : 0, number = (uint64_t)(file - tree) + 1;
    const uint64_t numbers[] = {file->text ? REGULAR : FOLDER, file->text ? 0644 : 0755, 1, 0, 0, size, size, 0, 0, 1,
        number, 0, 0, 0, 0, 0, 0};
    for (size_t i = 0; i < sizeof numbers / sizeof *numbers; i++) {
        put_number(to, numbers[i]);
    }
}

/* The attributes that may follow, where there is a file. */
static void put_optional(struct list *to, const struct file *file) {
    put_number(to, file != NULL);
    if (file) {
        put_attributes(to, file);
    }
}

/* Of LOOKUP the file whose folder and name these are, and both of their attributes. */
static void look_up(const struct value *arguments, const struct file *folder, struct list *results) {
    const struct file *file = tree;
    while (folder && file < tree_end
        && (strcmp(file->folder, folder->handle) || !is_content(arguments, "name", file->name))) {
        file++;
    }
    uint32_t status = !folder ? STALE : folder->text ? NOTDIR : file == tree_end ? NOENT : OK;
    put_number(results, status);
    if (status == OK) {
        put_content(results, file->handle, strlen(file->handle));
        put_optional(results, file);
    }
    put_optional(results, folder);
}

/* Of READ so much of the text as was asked for, and is there. */
static void read_file(const struct value *arguments, const struct file *file, struct list *results) {
    put_number(results, !file ? STALE : file->text ? OK : INVAL);
    put_optional(results, file);
    if (file && file->text) {
        uint64_t size = strlen(file->text), offset = number_in(arguments, "offset");
        uint64_t count = number_in(arguments, "count");
        offset = offset < size ? offset : size;
        count = count < MOST_READ ? count : MOST_READ;
        count = count < size - offset ? count : size - offset;
        put_number(results, count);
        put_number(results, offset + count == size);
        put_content(results, file->text + offset, count);
    }
}

/* The items of what a procedure gives, of the file whose handle is in the arguments. */
static void put_results(uint32_t procedure, const struct value *arguments, struct list *results) {
    const struct file *file = tree;
    while (file < tree_end && !is_content(arguments, "data", file->handle)) {
        file++;
    }
    file = file < tree_end ? file : NULL;
    if (procedure == LOOKUP) {
        look_up(arguments, file, results);
    } else if (procedure == READ) {
        read_file(arguments, file, results);
    } else {
        put_number(results, file ? OK : STALE);
        if (file) {
            put_attributes(results, file);
        }
    }
}

/* What the call comes to (RFC 5531 section 9), with the results of ONCRPC_SUCCESS. */
static uint32_t state_of(const oncrpc_call *call, const uint8_t *record, uint8_t *bytes, size_t *count) {
    struct value arguments;
    struct list results = {.count = 0};
    if (call->program != PROGRAM || call->version != VERSION) {
        return call->program == PROGRAM ? ONCRPC_PROG_MISMATCH : ONCRPC_PROG_UNAVAIL;
    }
    uint32_t status = read_value(kind_of(call->procedure, "1"), record + call->arguments.at, call->arguments.count,
        &arguments);
    if (status != ONCRPC_OK) {
        return status == ONCRPC_NO_KIND ? ONCRPC_PROC_UNAVAIL : ONCRPC_GARBAGE_ARGS;
    }
    put_results(call->procedure, &arguments, &results);
    status = write_value(kind_of(call->procedure, "result"), &results, bytes, count);
    return fails("results", status) ? ONCRPC_SYSTEM_ERR : ONCRPC_SUCCESS;
}

/* Answers each record until the stream ends. */
static int serve(struct end *end) {
    uint8_t results[MOST_VALUE], buffer[MOST_RECORD];
    size_t results_count = 0, count;
    int there;
    while ((there = receive(end)) == 1) {
        oncrpc_call call;
        oncrpc_reply reply = {.low = VERSION, .high = VERSION};
        if (fails("a call", oncrpc_call_read(end->record, end->count, &call))) {
            return 0;
        }
        reply.xid = call.xid;
        reply.state = state_of(&call, end->record, results, &results_count);
        if (fails("a reply", oncrpc_reply_write(&reply, NULL, 0, results, results_count, buffer + 4, sizeof buffer - 4,
                &count))
            || !send_record(end, buffer, count)) {
            return 0;
        }
    }
    return !there;
}

/* ---- the client */

/* Makes a call, and reads its results, whose bytes stay where the record is. Says whether there are any. */
static int ask(struct end *end, uint32_t procedure, const struct list *arguments, struct value *results) {
    static uint32_t xid;
    uint8_t bytes[MOST_VALUE], buffer[MOST_RECORD];
    size_t bytes_count, count;
    oncrpc_call call = {.xid = ++xid, .program = PROGRAM, .version = VERSION, .procedure = procedure};
    oncrpc_reply reply;
    if (fails("arguments", write_value(kind_of(procedure, "1"), arguments, bytes, &bytes_count))
        || fails("a call",
            oncrpc_call_write(&call, NULL, 0, NULL, 0, bytes, bytes_count, buffer + 4, sizeof buffer - 4, &count))) {
        return 0;
    }
    if (!send_record(end, buffer, count) || receive(end) != 1
        || fails("a reply", oncrpc_reply_read(end->record, end->count, &reply)) || reply.xid != xid
        || reply.state != ONCRPC_SUCCESS) {
        fprintf(stderr, "there are no results of %u\n", procedure);
        return 0;
    }
    return !fails("results", read_value(kind_of(procedure, "result"), end->record + reply.results.at,
        reply.results.count, results));
}

/* Whether the status of results is NFS3_OK. Another is told. */
static int is_done(const char *name, const struct value *results) {
    uint64_t status = number_in(results, "");
    if (status != OK) {
        printf("%s: status %u\n", name, (unsigned)status);
    }
    return status == OK;
}

/* Prints the text of a file, which is read in small pieces. */
static int print_text(struct end *end, const char *name, const struct list *file) {
    struct value results;
    uint64_t offset = 0;
    size_t count;
    do {
        struct list asked = *file;
        put_number(&asked, offset);
        put_number(&asked, 20);
        if (!ask(end, READ, &asked, &results) || !is_done(name, &results)) {
            return 0;
        }
        const oncrpc_value_part *data = find(&results, "data", ONCRPC_ROLE_CONTENT);
        count = data->count;
        printf("%.*s", (int)count, (const char *)results.bytes + data->at);
        offset += count;
    } while (!number_in(&results, "eof") && count > 0);
    return 1;
}

/* Prints what has this handle, and the text of a file. */
static int print_file(struct end *end, const char *name, const struct list *file) {
    struct value results;
    if (!ask(end, GETATTR, file, &results) || !is_done(name, &results)) {
        return 0;
    }
    int is_file = number_in(&results, "type") == REGULAR;
    printf("%s: %s %u, mode %o, %u bytes\n", name, is_file ? "file" : "folder", (unsigned)number_in(&results, "fileid"),
        (unsigned)number_in(&results, "mode"), (unsigned)number_in(&results, "size"));
    return !is_file || print_text(end, name, file);
}

/* Looks a name up: `found` has then the handle alone. Prints what it leads to, or the status. */
static int follow(struct end *end, const struct list *folder, const char *name, struct list *found) {
    struct value results;
    struct list asked = *folder;
    put_content(&asked, name, strlen(name));
    if (!ask(end, LOOKUP, &asked, &results)) {
        return 0;
    }
    if (!is_done(name, &results)) {
        return 1;
    }
    const oncrpc_value_part *handle = find(&results, "data", ONCRPC_ROLE_CONTENT);
    found->count = found->data_count = 0;
    put_content(found, results.bytes + handle->at, handle->count);
    return print_file(end, name, found);
}

static int look_around(struct end *end) {
    struct list root = {.count = 0}, rhymes = {.count = 0}, file = {.count = 0};
    put_content(&root, "root", 4);
    return print_file(end, "/", &root) && follow(end, &root, "README", &file) && follow(end, &file, "more", &file)
        && follow(end, &root, "rhymes", &rhymes) && follow(end, &rhymes, "jack.txt", &file)
        && follow(end, &rhymes, "empty.txt", &file) && follow(end, &rhymes, "jill.txt", &file);
}

/* Serves the other end, or looks around in it, until the one or the other has ended. */
static int talk(int socket, int is_server) {
    static struct end end = {.records = ONCRPC_NONE};
    oncrpc_outcome outcome;
    end.socket = socket;
    int is_well = !fails("declarations", oncrpc_declarations_read(text, sizeof text - 1, &held, &outcome))
        && !fails("records", oncrpc_records_start(&end.records, MOST_RECORD, &outcome))
        && (is_server ? serve(&end) : look_around(&end));
    close(end.socket);
    oncrpc_records_free(&end.records);
    oncrpc_declarations_free(&held);
    return is_well;
}

int main(int argc, char **argv) {
    int sockets[2], status = 0;
    pid_t server;
    if (argc == 2) {
        return !talk(STDIN_FILENO, !strcmp(argv[1], "serve"));
    }
    if (socketpair(AF_UNIX, SOCK_STREAM, 0, sockets) || (server = fork()) < 0) {
        perror("nfsd");
        return 1;
    }
    close(sockets[!!server]);
    int is_well = talk(sockets[!server], !server);
    return !is_well || (server && (waitpid(server, &status, 0) < 0 || status));
}
