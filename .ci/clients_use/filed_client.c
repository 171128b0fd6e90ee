/* A client of the server that rpcgen makes of filed.x, by its own routines: it asks by "tcp" or "udp", and prints the
 * result of OWN as JSON, without white space, and that of SIZE. */
#include <stdio.h>
#include "filed.h"

int main(int count, char **words) {
    CLIENT *asking = clnt_create("127.0.0.1", FILED, FIRST, count > 1 ? words[1] : "tcp");
    if (!asking) return 1;
    file given = {.filename = "sillyprog", .owner = "john", .data = {6, "(quit)"}};
    given.type.kind = EXEC;
    given.type.filetype_u.interpretor = "lisp";
    file *told = own_1(&given, asking);
    u_int *size = size_1(&given, asking);
    if (!told || !size || told->type.kind != EXEC) return 1;
    printf("{\"filename\":\"%s\",\"type\":{\"case\":\"EXEC\",\"interpretor\":\"%s\"},", told->filename,
           told->type.filetype_u.interpretor);
    printf("\"owner\":\"%s\",\"data\":\"", told->owner);
    for (u_int at = 0; at < told->data.data_len; at++) printf("%02x", (unsigned char)told->data.data_val[at]);
    printf("\"}\n%u\n", *size);
    return 0;
}
