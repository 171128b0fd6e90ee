/* The procedures of filed.x, for the server that rpcgen makes of it. */
#include "filed.h"

static char owner[] = "rpcgen";

void *nil_1_svc(void *nothing, struct svc_req *request) {
    static char done;
    (void)nothing;
    (void)request;
    return &done;
}

file *own_1_svc(file *given, struct svc_req *request) {
    static file told;
    (void)request;
    told = *given;
    told.owner = owner;
    return &told;
}

u_int *size_1_svc(file *given, struct svc_req *request) {
    static u_int count;
    (void)request;
    count = given->data.data_len;
    return &count;
}
