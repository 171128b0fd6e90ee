/* The nearest to our tool_bench json with rpcgen, libtirpc and json-c: JSON of one value, COUNT times.
 * usage: loop_json nums|list bytes|value|read|back COUNT
 * Standard input is the bytes of the value (RFC 4506), or its JSON. bytes: they are decoded and written as JSON; value:
 * the value is, which was decoded before; read: the JSON is read as a value; back: and encoded. A line is printed: how
 * many bytes all COUNT texts or encodings have together, of read how many values were read. */
#include <stdint.h>
#include <stdio.h>
#include <stdlib.h>
#include <string.h>
#include <json-c/json.h>
#include <rpc/rpc.h>
#include "../gen/bench.h"
static char *input, *wire;
static size_t input_length;
static const u_int room = 40u << 20;
static void ended(int well) {
    if (!well) exit(1);
}
static json_object *json_of_nums(const nums *a) {
    json_object *all = json_object_new_array_ext(a->nums_len);
    for (u_int i = 0; i < a->nums_len; i++) json_object_array_add(all, json_object_new_int64(a->nums_val[i]));
    return all;
}
static json_object *json_of_list(list l) {
    json_object *first = NULL, *last = NULL;
    for (; l; l = l->next) {
        json_object *entry = json_object_new_object();
        json_object_object_add(entry, "item", json_object_new_string(l->item));
        if (last) json_object_object_add(last, "next", entry);
        else first = entry;
        last = entry;
    }
    if (last) json_object_object_add(last, "next", NULL);
    return first;
}
static void nums_of_json(json_object *all, nums *a) {
    ended(json_object_is_type(all, json_type_array));
    a->nums_len = json_object_array_length(all);
    a->nums_val = malloc(4 * (size_t)a->nums_len + 1);
    for (u_int i = 0; i < a->nums_len; i++) {
        json_object *item = json_object_array_get_idx(all, i);
        ended(json_object_is_type(item, json_type_int));
        int64_t number = json_object_get_int64(item);
        ended(number >= 0 && number <= UINT32_MAX);
        a->nums_val[i] = number;
    }
}
static void list_of_json(json_object *entry, list *into) {
    json_object *item;
    for (*into = NULL; entry; into = &(*into)->next) {
        ended(json_object_is_type(entry, json_type_object) && json_object_object_length(entry) == 2);
        *into = calloc(1, sizeof **into);
        ended(json_object_object_get_ex(entry, "item", &item) && json_object_is_type(item, json_type_string));
        (*into)->item = strdup(json_object_get_string(item));
        ended(json_object_object_get_ex(entry, "next", &entry));
    }
}
/* A value of either type. */
typedef union {
    nums numbers;
    list entries;
} value;
static int is_nums;
static xdrproc_t routine;
static void decoded(value *v) {
    XDR x;
    memset(v, 0, sizeof *v);
    xdrmem_create(&x, input, input_length, XDR_DECODE);
    ended(routine(&x, v));
}
static size_t encoded(value *v) {
    XDR x;
    xdrmem_create(&x, wire, room, XDR_ENCODE);
    ended(routine(&x, v));
    return xdr_getpos(&x);
}
static size_t written(const value *v) {
    size_t length;
    json_object *all = is_nums ? json_of_nums(&v->numbers) : json_of_list(v->entries);
    ended(json_object_to_json_string_length(all, JSON_C_TO_STRING_PLAIN, &length) != NULL);
    json_object_put(all);
    return length;
}
static void read_into(value *v) {
    /* (a list of 2000 strings nests so deep) */
    struct json_tokener *reader = json_tokener_new_ex(4096);
    json_object *all = json_tokener_parse_ex(reader, input, input_length);
    ended(json_tokener_get_error(reader) == json_tokener_success);
    if (is_nums) nums_of_json(all, &v->numbers);
    else list_of_json(all, &v->entries);
    json_object_put(all);
    json_tokener_free(reader);
}
static size_t once(const char *work, value *made) {
    value own;
    size_t sum;
    if (!strcmp(work, "value")) return written(made);
    if (!strcmp(work, "bytes")) {
        decoded(&own);
        sum = written(&own);
    } else {
        read_into(&own);
        sum = strcmp(work, "back") ? 1 : encoded(&own);
    }
    xdr_free(routine, (char *)&own);
    return sum;
}
int main(int c, char **v) {
    size_t sum = 0;
    value made;
    if (c != 4) return 2;
    input = malloc(room);
    wire = malloc(room);
    input_length = fread(input, 1, room, stdin);
    is_nums = !strcmp(v[1], "nums");
    routine = is_nums ? (xdrproc_t)xdr_nums : (xdrproc_t)xdr_list;
    if (!strcmp(v[2], "value")) decoded(&made);
    for (long i = atol(v[3]); i > 0; i--) sum += once(v[2], &made);
    printf("%zu\n", sum);
    return 0;
}
