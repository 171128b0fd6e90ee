/* The numbers of oncrpc.h and the layouts of what it declares, each by its name. A program that does not compile says
 * which is another one.
 *
 * The states of a reply are those of RFC 5531 section 9: accept_stat, and behind it the two of reject_stat. A type has
 * its place in the order of RFC 4506 section 4, and the limits are those of RFC 5531 sections 8.2 and 11. The other
 * numbers were fixed when the first of them was published, in the order of the header's lists. Layouts are those of
 * x86-64. */
#include <stddef.h>

#include "oncrpc.h"

#define NUMBER(name, number) _Static_assert(ONCRPC_##name == number, #name " is " #number)
#define SIZE(type, size, unit) \
    _Static_assert(sizeof(oncrpc_##type) == size && _Alignof(oncrpc_##type) == unit, #type)
#define FIELD(type, field, place, size) \
    _Static_assert(offsetof(oncrpc_##type, field) == place && sizeof(((oncrpc_##type *)0)->field) == size, #type #field)

NUMBER(VERSION_MAJOR, 0);
NUMBER(VERSION_MINOR, 1);
NUMBER(VERSION_PATCH, 0);

NUMBER(OK, 0);
NUMBER(MORE_FOLLOWS, 1);
NUMBER(REFUSED, 2);
NUMBER(UNDECLARED, 3);
NUMBER(NO_KIND, 4);
NUMBER(BAD_LIMITS, 5);
NUMBER(NO_MEMORY, 6);
NUMBER(NO_DECLARATIONS, 7);
NUMBER(NO_ROOM, 8);
NUMBER(NOT_A_CALL, 9);
NUMBER(OTHER_VERSION, 10);
NUMBER(BAD_CREDENTIAL, 11);
NUMBER(BAD_VERIFIER, 12);
NUMBER(CUT, 13);
NUMBER(NOT_A_REPLY, 14);
NUMBER(BAD_STATE, 15);
NUMBER(BYTES_FOLLOW, 16);
NUMBER(NOT_AUTH_SYS, 17);
NUMBER(NO_REGISTRY, 18);
NUMBER(SILENCE, 19);
NUMBER(NO_TRANSPORT, 20);
NUMBER(UNCHANGED, 21);
NUMBER(NO_READER, 22);
NUMBER(MORE_WANTED, 23);
NUMBER(NO_RECORD, 24);
NUMBER(NOT_AN_ADDRESS, 25);
NUMBER(BAD_ITEM, 26);
NUMBER(NO_SUCH_PART, 27);
NUMBER(NO_NUMBER, 28);
NUMBER(NO_MEMBER, 29);
NUMBER(BAD_JSON, 30);
NUMBER(NO_SESSION, 31);
NUMBER(OUTPUT_WAITS, 32);
NUMBER(NO_CALLER, 33);
NUMBER(NO_PART, 34);
NUMBER(NO_CURSOR, 35);
NUMBER(ASTRAY, 36);

NUMBER(BAD_BOOL, 1);
NUMBER(BAD_NUMBERED, 2);
NUMBER(BAD_CASE, 3);
NUMBER(TOO_LONG, 4);
NUMBER(BAD_PADDING, 5);
NUMBER(TOO_DEEP, 6);
NUMBER(TOO_LARGE, 7);
NUMBER(TRUNCATED, 8);

NUMBER(WRONG_ITEM, 9);
NUMBER(NOT_IN_RANGE, 10);
NUMBER(PAST_END, 11);
NUMBER(UNFINISHED, 12);
NUMBER(OUTSIDE, 13);

NUMBER(JSON_NOT_JSON, 1);
NUMBER(JSON_UNKNOWN_MEMBER, 2);
NUMBER(JSON_MISSING_MEMBER, 3);
NUMBER(JSON_MEMBER_TWICE, 4);
NUMBER(JSON_WRONG_TYPE, 5);
NUMBER(JSON_OUT_OF_RANGE, 6);
NUMBER(JSON_NOT_WHOLE, 7);
NUMBER(JSON_UNKNOWN_NAME, 8);
NUMBER(JSON_BAD_HEX, 9);
NUMBER(JSON_WRONG_LENGTH, 10);
NUMBER(JSON_NO_ARM, 11);
NUMBER(JSON_TOO_DEEP, 12);
NUMBER(JSON_TOO_LARGE, 13);

NUMBER(BAD_CHARACTER, 1);
NUMBER(BAD_NUMBER, 2);
NUMBER(UNEXPECTED, 3);
NUMBER(FLOATING_KIND, 4);
NUMBER(NAME_TWICE, 5);
NUMBER(NAME_UNKNOWN, 6);
NUMBER(NOT_A_SIZE, 7);
NUMBER(OUT_OF_RANGE, 8);
NUMBER(TYPEDEF_LOOP, 9);
NUMBER(BAD_SCHEMA, 10);
NUMBER(TEXT_TOO_LONG, 11);
NUMBER(NESTED_TOO_DEEP, 12);

NUMBER(ROLE_NUMBER, 1);
NUMBER(ROLE_FLAG, 2);
NUMBER(ROLE_LENGTH, 3);
NUMBER(ROLE_CONTENT, 4);
NUMBER(ROLE_GROUP, 5);

NUMBER(TYPE_INT, 1);
NUMBER(TYPE_UNSIGNED, 2);
NUMBER(TYPE_HYPER, 3);
NUMBER(TYPE_UNSIGNED_HYPER, 4);
NUMBER(TYPE_BOOL, 5);
NUMBER(TYPE_ENUM, 6);
NUMBER(TYPE_FIXED_OPAQUE, 7);
NUMBER(TYPE_OPAQUE, 8);
NUMBER(TYPE_STRING, 9);
NUMBER(TYPE_FIXED_ARRAY, 10);
NUMBER(TYPE_ARRAY, 11);
NUMBER(TYPE_STRUCT, 12);
NUMBER(TYPE_UNION, 13);
NUMBER(TYPE_OPTIONAL, 14);
NUMBER(TYPE_VOID, 15);

NUMBER(ITEM_SIGNED, 1);
NUMBER(ITEM_UNSIGNED, 2);
NUMBER(ITEM_FLAG, 3);
NUMBER(ITEM_COUNT, 4);
NUMBER(ITEM_CONTENT, 5);

NUMBER(PEER_REMOTE, 0);
NUMBER(PEER_LOCAL, 1);
NUMBER(PEER_LOCAL_USER, 2);

NUMBER(SUCCESS, 0);
NUMBER(PROG_UNAVAIL, 1);
NUMBER(PROG_MISMATCH, 2);
NUMBER(PROC_UNAVAIL, 3);
NUMBER(GARBAGE_ARGS, 4);
NUMBER(SYSTEM_ERR, 5);
NUMBER(RPC_MISMATCH, 6);
NUMBER(AUTH_ERROR, 7);

NUMBER(MOST_BODY, 400);
NUMBER(MOST_DEPTH, 4096);
NUMBER(MOST_BYTES, 16777216);
NUMBER(MOST_RECORD, 2147483647);

SIZE(outcome, 32, 8);
FIELD(outcome, at, 0, 8);
FIELD(outcome, line, 8, 8);
FIELD(outcome, column, 16, 8);
FIELD(outcome, why, 24, 4);
FIELD(outcome, inner, 28, 4);

SIZE(declarations, 16, 8);
FIELD(declarations, at, 0, 8);
FIELD(declarations, live, 8, 1);

SIZE(value_part, 48, 8);
FIELD(value_part, at, 0, 8);
FIELD(value_part, count, 8, 8);
FIELD(value_part, name_at, 16, 8);
FIELD(value_part, name_count, 24, 8);
FIELD(value_part, depth, 32, 4);
FIELD(value_part, kind, 36, 4);
FIELD(value_part, xdr_type, 40, 4);
FIELD(value_part, role, 44, 4);

SIZE(parts_outcome, 32, 8);
FIELD(parts_outcome, at, 0, 8);
FIELD(parts_outcome, parts, 8, 8);
FIELD(parts_outcome, names, 16, 8);
FIELD(parts_outcome, why, 24, 4);

SIZE(number, 16, 8);
FIELD(number, signed_number, 0, 8);
FIELD(number, number, 8, 8);

SIZE(kind, 24, 8);
FIELD(kind, members, 0, 8);
FIELD(kind, xdr_type, 8, 4);
FIELD(kind, size, 12, 4);
FIELD(kind, item, 16, 4);

SIZE(member, 24, 8);
FIELD(member, name_count, 0, 8);
FIELD(member, number, 8, 8);
FIELD(member, kind, 16, 4);

SIZE(item, 40, 8);
FIELD(item, form, 0, 4);
FIELD(item, signed_number, 8, 8);
FIELD(item, number, 16, 8);
FIELD(item, at, 24, 8);
FIELD(item, count, 32, 8);

SIZE(part, 16, 8);
FIELD(part, at, 0, 8);
FIELD(part, count, 8, 8);

SIZE(call, 80, 8);
FIELD(call, xid, 0, 4);
FIELD(call, rpc_version, 4, 4);
FIELD(call, program, 8, 4);
FIELD(call, version, 12, 4);
FIELD(call, procedure, 16, 4);
FIELD(call, credential_flavor, 20, 4);
FIELD(call, verifier_flavor, 24, 4);
FIELD(call, credential, 32, 16);
FIELD(call, verifier, 48, 16);
FIELD(call, arguments, 64, 16);

SIZE(reply, 56, 8);
FIELD(reply, xid, 0, 4);
FIELD(reply, state, 4, 4);
FIELD(reply, low, 8, 4);
FIELD(reply, high, 12, 4);
FIELD(reply, auth_stat, 16, 4);
FIELD(reply, verifier_flavor, 20, 4);
FIELD(reply, verifier, 24, 16);
FIELD(reply, results, 40, 16);

SIZE(auth_sys, 96, 8);
FIELD(auth_sys, stamp, 0, 4);
FIELD(auth_sys, uid, 4, 4);
FIELD(auth_sys, gid, 8, 4);
FIELD(auth_sys, gid_count, 12, 4);
FIELD(auth_sys, gids, 16, 64);
FIELD(auth_sys, machine, 80, 16);

SIZE(caller, 16, 4);
FIELD(caller, peer, 0, 4);
FIELD(caller, uid, 4, 4);
FIELD(caller, host, 8, 4);
FIELD(caller, has_host, 12, 1);
FIELD(caller, trusts_remote, 13, 1);

SIZE(parts, 16, 8);
FIELD(parts, at, 0, 8);
FIELD(parts, live, 8, 1);

SIZE(session, 16, 8);
FIELD(session, at, 0, 8);
FIELD(session, live, 8, 1);

SIZE(registry, 16, 8);
FIELD(registry, at, 0, 8);
FIELD(registry, live, 8, 1);

SIZE(registry_row, 56, 8);
FIELD(registry_row, program, 0, 4);
FIELD(registry_row, version, 4, 4);
FIELD(registry_row, netid, 8, 16);
FIELD(registry_row, address, 24, 16);
FIELD(registry_row, owner, 40, 16);

SIZE(rows_outcome, 16, 8);
FIELD(rows_outcome, rows, 0, 8);
FIELD(rows_outcome, bytes, 8, 8);

SIZE(records, 16, 8);
FIELD(records, at, 0, 8);
FIELD(records, live, 8, 1);
