/* oncrpc: proved XDR (RFC 4506), messages and record marking of ONC RPC (RFC 5531), and the registry of rpcbind (RFC
 * 1833), for C and C++.
 *
 * Each function answers a status, one of the ONCRPC_ numbers below, and fills what the caller passes; a free answers
 * nothing. What it promises is the contract of the function of that name in crates/c_library/src, which a prover has
 * accepted. These comments retell it. The inline functions, which answer texts, stand here and are tested.
 *
 * SHOWN BY TESTS, and by no contract: that ONCRPC_NO_MEMORY comes only where malloc or realloc refused, or as
 * oncrpc_normalise says of its input. That no memory is lost. Which error of a text is told, and at which line and
 * column; of JSON that the place is where the refused value or key begins. The stack that is needed, and that no call
 * ends the process. The numbers and the texts of this file, and the sizes and the places of fields. No contract and no
 * test shows that the hashes of a registry depend on its seed: read the code for it.
 *
 * POINTERS. A pointer to bytes, parts or rows has a count beside it, and leads to so many. Where the count is 0 it may
 * be NULL, and is not looked at. No other pointer may be NULL: neither a handle, nor an outcome, nor a call, nor a
 * place for a number or for the four bytes of a host or a header. Each is aligned as its type wants it; one to bytes
 * that are read is a `const void *`, so that a text goes in without a cast. Nothing else may write what is read while
 * the call runs. What a call fills, an outcome, a buffer or a handle, overlaps nothing else that the call is given.
 * Another NULL, or an overlap, is undefined behaviour, as it is of the C library. A call keeps no pointer: when it has
 * returned, the bytes are the caller's again.
 *
 * MEMORY. What is kept between calls is in a handle, oncrpc_declarations, oncrpc_parts, oncrpc_registry,
 * oncrpc_records or oncrpc_session, and is given back by its free. All memory comes from malloc and realloc and goes to
 * free. Where one of them refuses, the answer is ONCRPC_NO_MEMORY, or the reply SYSTEM_ERR of a registry. No memory is
 * lost then, and the call may be made again. What a handle holds stays, with these exceptions: after
 * oncrpc_declarations_read, oncrpc_registry_start, oncrpc_records_start and oncrpc_session_start it holds nothing.
 * After ONCRPC_NO_MEMORY of oncrpc_records_feed and oncrpc_session_feed the stream is lost. No length or count that the
 * input declares reserves any memory.
 *
 * HANDLES. A handle begins as ONCRPC_NONE, which is all zeros: `oncrpc_records records = ONCRPC_NONE;`. Only the calls
 * below may look into it or write it. A copy of it must not be used beside it. A handle on the stack that was not set
 * to ONCRPC_NONE holds whatever was there, and a start or a read would free that.
 *
 * THREADS. There is no state outside of the handles and no initialisation, so calls may run on several threads at once
 * where they share nothing that one of them fills. A handle may go from one thread to another, and serves one call at a
 * time. Each call that is lent one writes to it, a check and the next part of a value too, so threads that share one
 * take a lock. Nothing here may be called from a signal handler, nor in the forked child of a process with threads.
 *
 * STACK. No calls but oncrpc_declarations_to_json and oncrpc_declarations_from_json go down by the depth of a value: 64
 * KiB are enough for every other call, at the greatest limits too, as was measured on x86-64 Linux. The first of the two
 * took 64 KiB for a value of 160 levels, and 1400 KiB for one of 4080. The second took 246 KiB for one of 2048, and 470
 * KiB for one of 4094. Lower the limit on depth where a thread has less.
 *
 * PROCESSOR. x86-64-v2 on Linux: the library has instructions of SSSE3 and SSE4.1, and an older processor ends the
 * program at the first of them.
 *
 * No call blocks, and where the stack is enough none ends the process. */
#ifndef ONCRPC_H
#define ONCRPC_H

#include <stdbool.h>
#include <stddef.h>
#include <stdint.h>

#ifdef __cplusplus
extern "C" {
#endif

/* The version of this file. oncrpc_version tells that of the library which is linked. */
#define ONCRPC_VERSION "0.1.0"
#define ONCRPC_VERSION_MAJOR 0u
#define ONCRPC_VERSION_MINOR 1u
#define ONCRPC_VERSION_PATCH 0u
#define ONCRPC_VERSION_NUMBER (ONCRPC_VERSION_MAJOR << 16 | ONCRPC_VERSION_MINOR << 8 | ONCRPC_VERSION_PATCH)

/* The ONCRPC_VERSION_NUMBER of the library: 256 of 0.1.0. It takes no memory. */
uint32_t oncrpc_version(void);

/* What a call answers. Each field of an outcome that a status does not speak of is 0. */
enum {
    ONCRPC_OK = 0,              /* a value and no more; or done. `at`: how many bytes */
    ONCRPC_MORE_FOLLOWS = 1,    /* a value, and then at least one more byte. `at`: how many bytes the value has. Or all
                                   that goes into the buffer, `at` bytes, and more waits */
    ONCRPC_REFUSED = 2,         /* the bytes are refused. `why`: a reason; `at`: the count of bytes before the place */
    ONCRPC_UNDECLARED = 3,      /* the text has an error. `why`: a fault; `inner`; `line`; `column` */
    ONCRPC_NO_KIND = 4,         /* the name is that of no kind */
    ONCRPC_BAD_LIMITS = 5,      /* a limit, or the count of a fragment's or of written bytes, is out of its range */
    ONCRPC_NO_MEMORY = 6,       /* out of memory: malloc or realloc refused */
    ONCRPC_NO_DECLARATIONS = 7, /* the handle holds no declarations */
    ONCRPC_NO_ROOM = 8,         /* a buffer is too small. `at`, or `count` of a writer: how many bytes are needed; of
                                   oncrpc_declarations_parts `parts` and `names`, of oncrpc_registry_rows `rows` and
                                   `bytes` */

    /* Of messages alone. */
    ONCRPC_NOT_A_CALL = 9,      /* no call, or less than the front of one */
    ONCRPC_OTHER_VERSION = 10,  /* a call of another version of RPC than 2 */
    ONCRPC_BAD_CREDENTIAL = 11, /* the credential is cut, has more than 400 bytes, or padding that is not zero */
    ONCRPC_BAD_VERIFIER = 12,   /* the same of the verifier; a reply's that is cut is ONCRPC_CUT */
    ONCRPC_CUT = 13,            /* the bytes end inside of a reply's numbers or its verifier */
    ONCRPC_NOT_A_REPLY = 14,    /* the second number is not that of a reply */
    ONCRPC_BAD_STATE = 15,      /* a reply of an unknown state */
    ONCRPC_BYTES_FOLLOW = 16,   /* at least one byte follows a reply without results */
    ONCRPC_NOT_AUTH_SYS = 17,   /* no body of AUTH_SYS, or more than one may have */

    /* Of a registry alone. */
    ONCRPC_NO_REGISTRY = 18,  /* the handle holds no registry */
    ONCRPC_SILENCE = 19,      /* there is no reply: nothing is to be sent */
    ONCRPC_NO_TRANSPORT = 20, /* the netid is none of those that the call takes: tcp, udp and local */
    ONCRPC_UNCHANGED = 21,    /* no row was added or removed */

    /* Of a stream of records alone. */
    ONCRPC_NO_READER = 22,   /* the handle holds no reader */
    ONCRPC_MORE_WANTED = 23, /* all was taken, and no record is whole */
    ONCRPC_NO_RECORD = 24,   /* no record waits */

    /* Of universal addresses alone. */
    ONCRPC_NOT_AN_ADDRESS = 25, /* the text is that of no host and port over IPv4 */

    /* Of values that are written alone. */
    ONCRPC_BAD_ITEM = 26, /* the items are no value's. `why`: a reason; `at`: how many items are before the bad one */

    /* Of a cursor over the parts of a value alone. */
    ONCRPC_NO_PART = 34,   /* no part is left */
    ONCRPC_NO_CURSOR = 35, /* the handle holds no cursor */
    ONCRPC_ASTRAY = 36,    /* the declarations or the input are not those that the cursor was started with */

    /* Of one part of a value, and of kinds, alone. */
    ONCRPC_NO_SUCH_PART = 27, /* the value has no part with the path */
    ONCRPC_NO_NUMBER = 28,    /* the part has no number */
    ONCRPC_NO_MEMBER = 29,    /* the kind has no such member, there is no such kind, or no such type of the text */

    /* Of JSON that is read alone. */
    ONCRPC_BAD_JSON = 30, /* the text spells no value. `why`: a reason; `at`, `line`, `column`: the place in the text */

    /* Of sessions and of callers of a registry alone. */
    ONCRPC_NO_SESSION = 31,   /* the handle holds no session */
    ONCRPC_OUTPUT_WAITS = 32, /* nothing was taken: output is to be written first */
    ONCRPC_NO_CALLER = 33     /* `peer` of the caller is none of the ONCRPC_PEER_ numbers */
};

/* Why bytes are refused: `why` of an outcome with ONCRPC_REFUSED. The place is that of the unit (four bytes) or of the
 * node that the reason is about. */
enum {
    ONCRPC_BAD_BOOL = 1,     /* a boolean or an optional's flag that is neither 0 nor 1 */
    ONCRPC_BAD_NUMBERED = 2, /* a number that no member of the enumeration has */
    ONCRPC_BAD_CASE = 3,     /* a discriminant without an arm */
    ONCRPC_TOO_LONG = 4,     /* a length or a count above its maximum; a record above its limit */
    ONCRPC_BAD_PADDING = 5,  /* padding that is not zero */
    ONCRPC_TOO_DEEP = 6,     /* a node below the limit on depth */
    ONCRPC_TOO_LARGE = 7,    /* no value within the limit on bytes, which is the place */
    ONCRPC_TRUNCATED = 8     /* the bytes end inside the value or the record, at their count, which is the place */
};

/* Why items are refused: `why` of an outcome with ONCRPC_BAD_ITEM. That is one of these, or the reason above for which
 * the bytes of the item would be refused: ONCRPC_BAD_BOOL to ONCRPC_TOO_LARGE.
 *
 * Of several reasons the first is told. An item that no value has comes first: its form is unknown, it is a flag or a
 * count out of range, or content outside of the data. Then come ONCRPC_PAST_END, and ONCRPC_TOO_DEEP of a value that is
 * too deep before its first item. Then another item that is due, and then a number out of range. Then ONCRPC_TOO_LARGE
 * of an item whose bytes pass the limit on bytes: of content above its maximum too. Last are the other reasons. */
enum {
    ONCRPC_WRONG_ITEM = 9,    /* another item is due: a number, a flag, a count or content, or content of another
                                 fixed size; or its form is unknown */
    ONCRPC_NOT_IN_RANGE = 10, /* a number that does not go into the bytes of its type; a flag above 1; a count above
                                 4294967295 */
    ONCRPC_PAST_END = 11,     /* too many items: the value is whole before this one */
    ONCRPC_UNFINISHED = 12,   /* too few items: the value is not whole behind the last, and `at` counts them */
    ONCRPC_OUTSIDE = 13       /* content that does not lie in the data */
};

/* Why a JSON text spells no value of the kind within the limits: `why` of an outcome with ONCRPC_BAD_JSON. The place is
 * that of the value or the key that the reason is about, or another that is said here. A text that is no JSON is
 * ONCRPC_JSON_NOT_JSON or ONCRPC_JSON_TOO_DEEP, whatever else is wrong. Of several other reasons the first in the
 * order of the text is told; the limits on a value come behind all of the text. */
enum {
    ONCRPC_JSON_NOT_JSON = 1,       /* no JSON (RFC 8259), at the token that is refused; or no UTF-8, at the first byte
                                       that is none */
    ONCRPC_JSON_UNKNOWN_MEMBER = 2, /* a member that the struct or the union does not have, at its key */
    ONCRPC_JSON_MISSING_MEMBER = 3, /* a member that is not there, at the object */
    ONCRPC_JSON_MEMBER_TWICE = 4,   /* a member that stands twice, at its second key */
    ONCRPC_JSON_WRONG_TYPE = 5,     /* JSON of another form than the kind's */
    ONCRPC_JSON_OUT_OF_RANGE = 6,   /* a number out of the range of its type, or that no member of the enum has; a
                                       string in the place of a number that is none */
    ONCRPC_JSON_NOT_WHOLE = 7,      /* the same where its text has a `.`, an `e` or an `E`: a fraction, an exponent, or
                                       a word such as "hello" */
    ONCRPC_JSON_UNKNOWN_NAME = 8,   /* a name that no member of the enum has */
    ONCRPC_JSON_BAD_HEX = 9,        /* a string that is no pairs of hexadecimal digits */
    ONCRPC_JSON_WRONG_LENGTH = 10,  /* more or fewer bytes or items than the kind has */
    ONCRPC_JSON_NO_ARM = 11,        /* a discriminant without an arm, at the value of `case` */
    ONCRPC_JSON_TOO_DEEP = 12,      /* brackets that nest above 4096 deep, at the first of these or the key before it;
                                       or a value deeper than the limit on depth, at the text's end */
    ONCRPC_JSON_TOO_LARGE = 13      /* a value above the limit on bytes, at the text's end */
};

/* Which error a text has: `why` of an outcome with ONCRPC_UNDECLARED. docs/LANGUAGE.md explains each. A text without
 * a declaration, also an empty one, has none. */
enum {
    ONCRPC_BAD_CHARACTER = 1,   /* a byte that begins no token, or a comment without an end */
    ONCRPC_BAD_NUMBER = 2,      /* digits that are no number of the language */
    ONCRPC_UNEXPECTED = 3,      /* a token that cannot stand there, or the end of the text */
    ONCRPC_FLOATING_KIND = 4,   /* float, double or quadruple */
    ONCRPC_NAME_TWICE = 5,      /* a name that is declared twice in one scope */
    ONCRPC_NAME_UNKNOWN = 6,    /* a name that is not declared */
    ONCRPC_NOT_A_SIZE = 7,      /* a number that cannot be a size or a maximum */
    ONCRPC_OUT_OF_RANGE = 8,    /* a number out of the range of its place */
    ONCRPC_TYPEDEF_LOOP = 9,    /* a typedef that leads to itself */
    ONCRPC_BAD_SCHEMA = 10,     /* types that no value can have; `inner` is the number of the schema's fault */
    ONCRPC_TEXT_TOO_LONG = 11,  /* more than 262144 bytes */
    ONCRPC_NESTED_TOO_DEEP = 12 /* types inside one another too deep */
};

typedef struct {
    size_t at;      /* a count of bytes, of ONCRPC_BAD_ITEM of items; or the place of a refusal */
    size_t line;    /* of a fault of a text, from 1; of JSON too */
    size_t column;  /* of a fault of a text, in bytes from 1; of JSON too */
    uint32_t why;   /* a reason, or a fault of a text */
    uint32_t inner; /* the number of a schema's fault */
} oncrpc_outcome;

/* What a handle begins as: it holds nothing. */
#define ONCRPC_NONE {NULL, false}

/* Declarations that were read, or none. It begins as ONCRPC_NONE, and is given back by oncrpc_declarations_free. */
typedef struct {
    void *at;
    bool live;
} oncrpc_declarations;

/* A cursor over the parts of a value, or none. It begins as ONCRPC_NONE, and is given back by oncrpc_parts_free. */
typedef struct {
    void *at;
    bool live;
} oncrpc_parts;

/* A part of a value. Each node of a value has one, with the bytes that are the node's own, and not those inside it. An
 * opaque or a string of variable size has two, its length and then its content. Places and counts are in bytes. */
typedef struct {
    size_t at;         /* input + at leads to the part's own bytes, */
    size_t count;      /* which are so many; of content without the zeros that fill its last four */
    size_t name_at;    /* names + name_at leads to its name: that of the field or the arm, */
    size_t name_count; /* of so many bytes; 0 of the value itself and of items. No zero ends it */
    uint32_t depth;    /* how deep its node is; the value itself is at 1 */
    uint32_t kind;     /* which kind of the declarations its node has: the same number, the same kind */
    uint32_t xdr_type; /* ONCRPC_TYPE_.. of that kind */
    uint32_t role;     /* ONCRPC_ROLE_..: what its bytes are */
} oncrpc_value_part;

/* `role` of a part (RFC 4506 section 4). A number has its most significant byte first. */
enum {
    ONCRPC_ROLE_NUMBER = 1,  /* an integer, a bool, an enum, a discriminant: 4 bytes, 8 of the hyper types */
    ONCRPC_ROLE_FLAG = 2,    /* whether an optional item is there: 4 bytes, the number 0 or 1 */
    ONCRPC_ROLE_LENGTH = 3,  /* how many bytes of content, or items, follow: 4 bytes, an unsigned number */
    ONCRPC_ROLE_CONTENT = 4, /* the bytes of an opaque or a string, perhaps 0 */
    ONCRPC_ROLE_GROUP = 5    /* no bytes of its own: a struct, an array of fixed size, a void */
};

/* `xdr_type` of a part. */
enum {
    ONCRPC_TYPE_INT = 1,
    ONCRPC_TYPE_UNSIGNED = 2,
    ONCRPC_TYPE_HYPER = 3,
    ONCRPC_TYPE_UNSIGNED_HYPER = 4,
    ONCRPC_TYPE_BOOL = 5,
    ONCRPC_TYPE_ENUM = 6,
    ONCRPC_TYPE_FIXED_OPAQUE = 7, /* of fixed size */
    ONCRPC_TYPE_OPAQUE = 8,       /* of variable size */
    ONCRPC_TYPE_STRING = 9,
    ONCRPC_TYPE_FIXED_ARRAY = 10, /* of fixed size */
    ONCRPC_TYPE_ARRAY = 11,       /* of variable size */
    ONCRPC_TYPE_STRUCT = 12,
    ONCRPC_TYPE_UNION = 13,
    ONCRPC_TYPE_OPTIONAL = 14,
    ONCRPC_TYPE_VOID = 15
};

/* What a call for parts found. Each field that its status does not speak of is 0. */
typedef struct {
    size_t at;    /* how many bytes the value has, or the place of a refusal */
    size_t parts; /* how many parts the value has */
    size_t names; /* how many bytes the names of all its parts have */
    uint32_t why; /* a reason */
} oncrpc_parts_outcome;

/* The number of a part. A number of one type may be looked for in either field: it is in both, where it goes into
 * both. */
typedef struct {
    int64_t signed_number; /* the number, where it is at most INT64_MAX; else 0 */
    uint64_t number;       /* the number, where it is not negative; else 0 */
} oncrpc_number;

/* A kind of the declarations (RFC 4506 section 4). What its type does not speak of is 0. */
typedef struct {
    size_t members;    /* how many members an enum has, or fields a struct */
    uint32_t xdr_type; /* ONCRPC_TYPE_.. */
    uint32_t size;     /* how many bytes an opaque or a string has, or items an array: so many of fixed size, else at
                          most so many */
    uint32_t item;     /* the kind of an array's items, of an optional's item, or of a union's discriminant */
} oncrpc_kind;

/* A member of an enum, a field of a struct, an arm of a union, or a type. Its name is put into the caller's buffer. */
typedef struct {
    size_t name_count; /* of how many bytes its name is; no zero ends it */
    int64_t number;    /* of an enum's member its number; of an arm the number that was asked for; else 0 */
    uint32_t kind;     /* of a field, an arm or a type its kind; of an enum's member that of the enum */
} oncrpc_member;

/* `form` of an item. */
enum {
    ONCRPC_ITEM_SIGNED = 1,   /* a number, in `signed_number`: an integer, a bool (0 or 1), an enum, a discriminant */
    ONCRPC_ITEM_UNSIGNED = 2, /* a number, in `number`: each of these may stand in either */
    ONCRPC_ITEM_FLAG = 3,     /* `number`: 1 where the optional item is there and its items follow, else 0 */
    ONCRPC_ITEM_COUNT = 4,    /* `count`: so many items of an array of variable size follow */
    ONCRPC_ITEM_CONTENT = 5   /* the bytes of an opaque or a string, `count` of them from data + at on */
};

/* An item of a value that is written (RFC 4506 section 4). They stand in the order of the value's bytes. A struct, an
 * array of fixed size and a void have none of their own; nor has the length of content, and no zeros behind it. */
typedef struct {
    uint32_t form;         /* ONCRPC_ITEM_..: which of the others is looked at */
    int64_t signed_number;
    uint64_t number;
    size_t at;
    size_t count;
} oncrpc_item;

/* So many bytes behind so many others: of a message, where input + at leads to the first of them, or of the texts of
 * rows, where bytes + at does. */
typedef struct {
    size_t at;
    size_t count;
} oncrpc_part;

/* A call of version 2 of RPC: its numbers, and where its parts lie (RFC 5531 section 9). */
typedef struct {
    uint32_t xid;
    uint32_t rpc_version; /* 2, or the other version of ONCRPC_OTHER_VERSION; no writer looks at it */
    uint32_t program;
    uint32_t version;     /* of the program */
    uint32_t procedure;
    uint32_t credential_flavor; /* 0 is AUTH_NONE, 1 is AUTH_SYS; others are kept as they are */
    uint32_t verifier_flavor;
    oncrpc_part credential; /* the body without its padding; no writer looks at the three parts */
    oncrpc_part verifier;
    oncrpc_part arguments; /* all that follows */
} oncrpc_call;

/* `state` of a reply: what an accepted call came to, 0 to 5, or why a call was denied. */
enum {
    ONCRPC_SUCCESS = 0,       /* `results`, all that follows */
    ONCRPC_PROG_UNAVAIL = 1,
    ONCRPC_PROG_MISMATCH = 2, /* `low` and `high`: the program's versions */
    ONCRPC_PROC_UNAVAIL = 3,
    ONCRPC_GARBAGE_ARGS = 4,
    ONCRPC_SYSTEM_ERR = 5,
    ONCRPC_RPC_MISMATCH = 6,  /* `low` and `high`: the versions of RPC */
    ONCRPC_AUTH_ERROR = 7     /* `auth_stat` */
};

/* A reply: its numbers, and where its parts lie (RFC 5531 section 9). What its state does not speak of is 0. */
typedef struct {
    uint32_t xid;
    uint32_t state;
    uint32_t low;
    uint32_t high;
    uint32_t auth_stat;
    uint32_t verifier_flavor; /* of an accepted reply */
    oncrpc_part verifier;     /* its body without the padding; no writer looks at the two parts */
    oncrpc_part results;      /* of ONCRPC_SUCCESS */
} oncrpc_reply;

/* The body of a credential of the flavor 1, AUTH_SYS (RFC 5531 appendix A). */
typedef struct {
    uint32_t stamp;
    uint32_t uid;
    uint32_t gid;
    uint32_t gid_count; /* at most 16 */
    uint32_t gids[16];  /* `gid_count` of them; a reader fills the others with 0, no writer looks at them */
    oncrpc_part machine; /* the name of the machine, at most 255 bytes; no writer looks at it */
} oncrpc_auth_sys;

/* The greatest count of bytes of a credential or a verifier. */
#define ONCRPC_MOST_BODY 400u

/* The limits of a check, at their greatest. A depth is 1 to ONCRPC_MOST_DEPTH, where the value itself is at 1; bytes
 * are 4 to ONCRPC_MOST_BYTES and a multiple of four. */
#define ONCRPC_MOST_DEPTH 4096u
#define ONCRPC_MOST_BYTES 16777216u

/* The greatest limit on the bytes of a record. */
#define ONCRPC_MOST_RECORD 2147483647u

/* Reads `text`, declarations in the XDR language of at most 262144 bytes (docs/LANGUAGE.md), and tells whether `input`
 * begins with a value of the kind `name`. That is a type that the text declares, or a basic one: int, unsigned, hyper,
 * unsigned-hyper, bool, opaque, string. Or P.V.N.K, the K-th argument, from 1, of procedure N in version V of program P
 * of the text. Or P.V.N.result, its result where that is not void. These numbers are decimal, without leading zeros.
 * The name is UTF-8 and needs no zero at its end.
 *
 * The text is looked at first, then the name, then the limits, then the input. `outcome` is filled at every status.
 * `text`, `name` and `input` may be NULL where their count is 0; an empty text has no error and declares nothing.
 * ONCRPC_OK, _MORE_FOLLOWS, _REFUSED, _UNDECLARED, _NO_KIND, _BAD_LIMITS, _NO_MEMORY. */
uint32_t oncrpc_check(
    const void *text, size_t text_count,
    const void *name, size_t name_count,
    uint32_t depth, uint32_t bytes,
    const void *input, size_t input_count,
    oncrpc_outcome *outcome);

/* Reads `text` into `declarations`. What that held before is given back. At any other status than ONCRPC_OK it holds
 * none. `text` may be NULL where its count is 0. ONCRPC_OK, _UNDECLARED, _NO_MEMORY. */
uint32_t oncrpc_declarations_read(
    const void *text, size_t text_count,
    oncrpc_declarations *declarations,
    oncrpc_outcome *outcome);

/* The same of a text in rpcgen's dialect (docs/LANGUAGE.md, "rpcgen's dialect"). For its lines `#ifdef` the names in
 * `names` are defined, as by `--define` of the program: RPC_HDR, or several with a space between two. `text` and `names`
 * may be NULL where their count is 0.
 * ONCRPC_OK, _UNDECLARED, _NO_MEMORY. ONCRPC_NO_KIND: one of the names is no identifier (letters, digits and _, no
 * digit first), as where a value stands behind it: BIG=1. The text was not looked at. */
uint32_t oncrpc_declarations_read_dialect(
    const void *text, size_t text_count,
    const void *names, size_t names_count,
    oncrpc_declarations *declarations,
    oncrpc_outcome *outcome);

/* As oncrpc_check, by declarations that were read. They stay, whatever the status is. `name` and `input` may be NULL
 * where their count is 0.
 * ONCRPC_OK, _MORE_FOLLOWS, _REFUSED, _NO_KIND, _BAD_LIMITS, _NO_MEMORY, _NO_DECLARATIONS. */
uint32_t oncrpc_declarations_check(
    oncrpc_declarations *declarations,
    const void *name, size_t name_count,
    uint32_t depth, uint32_t bytes,
    const void *input, size_t input_count,
    oncrpc_outcome *outcome);

/* Puts the lines of the value that begins the input into `buffer`, by declarations that were read. There is one for
 * each part, in the order of the bytes, a node before those inside it, two spaces further in. Each is ended by a
 * newline, as `oncrpc show` prints them (docs/FORMATS.md). No zero ends them. The declarations stay, whatever the
 * status is. `name`, `input` and `buffer` may be NULL where their count is 0.
 *
 * ONCRPC_OK, _MORE_FOLLOWS: `written` says how many bytes of the buffer were written, from its first on; the others are
 * as they were. ONCRPC_NO_ROOM: `at` of the outcome says how many bytes are needed. At any status but the first two the
 * buffer is as it was, and `written` is 0, so a count of 0 asks how many are needed.
 * ONCRPC_OK, _MORE_FOLLOWS, _REFUSED, _NO_KIND, _BAD_LIMITS, _NO_MEMORY, _NO_DECLARATIONS, _NO_ROOM. */
uint32_t oncrpc_declarations_show(
    oncrpc_declarations *declarations,
    const void *name, size_t name_count,
    uint32_t depth, uint32_t bytes,
    const void *input, size_t input_count,
    uint8_t *buffer, size_t buffer_count,
    size_t *written,
    oncrpc_outcome *outcome);

/* Puts the value that begins `input`, as JSON (RFC 8259; docs/FORMATS.md), into `buffer`, by declarations that were read:
 * with `is_indented` a line for each item and each member, else without spaces. No zero ends it. The declarations stay,
 * whatever the status is. `name`, `input` and `buffer` may be NULL where their count is 0.
 *
 * The statuses, `written`, `at` and the buffer are those of oncrpc_declarations_show. It takes memory for the text, and
 * stack for each level of the value: a limit on depth bounds it. */
uint32_t oncrpc_declarations_to_json(
    oncrpc_declarations *declarations,
    const void *name, size_t name_count,
    uint32_t depth, uint32_t bytes,
    const void *input, size_t input_count,
    bool is_indented,
    uint8_t *buffer, size_t buffer_count,
    size_t *written,
    oncrpc_outcome *outcome);

/* Writes the encoding of the value of the kind `name` that the JSON `text` spells (RFC 8259; docs/FORMATS.md), by
 * declarations that were read: the other way of oncrpc_declarations_to_json. Any text that says the same is read:
 * members in any order, white space, escapes, an enum's number as a name or a number, a number as such or as a string.
 * The value has at most `depth` and `bytes`, the limits of a check. The text is all of the JSON and one value, and needs
 * no zero at its end. The declarations stay, whatever the status is. `name`, `text` and `buffer` may be NULL where their
 * count is 0; an empty text is no JSON.
 *
 * ONCRPC_OK: the text spells that value, and no other. `written` and `at` of the outcome say how many bytes its
 * encoding has. They are the first of the buffer; the others are as they were. ONCRPC_NO_ROOM: `at` says how many bytes
 * are needed. ONCRPC_BAD_JSON: the text spells no value of the kind within the limits, for the reason `why`; `at` says
 * how many bytes of the text are before the place, which is at `line` and `column`. Only a line feed begins a line.
 *
 * At any status but ONCRPC_OK the buffer is as it was, and `written` is 0, so a count of 0 asks how many are needed.
 * The name is looked at first, then the limits, then the text. It takes memory for the text as a tree, then for the
 * value and its encoding; none by a count or a length alone. It takes stack for each level of the value: a limit on
 * depth bounds it.
 * ONCRPC_OK, _NO_KIND, _BAD_LIMITS, _NO_MEMORY, _NO_DECLARATIONS, _NO_ROOM, _BAD_JSON. */
uint32_t oncrpc_declarations_from_json(
    oncrpc_declarations *declarations,
    const void *name, size_t name_count,
    uint32_t depth, uint32_t bytes,
    const void *text, size_t text_count,
    uint8_t *buffer, size_t buffer_count,
    size_t *written,
    oncrpc_outcome *outcome);

/* Tells where the parts of the value that begins `input` lie, by declarations that were read: in the order of the
 * bytes, a node before those inside it. Puts the parts into `parts`, an array of `parts_count`. Puts their names into
 * `names`, one directly behind the other, in the order of the parts. The parts hold places in the caller's `input` and
 * `names`, and no pointer. The declarations stay, whatever the status is. `name`, `input`, `parts` and `names` may be
 * NULL where their count is 0.
 *
 * ONCRPC_OK, _MORE_FOLLOWS: `at` of the outcome says how many bytes the value has. `parts` and `names` of it say how
 * many parts and bytes of names were written, each from the first on; the others are as they were. ONCRPC_NO_ROOM: `at`
 * says how many bytes the value has. An array of `parts` parts and a buffer for `names` bytes are needed, both.
 * ONCRPC_REFUSED: `why` and `at`, as oncrpc_declarations_check tells them. At any status but the first two both are as
 * they were, so a count of 0 for both asks how much they need. Where `parts_count` is 0 they are counted alone, in
 * memory for a frame for each open node; else the parts are listed twice and their names once, before the buffers are
 * filled.
 * ONCRPC_OK, _MORE_FOLLOWS, _REFUSED, _NO_KIND, _BAD_LIMITS, _NO_MEMORY, _NO_DECLARATIONS, _NO_ROOM. */
uint32_t oncrpc_declarations_parts(
    oncrpc_declarations *declarations,
    const void *name, size_t name_count,
    uint32_t depth, uint32_t bytes,
    const void *input, size_t input_count,
    oncrpc_value_part *parts, size_t parts_count,
    uint8_t *names, size_t names_count,
    oncrpc_parts_outcome *outcome);

/* Starts a cursor before the first part of the value that begins `input`, by declarations that were read. The input is
 * judged here, and not again. The declarations stay, whatever the status is. `name` and `input` may be NULL where their
 * count is 0.
 *
 * ONCRPC_OK, _MORE_FOLLOWS: `at` says how many bytes the value has, and what `cursor` held before is freed.
 * ONCRPC_REFUSED: `why` and `at`, as oncrpc_declarations_check tells them. At any status but the first two the cursor is
 * as it was.
 * ONCRPC_OK, _MORE_FOLLOWS, _REFUSED, _NO_KIND, _BAD_LIMITS, _NO_MEMORY, _NO_DECLARATIONS. */
uint32_t oncrpc_declarations_parts_start(
    oncrpc_declarations *declarations,
    const void *name, size_t name_count,
    uint32_t depth, uint32_t bytes,
    const void *input, size_t input_count,
    oncrpc_parts *cursor,
    oncrpc_outcome *outcome);

/* Gives the next part, in the order of oncrpc_declarations_parts: a loop over it sees each part once. The cursor keeps
 * no pointer, so the declarations and the input are those that it was started with, the input in the same bytes and at
 * least as long. It takes memory for a frame for each open node. `input` and `buffer` may be NULL where their count is
 * 0.
 *
 * ONCRPC_OK: `part` is filled, and lies in the input. Its `name_at` is 0, and `name_count` says how many bytes its name
 * has. They are put at the front of the buffer, where `buffer_count` is not 0. ONCRPC_NO_ROOM: the name has
 * `name_count` bytes, more than the buffer, and the part still comes next; all else is as it was. ONCRPC_NO_PART: the
 * value has ended. ONCRPC_NO_MEMORY: the call may be made again. ONCRPC_ASTRAY: the declarations or the input are
 * others, which is answered until the cursor is started anew. With others any other answer may come as well; a part lies
 * in the input all the same. At any status but the first two `part` and the buffer are as they were.
 * ONCRPC_OK, _NO_MEMORY, _NO_DECLARATIONS, _NO_ROOM, _NO_PART, _NO_CURSOR, _ASTRAY. */
uint32_t oncrpc_declarations_parts_next(
    oncrpc_declarations *declarations,
    oncrpc_parts *cursor,
    const void *input, size_t input_count,
    oncrpc_value_part *part,
    uint8_t *buffer, size_t buffer_count);

/* Passes over the parts that come next, as long as they are deeper than `depth`. Behind a part, with its depth, that is
 * all inside its node; with its depth - 1, all that is left of the node around it. What has one size is passed over
 * without a look, also all items of an array at once. Declarations, input and memory are as of
 * oncrpc_declarations_parts_next.
 *
 * ONCRPC_OK: the next part is the first that is not deeper, or none is left. ONCRPC_NO_MEMORY: some of them were passed
 * over, and the call may be made again. ONCRPC_OK, _NO_MEMORY, _NO_DECLARATIONS, _NO_CURSOR, _ASTRAY. */
uint32_t oncrpc_declarations_parts_skip(
    oncrpc_declarations *declarations,
    oncrpc_parts *cursor,
    const void *input, size_t input_count,
    uint32_t depth);

/* Frees the cursor that the handle holds, if any. The handle then holds none, so that a second call does nothing. */
void oncrpc_parts_free(oncrpc_parts *cursor);

/* Finds one part of the value that begins `input`, by declarations that were read: the one that `path` names. A path is
 * the names of fields and arms with dots between them, and `[i]` behind an array for an item: `what.dir.data`,
 * `list[3].name`. The index i is decimal, from 0 and without leading zeros. The empty path is the value itself. A path
 * names the last part that its node has by itself: content, and not its length; the length of an array; the
 * discriminant of a union. Optional data is its item, however often; where it is not there, a path to it names its
 * flag, and no path leads on. The declarations stay, whatever the status is. `name`, `input` and `path` may be NULL
 * where their count is 0.
 *
 * ONCRPC_OK: `part` is filled. input + part.at leads to its bytes, and its `name_at` and `name_count` are 0, since the
 * path has its name. More bytes may follow the value. ONCRPC_NO_SUCH_PART: a value begins the input, and the path
 * leads nowhere in it, or is no path. ONCRPC_REFUSED: `why` and `at`, as oncrpc_declarations_check tells them. At any
 * status but ONCRPC_OK `part` is as it was.
 *
 * The name is looked at first, then the limits, then the input, and then the path. The input is judged whole. Then
 * values before the part are passed over, those of one size at once, and what is behind it is not looked at again. It
 * takes memory for a frame for each open node.
 * ONCRPC_OK, _REFUSED, _NO_KIND, _BAD_LIMITS, _NO_MEMORY, _NO_DECLARATIONS, _NO_SUCH_PART. */
uint32_t oncrpc_declarations_find(
    oncrpc_declarations *declarations,
    const void *name, size_t name_count,
    uint32_t depth, uint32_t bytes,
    const void *input, size_t input_count,
    const void *path, size_t path_count,
    oncrpc_value_part *part,
    oncrpc_outcome *outcome);

/* Tells the number of a part that was found by the same declarations in this `input`: of an integer, a bool, an enum, a
 * discriminant, a flag or a length. Of the part `at`, `count`, `kind` and `role` are looked at. It takes no memory.
 * The declarations stay, whatever the status is. `input` may be NULL where its count is 0.
 *
 * ONCRPC_OK: `number` is filled. ONCRPC_NO_NUMBER: the part is content or has no bytes, it does not lie in the input,
 * or its bytes are those of no number of its kind. At any status but ONCRPC_OK `number` is as it was.
 * ONCRPC_OK, _NO_DECLARATIONS, _NO_NUMBER. */
uint32_t oncrpc_part_number(
    oncrpc_declarations *declarations,
    const void *input, size_t input_count,
    const oncrpc_value_part *part,
    oncrpc_number *number);

/* Writes the encoding of the value of the kind `name` that has these items, by declarations that were read: the other
 * way of oncrpc_declarations_parts. `data` is where content lies, for items of ONCRPC_ITEM_CONTENT. The value has at
 * most `depth` and `bytes`, the limits of a check. The declarations stay, whatever the status is. `name`, `items`,
 * `data` and `buffer` may be NULL where their count is 0.
 *
 * ONCRPC_OK: there is such a value, and `written` and `at` of the outcome say how many bytes its encoding has. They
 * are the first of the buffer; the others are as they were. ONCRPC_NO_ROOM: `at` says how many bytes are needed.
 * ONCRPC_BAD_ITEM: no value within the limits has the items up to the one that `at` others are before, for the
 * reason `why`; or, with ONCRPC_UNFINISHED, none has these items alone. The items before it were taken: some value of
 * the kind begins with them, perhaps none within the limits. A count is taken where there are no bytes for all that it
 * counts, and a later item is refused then.
 *
 * At any status but ONCRPC_OK the buffer is as it was, and `written` is 0, so a count of 0 asks how many are needed.
 * The name is looked at first, then the limits, then the items in their order. It takes memory for the encoding, and
 * for a frame for each open node.
 * ONCRPC_OK, _NO_KIND, _BAD_LIMITS, _NO_MEMORY, _NO_DECLARATIONS, _NO_ROOM, _BAD_ITEM. */
uint32_t oncrpc_declarations_write(
    oncrpc_declarations *declarations,
    const void *name, size_t name_count,
    uint32_t depth, uint32_t bytes,
    const oncrpc_item *items, size_t items_count,
    const void *data, size_t data_count,
    uint8_t *buffer, size_t buffer_count,
    size_t *written,
    oncrpc_outcome *outcome);

/* Tells which kind has this name, as oncrpc_check takes names, by declarations that were read: its number, as `kind` of
 * a part. The declarations stay, whatever the status is. It takes no memory. `name` may be NULL where its count is 0.
 *
 * At any status but ONCRPC_OK `kind` is as it was. ONCRPC_OK, _NO_KIND, _NO_DECLARATIONS. */
uint32_t oncrpc_declarations_named(
    oncrpc_declarations *declarations,
    const void *name, size_t name_count,
    uint32_t *kind);

/* Tells what a kind is, by declarations that were read. Its number is that of a part, of another kind's `item`, of a
 * member or of oncrpc_declarations_named. The declarations stay, whatever the status is. It takes no memory.
 *
 * At any status but ONCRPC_OK `told` is as it was. ONCRPC_NO_KIND: there is no such kind.
 * ONCRPC_OK, _NO_KIND, _NO_DECLARATIONS. */
uint32_t oncrpc_declarations_kind(
    oncrpc_declarations *declarations,
    uint32_t kind,
    oncrpc_kind *told);

/* Tells the member of an enum, or the field of a struct, that `index` others are before, and puts its name into the
 * front of `buffer`, by declarations that were read. Other kinds have none. The declarations stay, whatever the status
 * is. It takes no memory. `buffer` may be NULL where its count is 0.
 *
 * ONCRPC_OK: `member` is filled, and `name_count` bytes of the buffer were written; the others are as they were.
 * ONCRPC_NO_ROOM: `member` is filled, and the buffer is as it was: its name has `name_count` bytes. ONCRPC_NO_MEMBER,
 * _NO_DECLARATIONS: `member` and the buffer are as they were. */
uint32_t oncrpc_declarations_member(
    oncrpc_declarations *declarations,
    uint32_t kind, size_t index,
    uint8_t *buffer, size_t buffer_count,
    oncrpc_member *member);

/* The same of the first member of an enum that has the number, and of the arm of a union that stands under it. That is
 * the default, where no other arm does, whether or not the discriminant may have the number. Of a bool there is none. */
uint32_t oncrpc_declarations_picked(
    oncrpc_declarations *declarations,
    uint32_t kind, int64_t number,
    uint8_t *buffer, size_t buffer_count,
    oncrpc_member *member);

/* Tells the type of the text that `index` others are before, in the order of the text (RFC 4506 section 6.3): `kind` of
 * `member` is the kind that its name names, and `number` is 0. Basic kinds are none of them. Names that rpcgen's dialect
 * puts in front of a text come first. Puts its name into the front of `buffer`, as oncrpc_declarations_member does, whose
 * statuses it has. ONCRPC_NO_MEMBER: there are at most `index` types. */
uint32_t oncrpc_declarations_type(
    oncrpc_declarations *declarations,
    size_t index,
    uint8_t *buffer, size_t buffer_count,
    oncrpc_member *member);

/* Gives back what `declarations` holds, if anything. It then holds none, so that a second call does nothing. */
void oncrpc_declarations_free(oncrpc_declarations *declarations);

/* Writes each record of `input` into `buffer` as one fragment, its last, where a record may have `limit` bytes, at most
 * ONCRPC_MOST_RECORD. `input` and `buffer` may be NULL where their count is 0. What is written has at most
 * `input_count` bytes.
 *
 * ONCRPC_OK: the input is whole records. ONCRPC_REFUSED: the records before the refusal were written; `why` is
 * ONCRPC_TOO_LONG at the place of the header, or ONCRPC_TRUNCATED. At both `written` says how many bytes of the buffer
 * were written, from its first on; the others are as they were.
 * ONCRPC_NO_ROOM: `at` of the outcome says how many bytes are needed. ONCRPC_BAD_LIMITS. ONCRPC_NO_MEMORY: out of
 * memory, or the input has more than 4294963200 bytes. At these three the buffer is as it was, and `written` is 0. */
uint32_t oncrpc_normalise(
    const void *input, size_t input_count,
    uint32_t limit,
    uint8_t *buffer, size_t buffer_count,
    size_t *written,
    oncrpc_outcome *outcome);

/* ---- messages
 *
 * The readers take a message as it is in a datagram or a record: no header of a fragment stands before it. What they
 * fill has places in the caller's bytes, and holds no pointer. What they refuse is told by the status alone: of the
 * first fault in the order of the bytes, with each field 0 that is not named here. `input` may be NULL where its count
 * is 0.
 *
 * A writer fills the front of `buffer`, and leaves the rest of it as it was. ONCRPC_OK: `count` bytes were written.
 * ONCRPC_NO_ROOM: `count` bytes are needed. At each status but ONCRPC_OK the buffer is as it was, and at each but these
 * two `count` is 0. The bytes that a writer is given and the buffer may be NULL where their count is 0.
 *
 * A writer copies what it is given, and makes the message before it looks at the buffer. A reader of a reply or of
 * AUTH_SYS copies its parts. Both take memory until they return. */

/* Reads a call, and takes no memory. ONCRPC_OK: each field is filled. ONCRPC_OTHER_VERSION: `xid` and `rpc_version` are
 * told. ONCRPC_BAD_CREDENTIAL, _BAD_VERIFIER: `xid` is told, and `rpc_version` is 2. ONCRPC_NOT_A_CALL: fewer than 12
 * bytes, a second number that is not 0, or version 2 with fewer than 24 bytes. `input` may be NULL where its count is
 * 0: then it is no call. */
uint32_t oncrpc_call_read(const void *input, size_t input_count, oncrpc_call *call);

/* Writes a call of version 2 of RPC with the xid, the program, its version, the procedure and the two flavors of
 * `call`, and with these bodies and arguments. Each of the four buffers may be NULL where its count is 0. ONCRPC_OK,
 * _NO_ROOM. _BAD_CREDENTIAL, and else _BAD_VERIFIER: more than ONCRPC_MOST_BODY bytes. _NO_MEMORY. */
uint32_t oncrpc_call_write(
    const oncrpc_call *call,
    const void *credential, size_t credential_count,
    const void *verifier, size_t verifier_count,
    const void *arguments, size_t arguments_count,
    uint8_t *buffer, size_t buffer_count,
    size_t *count);

/* Reads a reply. ONCRPC_OK: the bytes are one, all of them. ONCRPC_CUT, _NOT_A_REPLY, _BAD_STATE, _BAD_VERIFIER,
 * _BYTES_FOLLOW, _NO_MEMORY: each field is 0. `input` may be NULL where its count is 0: then it is cut. */
uint32_t oncrpc_reply_read(const void *input, size_t input_count, oncrpc_reply *reply);

/* Writes a reply with the xid and the state of `reply`, and with what that state speaks of. An accepted reply has the
 * verifier's flavor and these bytes as its body, ONCRPC_SUCCESS these results. Where a state has no verifier or no
 * results, those bytes are not looked at. Each of the three buffers may be NULL where its count is 0. ONCRPC_OK,
 * _NO_ROOM. _BAD_STATE: the state is above 7. _BAD_VERIFIER: more than ONCRPC_MOST_BODY bytes. _NO_MEMORY. */
uint32_t oncrpc_reply_write(
    const oncrpc_reply *reply,
    const void *verifier, size_t verifier_count,
    const void *results, size_t results_count,
    uint8_t *buffer, size_t buffer_count,
    size_t *count);

/* Reads the body of a credential of the flavor AUTH_SYS: input + call.credential.at of a call. ONCRPC_OK: the bytes are
 * such a body, all of them. ONCRPC_NOT_AUTH_SYS, _NO_MEMORY: each field is 0. `input` may be NULL where its count is 0:
 * then it is no such body. */
uint32_t oncrpc_auth_sys_read(const void *input, size_t input_count, oncrpc_auth_sys *auth);

/* Writes such a body, with the numbers and the first `gid_count` gids of `auth` and this name of a machine. `machine`
 * and `buffer` may be NULL where their count is 0.
 * ONCRPC_OK, _NO_ROOM. _NOT_AUTH_SYS: more than 16 gids or 255 bytes of name. _NO_MEMORY. */
uint32_t oncrpc_auth_sys_write(
    const oncrpc_auth_sys *auth,
    const void *machine, size_t machine_count,
    uint8_t *buffer, size_t buffer_count,
    size_t *count);

/* ---- the registry
 *
 * The registry of RFC 1833, versions 2, 3 and 4 of program 100000: rows in memory, at most 1024, each a program, a
 * version, a netid, an address and an owner. The caller has the sockets: what came in a datagram or a record goes into
 * oncrpc_registry_answer, and what that puts into the buffer is sent back. Each call below that is given an
 * oncrpc_outcome fills it: `at` where it is spoken of, and 0 in each other field and at each other status. At
 * ONCRPC_NO_REGISTRY nothing is changed. */

/* A registry, or none. It begins as ONCRPC_NONE, and is given back by oncrpc_registry_free. */
typedef struct {
    void *at;
    bool live;
} oncrpc_registry;

/* Starts a registry in `registry`, and gives back what that held before. Its rows are its own: program 100000 in
 * versions 2, 3 and 4, each over tcp and then over udp, at 0.0.0.0 and this port, owned by superuser.
 *
 * `seed` is as many bytes that the peers cannot know, 16 of getentropy for one. Rows are found by hashes that depend
 * on it, so that no peer can choose many that hash alike, which would make each look-up slow. The answers do not depend
 * on it. It may be NULL where its count is 0, but then every peer knows it.
 *
 * ONCRPC_OK. ONCRPC_NO_MEMORY: it holds none. */
uint32_t oncrpc_registry_start(
    oncrpc_registry *registry,
    uint16_t port,
    const void *seed, size_t seed_count,
    oncrpc_outcome *outcome);

/* Answers a record that came over the transport `netid`, which is tcp or udp, and puts the reply into the front of
 * `buffer`. The record, and the reply, is as it is in a datagram or, over tcp, without the headers of its fragments.
 * `netid`, `record` and `buffer` may be NULL where their count is 0.
 *
 * WHO MAY CHANGE ROWS. The call is not told who sent the record, and the owner is what its AUTH_SYS claims, which
 * proves nothing. So any peer that claims uid 0 is superuser, and can empty the registry, its own rows too, by one
 * datagram for each program and version. Any peer can fill it. Hand on SET and UNSET, procedures 1 and 2 of program
 * 100000, from peers that you trust alone, those of this host for one: examples/registry.c asks oncrpc_call_read first.
 * oncrpc_registry_answer_from does so by itself.
 *
 * ONCRPC_OK: `at` bytes of reply were written, and the rest of the buffer is as it was. ONCRPC_SILENCE: the record is
 * no call, and is to be dropped. ONCRPC_NO_ROOM: `at` bytes are needed. What was asked for is done already, so the
 * reply waits in the registry for oncrpc_registry_reply, until the next call of this function. That gives it up, unless
 * it answers ONCRPC_NO_TRANSPORT: then nothing is changed. ONCRPC_NO_REGISTRY. At each status but ONCRPC_OK the buffer
 * is as it was.
 *
 * Where memory is refused the reply is SYSTEM_ERR of 24 bytes, and the rows are as they were. Over udp a reply has at
 * most 65507 bytes: a longer one is SYSTEM_ERR, and the rows are as they were. */
uint32_t oncrpc_registry_answer(
    oncrpc_registry *registry,
    const void *netid, size_t netid_count,
    const void *record, size_t record_count,
    uint8_t *buffer, size_t buffer_count,
    oncrpc_outcome *outcome);

/* Who sends a record: `peer` of a caller. */
enum {
    ONCRPC_PEER_REMOTE = 0,    /* someone at another host */
    ONCRPC_PEER_LOCAL = 1,     /* someone at this host: from 127.x.x.x or ::1, or over a local socket */
    ONCRPC_PEER_LOCAL_USER = 2 /* the user `uid` of this host, as the kernel says: SO_PEERCRED of a local socket */
};

/* What the program that has the socket knows of a call beside its bytes. All zeros are someone at another host, who is
 * not trusted. */
typedef struct {
    uint32_t peer;      /* ONCRPC_PEER_.. */
    uint32_t uid;       /* of ONCRPC_PEER_LOCAL_USER */
    uint8_t host[4];    /* the address to which the call came, */
    bool has_host;      /* where that is known, and is one of IPv4 */
    bool trusts_remote; /* whether SET and UNSET of ONCRPC_PEER_REMOTE are taken */
} oncrpc_caller;

/* Answers a record as oncrpc_registry_answer does, with the same statuses, but by who sent it, after rpcbind. So it may
 * be given what any peer sends, where `caller` is true:
 *
 * SET and UNSET of ONCRPC_PEER_REMOTE are refused, AUTH_ERROR with AUTH_TOOWEAK, and change no row, unless
 * `trusts_remote` is true. The owner of ONCRPC_PEER_LOCAL_USER is `uid`, whatever its credential claims and of whatever
 * flavor that is; that of another is what it claims, but nobody of another host is superuser. SET of a row that is
 * there, with the same address and owner, is TRUE, so that a service that begins again may register again. GETADDR and
 * GETVERSADDR tell an address at 0.0.0.0 at `host`, where `has_host` is true, and so as a remote client can connect to
 * it. An address of IPv6, as one at ::, is told as it was set.
 *
 * `netid` may be local too, for a socket of this host (AF_UNIX). Over it, rows of the netid local are looked up.
 *
 * ONCRPC_NO_CALLER: `peer` is above 2, and nothing is changed. Of ONCRPC_NO_REGISTRY, _NO_TRANSPORT and _NO_CALLER the
 * first is told. */
uint32_t oncrpc_registry_answer_from(
    oncrpc_registry *registry,
    const oncrpc_caller *caller,
    const void *netid, size_t netid_count,
    const void *record, size_t record_count,
    uint8_t *buffer, size_t buffer_count,
    oncrpc_outcome *outcome);

/* Puts the reply that waits into the front of `buffer`; then it waits no longer. `buffer` may be NULL where its count
 * is 0.
 * ONCRPC_OK: `at` bytes were written, and the rest of the buffer is as it was. ONCRPC_NO_ROOM: `at` bytes are needed,
 * and the reply waits on. ONCRPC_SILENCE: no reply waits. ONCRPC_NO_REGISTRY. */
uint32_t oncrpc_registry_reply(
    oncrpc_registry *registry,
    uint8_t *buffer, size_t buffer_count,
    oncrpc_outcome *outcome);

/* Adds a row at the end. ONCRPC_OK. ONCRPC_UNCHANGED: the netid or the address is empty, the netid has more than 64
 * bytes, the address more than 256 or the owner more than 10. Or there is a row of this program, version and netid, or
 * there are 1024 rows. ONCRPC_NO_MEMORY: no row was added. ONCRPC_NO_REGISTRY. A reply that waits stays. `netid`,
 * `address` and `owner` may be NULL where their count is 0. */
uint32_t oncrpc_registry_set(
    oncrpc_registry *registry,
    uint32_t program, uint32_t version,
    const void *netid, size_t netid_count,
    const void *address, size_t address_count,
    const void *owner, size_t owner_count,
    oncrpc_outcome *outcome);

/* Removes the row of this program, version and netid, or with an empty netid each row of the program and version, where
 * the row is owned by `owner` or `owner` is superuser. ONCRPC_OK: at least one. ONCRPC_UNCHANGED: there is none.
 * ONCRPC_NO_REGISTRY. A reply that waits stays. It takes no memory. `netid` and `owner` may be NULL where their count
 * is 0. */
uint32_t oncrpc_registry_unset(
    oncrpc_registry *registry,
    uint32_t program, uint32_t version,
    const void *netid, size_t netid_count,
    const void *owner, size_t owner_count,
    oncrpc_outcome *outcome);

/* A row: its numbers, and where its texts lie in the caller's `bytes`. No zero ends them. */
typedef struct {
    uint32_t program;
    uint32_t version;
    oncrpc_part netid;
    oncrpc_part address;
    oncrpc_part owner;
} oncrpc_registry_row;

/* How many rows there are, and how many bytes their texts have. */
typedef struct {
    size_t rows;
    size_t bytes;
} oncrpc_rows_outcome;

/* Lists the rows of the registry in their order, which is that in which they were added. Puts them into `rows`, an
 * array of `rows_count`, and their texts into `bytes`, one directly behind the other. The rows hold places in the
 * caller's `bytes`, and no pointer. The registry stays as it is, and a reply that waits stays. `rows` and `bytes` may
 * be NULL where their count is 0.
 *
 * ONCRPC_OK: `rows` and `bytes` of the outcome say how many were written, each from the first on; the others are as
 * they were. ONCRPC_NO_ROOM: an array of `rows` rows and a buffer for `bytes` bytes are needed, both. At each status
 * but ONCRPC_OK both buffers are as they were, so that a count of 0 for both asks first. ONCRPC_NO_MEMORY,
 * ONCRPC_NO_REGISTRY: both fields are 0. It takes memory for a second list until it returns. */
uint32_t oncrpc_registry_rows(
    oncrpc_registry *registry,
    oncrpc_registry_row *rows, size_t rows_count,
    uint8_t *bytes, size_t bytes_count,
    oncrpc_rows_outcome *outcome);

/* Gives back what `registry` holds, if anything. It then holds none, so that a second call does nothing. */
void oncrpc_registry_free(oncrpc_registry *registry);

/* Reads a universal address over IPv4, as the registry has them (RFC 5665 section 5.2.3.3): six numbers from 0 to 255
 * with dots between them and without leading zeros. They are the host's four, and then the port's high and low octet.
 * So `127.0.0.1.8.1` is port 2049 of 127.0.0.1. `text` needs no zero at its end, and may be NULL where its count is 0:
 * then it is no address. It takes no memory.
 *
 * ONCRPC_OK: `host` and `port` are told. ONCRPC_NOT_AN_ADDRESS: they are 0.0.0.0 and 0. */
uint32_t oncrpc_uaddr_read(const void *text, size_t text_count, uint8_t host[4], uint16_t *port);

/* Writes the universal address of a host and a port, of at most 23 bytes, into the front of `buffer`, without a zero
 * behind it. `buffer` may be NULL where its count is 0.
 *
 * ONCRPC_OK: `count` bytes were written, and the rest of the buffer is as it was. ONCRPC_NO_ROOM: `count` bytes are
 * needed. ONCRPC_NO_MEMORY: `count` is 0. At these two the buffer is as it was. */
uint32_t oncrpc_uaddr_write(
    const uint8_t host[4], uint16_t port,
    uint8_t *buffer, size_t buffer_count,
    size_t *count);

/* The declarations of what the registry's procedures take and give (RFC 1833), for oncrpc_declarations_read:
 *
 *     oncrpc_declarations_read(ONCRPC_REGISTRY_DECLARATIONS, sizeof ONCRPC_REGISTRY_DECLARATIONS - 1, &held, &outcome)
 *
 * So the arguments of GETPORT are a `mapping`, or `100000.2.3.1`, its result is `100000.2.3.result`, and all rows that
 * DUMP of version 4 gives are a `rpcblist`, or `100000.4.4.result`. */
#define ONCRPC_REGISTRY_DECLARATIONS                                                                     \
    "struct rpcb { unsigned int r_prog; unsigned int r_vers;\n"                                          \
    "    string r_netid<>; string r_addr<>; string r_owner<>; };\n"                                      \
    "struct rp__list { rpcb rpcb_map; rp__list *rpcb_next; };\n"                                         \
    "typedef rp__list *rpcblist;\n"                                                                      \
    "struct mapping { unsigned int prog; unsigned int vers; unsigned int prot; unsigned int port; };\n"  \
    "struct pm__list { mapping map; pm__list *next; };\n"                                                \
    "typedef pm__list *pmaplist;\n"                                                                      \
    "program PMAP_PROG {\n"                                                                              \
    "    version PMAP_VERS {\n"                                                                          \
    "        void PMAPPROC_NULL(void) = 0;\n"                                                            \
    "        bool PMAPPROC_SET(mapping) = 1;\n"                                                          \
    "        bool PMAPPROC_UNSET(mapping) = 2;\n"                                                        \
    "        unsigned int PMAPPROC_GETPORT(mapping) = 3;\n"                                              \
    "        pmaplist PMAPPROC_DUMP(void) = 4;\n"                                                        \
    "    } = 2;\n"                                                                                       \
    "} = 100000;\n"                                                                                      \
    "program RPCBPROG {\n"                                                                               \
    "    version RPCBVERS {\n"                                                                           \
    "        void RPCBPROC_NULL(void) = 0;\n"                                                            \
    "        bool RPCBPROC_SET(rpcb) = 1;\n"                                                             \
    "        bool RPCBPROC_UNSET(rpcb) = 2;\n"                                                           \
    "        string RPCBPROC_GETADDR(rpcb) = 3;\n"                                                       \
    "        rpcblist RPCBPROC_DUMP(void) = 4;\n"                                                        \
    "    } = 3;\n"                                                                                       \
    "    version RPCBVERS4 {\n"                                                                          \
    "        void RPCBPROC_NULL(void) = 0;\n"                                                            \
    "        bool RPCBPROC_SET(rpcb) = 1;\n"                                                             \
    "        bool RPCBPROC_UNSET(rpcb) = 2;\n"                                                           \
    "        string RPCBPROC_GETADDR(rpcb) = 3;\n"                                                       \
    "        rpcblist RPCBPROC_DUMP(void) = 4;\n"                                                        \
    "        string RPCBPROC_GETVERSADDR(rpcb) = 9;\n"                                                   \
    "    } = 4;\n"                                                                                       \
    "} = 100000;\n"

/* ---- records in fragments
 *
 * Over a connection a message is a record: fragments, each behind a header of four bytes that counts its bytes and says
 * whether it is the record's last (RFC 5531 section 11). A reader takes what was received, in any pieces, and hands out
 * the records, without the headers, in their order. The caller has the socket, and one reader for each connection:
 *
 *     while ((status = oncrpc_records_feed(&records, piece, count, &outcome)) == ONCRPC_OK) {
 *         piece += outcome.at, count -= outcome.at;
 *         status = oncrpc_records_take(&records, buffer, buffer_count, &outcome);
 *         ...                     at ONCRPC_NO_ROOM it is to be called again with more, since the record waits on
 *     }
 *
 * and where that ends with ONCRPC_MORE_WANTED, the next piece is received. Counts are in bytes. A place is the count of
 * the stream's bytes before it, from the first that was fed; SIZE_MAX stands for every greater one. Each call below
 * that is given an outcome fills it: `at` and `why` where they are spoken of, and 0 in each other field and at each
 * other status. At ONCRPC_NO_READER nothing is changed. */

/* A reader of one stream of records, or none. It begins as ONCRPC_NONE, and is given back by oncrpc_records_free. */
typedef struct {
    void *at;
    bool live;
} oncrpc_records;

/* Starts a reader in `records`, before the first byte of a stream whose records may have `limit` bytes, at most
 * ONCRPC_MOST_RECORD. It gives back what that held before. Of the stream it keeps one record at most, as it comes, and
 * the memory of an earlier one, for the next. ONCRPC_OK. ONCRPC_BAD_LIMITS, _NO_MEMORY: it holds none. */
uint32_t oncrpc_records_start(oncrpc_records *records, uint32_t limit, oncrpc_outcome *outcome);

/* Takes bytes of `piece`, which may be empty, up to the end of a record. `piece` may be NULL where its count is 0.
 *
 * ONCRPC_OK: a record is whole, and waits for oncrpc_records_take. The first `at` bytes of the piece were taken, the
 * last of which is the record's last; the others are to be fed again, after the record was taken. While a record waits
 * no byte is taken, and `at` is 0. ONCRPC_MORE_WANTED: all bytes were taken, each record that was whole was handed out,
 * and no header brings its record above the limit.
 *
 * ONCRPC_REFUSED: `why` is ONCRPC_TOO_LONG, and `at` the place of the header that brings its record above the limit;
 * the records before it were handed out. Or oncrpc_records_end told before that the stream is cut: this is told again.
 * ONCRPC_NO_MEMORY: the record that had begun is lost. These two are answered from then on, by oncrpc_records_end
 * too, with the same `why` and `at`, whatever is fed. ONCRPC_NO_READER. */
uint32_t oncrpc_records_feed(
    oncrpc_records *records,
    const void *piece, size_t piece_count,
    oncrpc_outcome *outcome);

/* Puts the record that waits into the front of `buffer`; then it waits no longer, and the next may be fed. `buffer` may
 * be NULL where its count is 0, as for an empty record.
 * ONCRPC_OK: `at` bytes were written, 0 of an empty record, and the rest of the buffer is as it was. ONCRPC_NO_ROOM:
 * `at` bytes are needed, and the record waits on. ONCRPC_NO_RECORD. ONCRPC_NO_READER. At each status but ONCRPC_OK the
 * buffer is as it was. It takes no memory. */
uint32_t oncrpc_records_take(
    oncrpc_records *records,
    uint8_t *buffer, size_t buffer_count,
    oncrpc_outcome *outcome);

/* Tells whether the stream may end behind the bytes that were taken.
 * ONCRPC_OK: they end with a record's last byte, or there are none; a record that waits waits on, and nothing is
 * changed. ONCRPC_REFUSED: `why` is ONCRPC_TRUNCATED, and `at` the count of all bytes that were taken, which end inside
 * a record; it is told from then on. Or `why` and `at` are those that oncrpc_records_feed told. ONCRPC_NO_MEMORY: it told that.
 * ONCRPC_NO_READER. It takes no memory. */
uint32_t oncrpc_records_end(oncrpc_records *records, oncrpc_outcome *outcome);

/* Gives back what `records` holds, if anything, with a record that waits. It then holds none, so that a second call
 * does nothing. */
void oncrpc_records_free(oncrpc_records *records);

/* Puts the header of a fragment of `count` bytes, which is its record's last or not, into `header`. A record that is
 * sent whole is one last fragment: this header, and then its bytes. It takes no memory.
 *
 * ONCRPC_OK. ONCRPC_BAD_LIMITS: the count is above ONCRPC_MOST_RECORD, and `header` is as it was. */
uint32_t oncrpc_record_header(size_t count, bool is_last, uint8_t header[4]);

/* ---- connections to a registry
 *
 * A session is one connection to a registry, which many sessions share. It takes what was received, in any pieces, and
 * hands out what is to be sent. The caller has the socket, waits until it can be read or written, and keeps one session
 * for each connection:
 *
 *     oncrpc_session_start(&session, "tcp", 3, &who, 65536, &outcome)                       when it was accepted
 *
 *     while ((status = oncrpc_session_feed(&session, &registry, piece, count, &outcome)) == ONCRPC_OK) {
 *         piece += outcome.at, count -= outcome.at;                                         when it was read
 *     }
 *     while (oncrpc_session_output(&session, buffer, sizeof buffer, &outcome) <= ONCRPC_MORE_FOLLOWS && outcome.at
 *         && (sent = send(socket, buffer, outcome.at, MSG_NOSIGNAL)) > 0) {                 when it can be written
 *         oncrpc_session_took(&session, sent, &outcome);
 *     }
 *
 * Where the first loop ends with ONCRPC_MORE_WANTED, the next piece is received. With ONCRPC_OUTPUT_WAITS the rest of
 * the piece is to be fed again after a write, and nothing is to be received before. With ONCRPC_REFUSED and
 * ONCRPC_NO_MEMORY the connection is to be closed, once what waits was written. A call answers one record at most, so
 * that sessions may take turns. Each keeps at most 65536 bytes of a record, twice its bound, and 16777244 bytes of a
 * reply. A client that does not read makes it keep no more, and is not read.
 *
 * Each call below that is given an outcome fills it: `at` and `why` where they are spoken of, and 0 in each other field
 * and at each other status. */

/* A session of one connection, or none. It begins as ONCRPC_NONE, and is given back by oncrpc_session_free. */
typedef struct {
    void *at;
    bool live;
} oncrpc_session;

/* Starts a session in `session`, before the first byte of a connection of `caller`, and gives back what that held
 * before. `netid` is tcp or, for a socket of this host (AF_UNIX), local, and may be NULL where its count is 0. While
 * more than `bound` bytes of its output wait, it takes nothing.
 * ONCRPC_OK. ONCRPC_NO_TRANSPORT, and else _NO_CALLER, _NO_MEMORY: it holds none. */
uint32_t oncrpc_session_start(
    oncrpc_session *session,
    const void *netid, size_t netid_count,
    const oncrpc_caller *caller,
    uint32_t bound,
    oncrpc_outcome *outcome);

/* Takes bytes of `piece`, which may be empty, up to the end of a record, and answers that record: as
 * oncrpc_registry_answer_from does, by the session's transport and caller. The reply, where there is one, stands behind
 * the output, behind the header of a last fragment. What waits for oncrpc_registry_reply stays. `piece` may be NULL
 * where its count is 0.
 *
 * ONCRPC_OK: a record was answered. The first `at` bytes of the piece were taken, the last of which is the record's
 * last; the others are to be fed again. ONCRPC_MORE_WANTED: all bytes were taken, and no record is whole.
 * ONCRPC_OUTPUT_WAITS: more bytes wait than the bound, and none was taken.
 *
 * ONCRPC_REFUSED: `why` is ONCRPC_TOO_LONG, and `at` the place of the header that brings its record above 65536 bytes.
 * ONCRPC_NO_MEMORY: the record that had begun, or its reply, is lost. These two are answered from then on, whatever is
 * fed, with the same `why` and `at`. ONCRPC_NO_SESSION, and else _NO_REGISTRY: nothing is changed. At each status but
 * ONCRPC_OK the rows and the output are as they were. Where memory for an answer alone is refused, the reply is
 * SYSTEM_ERR, as it is of oncrpc_registry_answer. */
uint32_t oncrpc_session_feed(
    oncrpc_session *session,
    oncrpc_registry *registry,
    const void *piece, size_t piece_count,
    oncrpc_outcome *outcome);

/* Puts the first bytes of the output into the front of `buffer`, as many as go into it. They wait on, until
 * oncrpc_session_took tells that they were written. `buffer` may be NULL where its count is 0.
 *
 * ONCRPC_OK: the `at` bytes are all that wait, 0 where none does, and the rest of the buffer is as it was.
 * ONCRPC_MORE_FOLLOWS: the buffer is full, `at` is `buffer_count`, and more wait. ONCRPC_NO_SESSION: the buffer is as
 * it was. The session stays as it is. It takes no memory. */
uint32_t oncrpc_session_output(
    oncrpc_session *session,
    uint8_t *buffer, size_t buffer_count,
    oncrpc_outcome *outcome);

/* Tells that the first `count` bytes of the output were written; then they wait no longer.
 * ONCRPC_OK: `at` bytes wait. ONCRPC_BAD_LIMITS: fewer than `count` wait. ONCRPC_NO_SESSION. At these two nothing is
 * changed. It takes no memory. */
uint32_t oncrpc_session_took(oncrpc_session *session, size_t count, oncrpc_outcome *outcome);

/* Gives back what `session` holds, if anything, with the output that waits. It then holds none, so that a second call
 * does nothing. */
void oncrpc_session_free(oncrpc_session *session);

/* ---- numbers as texts, to be printed
 *
 * Each is a text of this file that stays for ever, and never NULL. */

/* What a status says. */
static inline const char *oncrpc_status_text(uint32_t status) {
    switch (status) {
    case ONCRPC_OK: return "done";
    case ONCRPC_MORE_FOLLOWS: return "done, and more bytes follow";
    case ONCRPC_REFUSED: return "the bytes are refused";
    case ONCRPC_UNDECLARED: return "the declarations have an error";
    case ONCRPC_NO_KIND: return "the name is that of no kind";
    case ONCRPC_BAD_LIMITS: return "a limit or a count is out of its range";
    case ONCRPC_NO_MEMORY: return "out of memory";
    case ONCRPC_NO_DECLARATIONS: return "the handle holds no declarations";
    case ONCRPC_NO_ROOM: return "a buffer is too small";
    case ONCRPC_NOT_A_CALL: return "the bytes are no call";
    case ONCRPC_OTHER_VERSION: return "a call of another version of RPC than 2";
    case ONCRPC_BAD_CREDENTIAL: return "the credential is cut, too long or badly padded";
    case ONCRPC_BAD_VERIFIER: return "the verifier is cut, too long or badly padded";
    case ONCRPC_CUT: return "the bytes end inside the reply";
    case ONCRPC_NOT_A_REPLY: return "the bytes are no reply";
    case ONCRPC_BAD_STATE: return "a reply of an unknown state";
    case ONCRPC_BYTES_FOLLOW: return "bytes follow a reply without results";
    case ONCRPC_NOT_AUTH_SYS: return "no body of AUTH_SYS";
    case ONCRPC_NO_REGISTRY: return "the handle holds no registry";
    case ONCRPC_SILENCE: return "there is no reply";
    case ONCRPC_NO_TRANSPORT: return "the netid is no transport of the call";
    case ONCRPC_UNCHANGED: return "no row was added or removed";
    case ONCRPC_NO_READER: return "the handle holds no reader of records";
    case ONCRPC_MORE_WANTED: return "more bytes are wanted";
    case ONCRPC_NO_RECORD: return "no record waits";
    case ONCRPC_NOT_AN_ADDRESS: return "the text is no universal address";
    case ONCRPC_BAD_ITEM: return "the items are no value's";
    case ONCRPC_NO_SUCH_PART: return "the value has no part with the path";
    case ONCRPC_NO_NUMBER: return "the part has no number";
    case ONCRPC_NO_MEMBER: return "the kind has no such member";
    case ONCRPC_BAD_JSON: return "the JSON text spells no value";
    case ONCRPC_NO_SESSION: return "the handle holds no session";
    case ONCRPC_OUTPUT_WAITS: return "output is to be written first";
    case ONCRPC_NO_CALLER: return "there is no such caller";
    case ONCRPC_NO_PART: return "no part is left";
    case ONCRPC_NO_CURSOR: return "the handle holds no cursor";
    case ONCRPC_ASTRAY: return "other declarations or another input";
    default: return "an unknown status";
    }
}

/* What a reason says: `why` with ONCRPC_REFUSED and ONCRPC_BAD_ITEM. */
static inline const char *oncrpc_reason_text(uint32_t why) {
    switch (why) {
    case ONCRPC_BAD_BOOL: return "a boolean that is neither 0 nor 1";
    case ONCRPC_BAD_NUMBERED: return "a number that no member of the enumeration has";
    case ONCRPC_BAD_CASE: return "a discriminant without an arm";
    case ONCRPC_TOO_LONG: return "a length, a count or a record above its maximum";
    case ONCRPC_BAD_PADDING: return "padding that is not zero";
    case ONCRPC_TOO_DEEP: return "deeper than the limit";
    case ONCRPC_TOO_LARGE: return "more bytes than the limit";
    case ONCRPC_TRUNCATED: return "the bytes end too early";
    case ONCRPC_WRONG_ITEM: return "another item is due";
    case ONCRPC_NOT_IN_RANGE: return "a number that is out of its type's range";
    case ONCRPC_PAST_END: return "an item behind the value";
    case ONCRPC_UNFINISHED: return "the value is not whole";
    case ONCRPC_OUTSIDE: return "content that does not lie in the data";
    default: return "an unknown reason";
    }
}

/* What a reason against JSON says: `why` with ONCRPC_BAD_JSON. */
static inline const char *oncrpc_json_text(uint32_t why) {
    switch (why) {
    case ONCRPC_JSON_NOT_JSON: return "no JSON, or no UTF-8";
    case ONCRPC_JSON_UNKNOWN_MEMBER: return "a member that the type does not have";
    case ONCRPC_JSON_MISSING_MEMBER: return "a member is missing";
    case ONCRPC_JSON_MEMBER_TWICE: return "a member that stands twice";
    case ONCRPC_JSON_WRONG_TYPE: return "JSON of another form than the type's";
    case ONCRPC_JSON_OUT_OF_RANGE: return "a number out of its type's range, or no number";
    case ONCRPC_JSON_NOT_WHOLE: return "no whole number: its text has a point, an e or an E";
    case ONCRPC_JSON_UNKNOWN_NAME: return "a name that no member of the enumeration has";
    case ONCRPC_JSON_BAD_HEX: return "no pairs of hexadecimal digits";
    case ONCRPC_JSON_WRONG_LENGTH: return "more or fewer bytes or items than the type has";
    case ONCRPC_JSON_NO_ARM: return "a discriminant without an arm";
    case ONCRPC_JSON_TOO_DEEP: return "deeper than the limit";
    case ONCRPC_JSON_TOO_LARGE: return "more bytes than the limit";
    default: return "an unknown reason";
    }
}

/* What an error of a text says: `why` with ONCRPC_UNDECLARED. */
static inline const char *oncrpc_fault_text(uint32_t why) {
    switch (why) {
    case ONCRPC_BAD_CHARACTER: return "a byte that begins no token, or a comment without an end";
    case ONCRPC_BAD_NUMBER: return "digits that are no number";
    case ONCRPC_UNEXPECTED: return "a token that cannot stand there, or the end of the text";
    case ONCRPC_FLOATING_KIND: return "float, double or quadruple";
    case ONCRPC_NAME_TWICE: return "a name that is declared twice";
    case ONCRPC_NAME_UNKNOWN: return "a name that is not declared";
    case ONCRPC_NOT_A_SIZE: return "a size or a maximum that is none";
    case ONCRPC_OUT_OF_RANGE: return "a number out of its range";
    case ONCRPC_TYPEDEF_LOOP: return "a typedef that leads to itself";
    case ONCRPC_BAD_SCHEMA: return "a type that no value can have";
    case ONCRPC_TEXT_TOO_LONG: return "more than 262144 bytes";
    case ONCRPC_NESTED_TOO_DEEP: return "types inside one another too deep";
    default: return "an unknown error";
    }
}

#ifdef __cplusplus
}
#endif

#endif
