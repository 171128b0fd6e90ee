//! The functions of `liboncrpc` and what they fill, as `include/oncrpc.h` declares them.
//!
//! Each number and each layout is written once, and stands in the table by which the test of `layout` compares it with
//! what a C compiler makes of the header.

use std::ffi::c_void;

/// Numbers of the header, without their prefix, and the table of them by their names there.
macro_rules! numbers {
    ($($name:ident = $number:literal;)*) => {
        // A handle of this crate is never empty, so that not every status has a reader here.
        $(#[allow(dead_code)] pub const $name: u32 = $number;)*

        #[cfg(test)]
        pub const NUMBERS: &[(&str, u32)] = &[$((concat!("ONCRPC_", stringify!($name)), $name),)*];
    };
}

/// Structs of the header, and the table of them: each struct's size and each field's place and size, by their names
/// there.
macro_rules! structs {
    ($($(#[$of:meta])* $c_name:ident as $name:ident { $($field:ident: $kind:ty,)* })*) => {
        $(
            #[repr(C)]
            $(#[$of])*
            pub struct $name {
                $(pub $field: $kind,)*
            }
        )*

        #[cfg(test)]
        pub const LAYOUTS: &[(&str, &str, usize, usize)] = &[$(
            (stringify!($c_name), "", std::mem::align_of::<$name>(), std::mem::size_of::<$name>()),
            $((
                stringify!($c_name),
                stringify!($field),
                std::mem::offset_of!($name, $field),
                std::mem::size_of::<$kind>(),
            ),)*
        )*];
    };
}

numbers! {
    VERSION_MAJOR = 0;
    VERSION_MINOR = 1;
    VERSION_PATCH = 0;

    OK = 0;
    MORE_FOLLOWS = 1;
    REFUSED = 2;
    UNDECLARED = 3;
    NO_KIND = 4;
    BAD_LIMITS = 5;
    NO_MEMORY = 6;
    NO_DECLARATIONS = 7;
    NO_ROOM = 8;
    NOT_A_CALL = 9;
    OTHER_VERSION = 10;
    BAD_CREDENTIAL = 11;
    BAD_VERIFIER = 12;
    CUT = 13;
    NOT_A_REPLY = 14;
    BAD_STATE = 15;
    BYTES_FOLLOW = 16;
    NOT_AUTH_SYS = 17;
    NO_REGISTRY = 18;
    SILENCE = 19;
    NO_TRANSPORT = 20;
    UNCHANGED = 21;
    NO_READER = 22;
    MORE_WANTED = 23;
    NO_RECORD = 24;
    NOT_AN_ADDRESS = 25;
    BAD_ITEM = 26;
    NO_SUCH_PART = 27;
    NO_NUMBER = 28;
    NO_MEMBER = 29;
    BAD_JSON = 30;
    NO_SESSION = 31;
    OUTPUT_WAITS = 32;
    NO_CALLER = 33;
    NO_PART = 34;
    NO_CURSOR = 35;
    ASTRAY = 36;

    BAD_BOOL = 1;
    BAD_NUMBERED = 2;
    BAD_CASE = 3;
    TOO_LONG = 4;
    BAD_PADDING = 5;
    TOO_DEEP = 6;
    TOO_LARGE = 7;
    TRUNCATED = 8;

    WRONG_ITEM = 9;
    NOT_IN_RANGE = 10;
    PAST_END = 11;
    UNFINISHED = 12;
    OUTSIDE = 13;

    JSON_NOT_JSON = 1;
    JSON_UNKNOWN_MEMBER = 2;
    JSON_MISSING_MEMBER = 3;
    JSON_MEMBER_TWICE = 4;
    JSON_WRONG_TYPE = 5;
    JSON_OUT_OF_RANGE = 6;
    JSON_NOT_WHOLE = 7;
    JSON_UNKNOWN_NAME = 8;
    JSON_BAD_HEX = 9;
    JSON_WRONG_LENGTH = 10;
    JSON_NO_ARM = 11;
    JSON_TOO_DEEP = 12;
    JSON_TOO_LARGE = 13;

    BAD_CHARACTER = 1;
    BAD_NUMBER = 2;
    UNEXPECTED = 3;
    FLOATING_KIND = 4;
    NAME_TWICE = 5;
    NAME_UNKNOWN = 6;
    NOT_A_SIZE = 7;
    OUT_OF_RANGE = 8;
    TYPEDEF_LOOP = 9;
    BAD_SCHEMA = 10;
    TEXT_TOO_LONG = 11;
    NESTED_TOO_DEEP = 12;

    ROLE_NUMBER = 1;
    ROLE_FLAG = 2;
    ROLE_LENGTH = 3;
    ROLE_CONTENT = 4;
    ROLE_GROUP = 5;

    TYPE_INT = 1;
    TYPE_UNSIGNED = 2;
    TYPE_HYPER = 3;
    TYPE_UNSIGNED_HYPER = 4;
    TYPE_BOOL = 5;
    TYPE_ENUM = 6;
    TYPE_FIXED_OPAQUE = 7;
    TYPE_OPAQUE = 8;
    TYPE_STRING = 9;
    TYPE_FIXED_ARRAY = 10;
    TYPE_ARRAY = 11;
    TYPE_STRUCT = 12;
    TYPE_UNION = 13;
    TYPE_OPTIONAL = 14;
    TYPE_VOID = 15;

    ITEM_SIGNED = 1;
    ITEM_UNSIGNED = 2;
    ITEM_FLAG = 3;
    ITEM_COUNT = 4;
    ITEM_CONTENT = 5;

    PEER_REMOTE = 0;
    PEER_LOCAL = 1;
    PEER_LOCAL_USER = 2;

    SUCCESS = 0;
    PROG_UNAVAIL = 1;
    PROG_MISMATCH = 2;
    PROC_UNAVAIL = 3;
    GARBAGE_ARGS = 4;
    SYSTEM_ERR = 5;
    RPC_MISMATCH = 6;
    AUTH_ERROR = 7;

    MOST_BODY = 400;
    MOST_DEPTH = 4096;
    MOST_BYTES = 16_777_216;
    MOST_RECORD = 2_147_483_647;
}

structs! {
    #[derive(Default)]
    oncrpc_outcome as Outcome {
        at: usize,
        line: usize,
        column: usize,
        why: u32,
        inner: u32,
    }

    /// Declarations that were read, or none.
    #[derive(Debug)]
    oncrpc_declarations as Declarations {
        at: *mut c_void,
        live: bool,
    }

    /// A cursor over the parts of a value, or none.
    #[derive(Debug)]
    oncrpc_parts as PartsCursor {
        at: *mut c_void,
        live: bool,
    }

    #[derive(Default)]
    oncrpc_value_part as ValuePart {
        at: usize,
        count: usize,
        name_at: usize,
        name_count: usize,
        depth: u32,
        kind: u32,
        xdr_type: u32,
        role: u32,
    }

    #[derive(Default)]
    oncrpc_parts_outcome as PartsOutcome {
        at: usize,
        parts: usize,
        names: usize,
        why: u32,
    }

    #[derive(Default)]
    oncrpc_number as Number {
        signed_number: i64,
        number: u64,
    }

    #[derive(Default)]
    oncrpc_kind as Kind {
        members: usize,
        xdr_type: u32,
        size: u32,
        item: u32,
    }

    #[derive(Default)]
    oncrpc_member as Member {
        name_count: usize,
        number: i64,
        kind: u32,
    }

    #[derive(Default)]
    oncrpc_item as Item {
        form: u32,
        signed_number: i64,
        number: u64,
        at: usize,
        count: usize,
    }

    /// A registry, or none.
    #[derive(Debug)]
    oncrpc_registry as Registry {
        at: *mut c_void,
        live: bool,
    }

    #[derive(Default)]
    oncrpc_caller as Caller {
        peer: u32,
        uid: u32,
        host: [u8; 4],
        has_host: bool,
        trusts_remote: bool,
    }

    /// A session of a connection, or none.
    #[derive(Debug)]
    oncrpc_session as Session {
        at: *mut c_void,
        live: bool,
    }

    /// A reader of a stream of records, or none.
    #[derive(Debug)]
    oncrpc_records as Records {
        at: *mut c_void,
        live: bool,
    }

    oncrpc_registry_row as RegistryRow {
        program: u32,
        version: u32,
        netid: Part,
        address: Part,
        owner: Part,
    }

    #[derive(Default)]
    oncrpc_rows_outcome as RowsOutcome {
        rows: usize,
        bytes: usize,
    }

    #[derive(Clone, Copy, Default)]
    oncrpc_part as Part {
        at: usize,
        count: usize,
    }

    #[derive(Default)]
    oncrpc_call as Call {
        xid: u32,
        rpc_version: u32,
        program: u32,
        version: u32,
        procedure: u32,
        credential_flavor: u32,
        verifier_flavor: u32,
        credential: Part,
        verifier: Part,
        arguments: Part,
    }

    #[derive(Default)]
    oncrpc_reply as Reply {
        xid: u32,
        state: u32,
        low: u32,
        high: u32,
        auth_stat: u32,
        verifier_flavor: u32,
        verifier: Part,
        results: Part,
    }

    #[derive(Default)]
    oncrpc_auth_sys as AuthSys {
        stamp: u32,
        uid: u32,
        gid: u32,
        gid_count: u32,
        gids: [u32; 16],
        machine: Part,
    }
}

extern "C" {
    pub fn oncrpc_declarations_read(
        text: *const u8,
        text_count: usize,
        declarations: *mut Declarations,
        outcome: *mut Outcome,
    ) -> u32;

    pub fn oncrpc_declarations_read_dialect(
        text: *const u8,
        text_count: usize,
        names: *const u8,
        names_count: usize,
        declarations: *mut Declarations,
        outcome: *mut Outcome,
    ) -> u32;

    pub fn oncrpc_declarations_to_json(
        declarations: *mut Declarations,
        name: *const u8,
        name_count: usize,
        depth: u32,
        bytes: u32,
        input: *const u8,
        input_count: usize,
        is_indented: bool,
        buffer: *mut u8,
        buffer_count: usize,
        written: *mut usize,
        outcome: *mut Outcome,
    ) -> u32;

    pub fn oncrpc_declarations_from_json(
        declarations: *mut Declarations,
        name: *const u8,
        name_count: usize,
        depth: u32,
        bytes: u32,
        text: *const u8,
        text_count: usize,
        buffer: *mut u8,
        buffer_count: usize,
        written: *mut usize,
        outcome: *mut Outcome,
    ) -> u32;

    pub fn oncrpc_declarations_check(
        declarations: *mut Declarations,
        name: *const u8,
        name_count: usize,
        depth: u32,
        bytes: u32,
        input: *const u8,
        input_count: usize,
        outcome: *mut Outcome,
    ) -> u32;

    pub fn oncrpc_declarations_show(
        declarations: *mut Declarations,
        name: *const u8,
        name_count: usize,
        depth: u32,
        bytes: u32,
        input: *const u8,
        input_count: usize,
        buffer: *mut u8,
        buffer_count: usize,
        written: *mut usize,
        outcome: *mut Outcome,
    ) -> u32;

    pub fn oncrpc_declarations_parts(
        declarations: *mut Declarations,
        name: *const u8,
        name_count: usize,
        depth: u32,
        bytes: u32,
        input: *const u8,
        input_count: usize,
        parts: *mut ValuePart,
        parts_count: usize,
        names: *mut u8,
        names_count: usize,
        outcome: *mut PartsOutcome,
    ) -> u32;

    pub fn oncrpc_declarations_parts_start(
        declarations: *mut Declarations,
        name: *const u8,
        name_count: usize,
        depth: u32,
        bytes: u32,
        input: *const u8,
        input_count: usize,
        cursor: *mut PartsCursor,
        outcome: *mut Outcome,
    ) -> u32;

    pub fn oncrpc_declarations_parts_next(
        declarations: *mut Declarations,
        cursor: *mut PartsCursor,
        input: *const u8,
        input_count: usize,
        part: *mut ValuePart,
        buffer: *mut u8,
        buffer_count: usize,
    ) -> u32;

    pub fn oncrpc_declarations_parts_skip(
        declarations: *mut Declarations,
        cursor: *mut PartsCursor,
        input: *const u8,
        input_count: usize,
        depth: u32,
    ) -> u32;

    pub fn oncrpc_parts_free(cursor: *mut PartsCursor);

    pub fn oncrpc_declarations_find(
        declarations: *mut Declarations,
        name: *const u8,
        name_count: usize,
        depth: u32,
        bytes: u32,
        input: *const u8,
        input_count: usize,
        path: *const u8,
        path_count: usize,
        part: *mut ValuePart,
        outcome: *mut Outcome,
    ) -> u32;

    pub fn oncrpc_part_number(
        declarations: *mut Declarations,
        input: *const u8,
        input_count: usize,
        part: *const ValuePart,
        number: *mut Number,
    ) -> u32;

    pub fn oncrpc_declarations_named(
        declarations: *mut Declarations,
        name: *const u8,
        name_count: usize,
        kind: *mut u32,
    ) -> u32;

    pub fn oncrpc_declarations_kind(declarations: *mut Declarations, kind: u32, told: *mut Kind) -> u32;

    pub fn oncrpc_declarations_member(
        declarations: *mut Declarations,
        kind: u32,
        index: usize,
        buffer: *mut u8,
        buffer_count: usize,
        member: *mut Member,
    ) -> u32;

    pub fn oncrpc_declarations_picked(
        declarations: *mut Declarations,
        kind: u32,
        number: i64,
        buffer: *mut u8,
        buffer_count: usize,
        member: *mut Member,
    ) -> u32;

    pub fn oncrpc_declarations_type(
        declarations: *mut Declarations,
        index: usize,
        buffer: *mut u8,
        buffer_count: usize,
        member: *mut Member,
    ) -> u32;

    pub fn oncrpc_declarations_write(
        declarations: *mut Declarations,
        name: *const u8,
        name_count: usize,
        depth: u32,
        bytes: u32,
        items: *const Item,
        items_count: usize,
        data: *const u8,
        data_count: usize,
        buffer: *mut u8,
        buffer_count: usize,
        written: *mut usize,
        outcome: *mut Outcome,
    ) -> u32;

    pub fn oncrpc_declarations_free(declarations: *mut Declarations);

    pub fn oncrpc_normalise(
        input: *const u8,
        input_count: usize,
        limit: u32,
        buffer: *mut u8,
        buffer_count: usize,
        written: *mut usize,
        outcome: *mut Outcome,
    ) -> u32;

    pub fn oncrpc_call_read(input: *const u8, input_count: usize, call: *mut Call) -> u32;

    pub fn oncrpc_call_write(
        call: *const Call,
        credential: *const u8,
        credential_count: usize,
        verifier: *const u8,
        verifier_count: usize,
        arguments: *const u8,
        arguments_count: usize,
        buffer: *mut u8,
        buffer_count: usize,
        count: *mut usize,
    ) -> u32;

    pub fn oncrpc_reply_read(input: *const u8, input_count: usize, reply: *mut Reply) -> u32;

    pub fn oncrpc_reply_write(
        reply: *const Reply,
        verifier: *const u8,
        verifier_count: usize,
        results: *const u8,
        results_count: usize,
        buffer: *mut u8,
        buffer_count: usize,
        count: *mut usize,
    ) -> u32;

    pub fn oncrpc_auth_sys_read(input: *const u8, input_count: usize, auth: *mut AuthSys) -> u32;

    pub fn oncrpc_auth_sys_write(
        auth: *const AuthSys,
        machine: *const u8,
        machine_count: usize,
        buffer: *mut u8,
        buffer_count: usize,
        count: *mut usize,
    ) -> u32;

    pub fn oncrpc_registry_start(
        registry: *mut Registry,
        port: u16,
        seed: *const u8,
        seed_count: usize,
        outcome: *mut Outcome,
    ) -> u32;

    pub fn oncrpc_registry_answer(
        registry: *mut Registry,
        netid: *const u8,
        netid_count: usize,
        record: *const u8,
        record_count: usize,
        buffer: *mut u8,
        buffer_count: usize,
        outcome: *mut Outcome,
    ) -> u32;

    pub fn oncrpc_registry_answer_from(
        registry: *mut Registry,
        caller: *const Caller,
        netid: *const u8,
        netid_count: usize,
        record: *const u8,
        record_count: usize,
        buffer: *mut u8,
        buffer_count: usize,
        outcome: *mut Outcome,
    ) -> u32;

    pub fn oncrpc_registry_reply(
        registry: *mut Registry,
        buffer: *mut u8,
        buffer_count: usize,
        outcome: *mut Outcome,
    ) -> u32;

    pub fn oncrpc_registry_set(
        registry: *mut Registry,
        program: u32,
        version: u32,
        netid: *const u8,
        netid_count: usize,
        address: *const u8,
        address_count: usize,
        owner: *const u8,
        owner_count: usize,
        outcome: *mut Outcome,
    ) -> u32;

    pub fn oncrpc_registry_unset(
        registry: *mut Registry,
        program: u32,
        version: u32,
        netid: *const u8,
        netid_count: usize,
        owner: *const u8,
        owner_count: usize,
        outcome: *mut Outcome,
    ) -> u32;

    pub fn oncrpc_registry_rows(
        registry: *mut Registry,
        rows: *mut RegistryRow,
        rows_count: usize,
        bytes: *mut u8,
        bytes_count: usize,
        outcome: *mut RowsOutcome,
    ) -> u32;

    pub fn oncrpc_registry_free(registry: *mut Registry);

    pub fn oncrpc_uaddr_read(text: *const u8, text_count: usize, host: *mut [u8; 4], port: *mut u16) -> u32;

    pub fn oncrpc_uaddr_write(
        host: *const [u8; 4],
        port: u16,
        buffer: *mut u8,
        buffer_count: usize,
        count: *mut usize,
    ) -> u32;

    pub fn oncrpc_records_start(records: *mut Records, limit: u32, outcome: *mut Outcome) -> u32;

    pub fn oncrpc_records_feed(
        records: *mut Records,
        piece: *const u8,
        piece_count: usize,
        outcome: *mut Outcome,
    ) -> u32;

    pub fn oncrpc_records_take(
        records: *mut Records,
        buffer: *mut u8,
        buffer_count: usize,
        outcome: *mut Outcome,
    ) -> u32;

    pub fn oncrpc_records_end(records: *mut Records, outcome: *mut Outcome) -> u32;

    pub fn oncrpc_records_free(records: *mut Records);

    pub fn oncrpc_session_start(
        session: *mut Session,
        netid: *const u8,
        netid_count: usize,
        caller: *const Caller,
        bound: u32,
        outcome: *mut Outcome,
    ) -> u32;

    pub fn oncrpc_session_feed(
        session: *mut Session,
        registry: *mut Registry,
        piece: *const u8,
        piece_count: usize,
        outcome: *mut Outcome,
    ) -> u32;

    pub fn oncrpc_session_output(
        session: *mut Session,
        buffer: *mut u8,
        buffer_count: usize,
        outcome: *mut Outcome,
    ) -> u32;

    pub fn oncrpc_session_took(session: *mut Session, count: usize, outcome: *mut Outcome) -> u32;

    pub fn oncrpc_session_free(session: *mut Session);

    pub fn oncrpc_record_header(count: usize, is_last: bool, header: *mut [u8; 4]) -> u32;

    pub fn oncrpc_version() -> u32;
}
