"""XDR (RFC 4506), messages and records of ONC RPC (RFC 5531), and the registry of rpcbind (RFC 1833), by proved code.

One file over ctypes, for Python 3.8 and later. It calls the shared library `liboncrpc.so.0`, whose header `oncrpc.h`
says what each call promises, and which a prover has checked. This file is not proved: it lends the library the bytes,
and makes Python values of what comes back.

    import oncrpc

    library = oncrpc.Library()
    with library.declarations("struct point { int x; int y; };") as declarations:
        declarations.decode("point", bytes.fromhex("00000001fffffffe"))       # {"x": 1, "y": -2}

Values are these:

    int, unsigned, hyper, unsigned hyper   int
    bool                                   bool
    enum                                   Member, an int with the name of the first member of that number
    opaque                                 bytes
    string                                 bytes, or str where `encoding` is given
    array, of fixed or variable size       list
    struct                                 dict: each field by its name, in their order
    union                                  dict: "case" is the discriminant; the arm by its name, where it is not void
    optional                               None, or the item; where that is itself optional, a list with it alone
    void                                   None

`case` is a word of the language, so that no arm has it for a name.

What the library answers in place of a result is an OncrpcError. Bytes may be given as any object with a buffer. What
is not `bytes` is copied first, since nothing may change it while the library reads it. Declarations, Records, Registry
and Session hold memory of the library until they are closed, by `close`, at the end of `with`, or with the object. They
stay on the thread that made them, as files of sqlite3 do: another one is told so by a RuntimeError.
"""

from __future__ import annotations

import ctypes
import enum
import operator
import os
import struct
import threading
import warnings
from dataclasses import dataclass
from typing import Any, Callable, Dict, Generator, Iterable, Iterator, List, NamedTuple, NoReturn, Optional, Tuple
from typing import Type, TypeVar, Union

__all__ = [
    "Auth",
    "AuthSys",
    "AddressError",
    "Call",
    "Caller",
    "Checked",
    "Count",
    "DeclarationError",
    "Declarations",
    "Decoded",
    "Fed",
    "Field",
    "Flag",
    "Item",
    "ItemError",
    "ItemReason",
    "JsonError",
    "JsonReason",
    "Kind",
    "LimitError",
    "Library",
    "Limits",
    "MOST_BODY",
    "MOST_BYTES",
    "MOST_DEPTH",
    "MOST_RECORD",
    "Member",
    "MessageError",
    "MoreFollowsError",
    "NoKindError",
    "NoMemoryError",
    "NoPartError",
    "OncrpcError",
    "Part",
    "Parts",
    "Peer",
    "Reason",
    "Records",
    "RefusedError",
    "Registry",
    "Reply",
    "Role",
    "Row",
    "Session",
    "Shown",
    "State",
    "Status",
    "TextFault",
    "Value",
    "XdrType",
]

#: Bytes, as any object with a buffer.
Data = Union[bytes, bytearray, memoryview]
#: A text, which is taken as UTF-8 where it is a str.
Text = Union[str, Data]
#: A value of XDR.
Value = Union[None, bool, int, bytes, str, List[Any], Dict[str, Any]]

#: The greatest depth of a value, where the value itself is at 1.
MOST_DEPTH = 4096
#: The greatest count of bytes of a value.
MOST_BYTES = 16777216
#: The greatest count of bytes of a record.
MOST_RECORD = 2147483647
#: The greatest count of bytes of a credential or a verifier.
MOST_BODY = 400


class Status(enum.IntEnum):
    """What a call of the library answers."""

    OK = 0
    MORE_FOLLOWS = 1
    REFUSED = 2
    UNDECLARED = 3
    NO_KIND = 4
    BAD_LIMITS = 5
    NO_MEMORY = 6
    NO_DECLARATIONS = 7
    NO_ROOM = 8
    NOT_A_CALL = 9
    OTHER_VERSION = 10
    BAD_CREDENTIAL = 11
    BAD_VERIFIER = 12
    CUT = 13
    NOT_A_REPLY = 14
    BAD_STATE = 15
    BYTES_FOLLOW = 16
    NOT_AUTH_SYS = 17
    NO_REGISTRY = 18
    SILENCE = 19
    NO_TRANSPORT = 20
    UNCHANGED = 21
    NO_READER = 22
    MORE_WANTED = 23
    NO_RECORD = 24
    NOT_AN_ADDRESS = 25
    BAD_ITEM = 26
    NO_SUCH_PART = 27
    NO_NUMBER = 28
    NO_MEMBER = 29
    BAD_JSON = 30
    NO_SESSION = 31
    OUTPUT_WAITS = 32
    NO_CALLER = 33
    NO_PART = 34
    NO_CURSOR = 35
    ASTRAY = 36


class Reason(enum.IntEnum):
    """Why bytes are refused."""

    BAD_BOOL = 1
    BAD_NUMBERED = 2
    BAD_CASE = 3
    TOO_LONG = 4
    BAD_PADDING = 5
    TOO_DEEP = 6
    TOO_LARGE = 7
    TRUNCATED = 8


class ItemReason(enum.IntEnum):
    """Why items are refused, beside the reasons for which their bytes would be."""

    WRONG_ITEM = 9
    NOT_IN_RANGE = 10
    PAST_END = 11
    UNFINISHED = 12
    OUTSIDE = 13


class JsonReason(enum.IntEnum):
    """Why a JSON text spells no value."""

    NOT_JSON = 1
    UNKNOWN_MEMBER = 2
    MISSING_MEMBER = 3
    MEMBER_TWICE = 4
    WRONG_TYPE = 5
    OUT_OF_RANGE = 6
    NOT_WHOLE = 7
    UNKNOWN_NAME = 8
    BAD_HEX = 9
    WRONG_LENGTH = 10
    NO_ARM = 11
    TOO_DEEP = 12
    TOO_LARGE = 13


class TextFault(enum.IntEnum):
    """Which error a text of declarations has (docs/LANGUAGE.md explains each)."""

    BAD_CHARACTER = 1
    BAD_NUMBER = 2
    UNEXPECTED = 3
    FLOATING_KIND = 4
    NAME_TWICE = 5
    NAME_UNKNOWN = 6
    NOT_A_SIZE = 7
    OUT_OF_RANGE = 8
    TYPEDEF_LOOP = 9
    BAD_SCHEMA = 10
    TEXT_TOO_LONG = 11
    NESTED_TOO_DEEP = 12


class Role(enum.IntEnum):
    """What the bytes of a part are."""

    NUMBER = 1
    FLAG = 2
    LENGTH = 3
    CONTENT = 4
    GROUP = 5


class XdrType(enum.IntEnum):
    """The type of a part's kind."""

    INT = 1
    UNSIGNED = 2
    HYPER = 3
    UNSIGNED_HYPER = 4
    BOOL = 5
    ENUM = 6
    FIXED_OPAQUE = 7
    OPAQUE = 8
    STRING = 9
    FIXED_ARRAY = 10
    ARRAY = 11
    STRUCT = 12
    UNION = 13
    OPTIONAL = 14
    VOID = 15


class Peer(enum.IntEnum):
    """Who sends a record: someone at another host, someone at this one, or a user of it, as the kernel says."""

    REMOTE = 0
    LOCAL = 1
    LOCAL_USER = 2


class State(enum.IntEnum):
    """What an accepted call came to, or why a call was denied."""

    SUCCESS = 0
    PROG_UNAVAIL = 1
    PROG_MISMATCH = 2
    PROC_UNAVAIL = 3
    GARBAGE_ARGS = 4
    SYSTEM_ERR = 5
    RPC_MISMATCH = 6
    AUTH_ERROR = 7


# ---- What is answered in place of a result


class OncrpcError(Exception):
    """What a call answers in place of its result.

    `status` says which answer it is. `reason` and `at` are told of bytes, items and JSON that are refused, and are None
    else.
    """

    status: Union[Status, int, None] = None
    reason: Union[Reason, ItemReason, JsonReason, int, None] = None
    at: Optional[int] = None

    def __init__(self, said: str = "", **told: Any) -> None:
        super().__init__(said)
        vars(self).update(told)


class RefusedError(OncrpcError, ValueError):
    """The bytes are refused for `reason`, at the place `at`: a count of bytes from the first.

    Of `Library.normalise` alone `before` is the normal form of the records before that place.
    """

    before: Optional[bytes] = None


class MoreFollowsError(OncrpcError, ValueError):
    """Bytes follow the value, which has `at` of them."""


class ItemError(OncrpcError, ValueError):
    """The items are no value's: the one that `at` others are before is refused for `reason`."""


class JsonError(OncrpcError, ValueError):
    """The JSON text spells no value: it is refused for `reason`, at the place `at`, a count of bytes of its UTF-8.

    The place is at `line` and `column`, which counts bytes. Both are from 1.
    """

    line: int = 0
    column: int = 0


class AddressError(OncrpcError, ValueError):
    """The text is no universal address over IPv4."""


class DeclarationError(OncrpcError, ValueError):
    """The text of declarations has an error: `fault`, at `line` and `column`, which counts bytes. Both are from 1.

    `inner` is the number of a schema's fault where `fault` is TextFault.BAD_SCHEMA, and else 0.
    """

    fault: Union[TextFault, int, None] = None
    line: int = 0
    column: int = 0
    inner: int = 0


class NoKindError(OncrpcError, LookupError):
    """The name is that of no kind, or the number is."""


class NoPartError(OncrpcError, LookupError):
    """The value has no part with the path."""


class LimitError(OncrpcError, ValueError):
    """A limit is out of its range."""


class NoMemoryError(OncrpcError, MemoryError):
    """The library is out of memory."""


class MessageError(OncrpcError, ValueError):
    """The bytes are no such message, or a message cannot be written; `status` says why.

    Of a call that was read, `xid` is told at Status.OTHER_VERSION, BAD_CREDENTIAL and BAD_VERIFIER, and `rpc_version`
    too, so that it can be answered. Both are None else.
    """

    xid: Optional[int] = None
    rpc_version: Optional[int] = None


_MESSAGES = {
    Status.NOT_A_CALL: "no call",
    Status.OTHER_VERSION: "a call of another version of RPC",
    Status.BAD_CREDENTIAL: "a bad credential",
    Status.BAD_VERIFIER: "a bad verifier",
    Status.CUT: "a reply that is cut",
    Status.NOT_A_REPLY: "no reply",
    Status.BAD_STATE: "a reply of no state",
    Status.BYTES_FOLLOW: "bytes follow the reply",
    Status.NOT_AUTH_SYS: "no body of AUTH_SYS",
}

_Numbered = TypeVar("_Numbered", bound=enum.IntEnum)


def _named(names: Type[_Numbered], number: int) -> Union[_Numbered, int]:
    """The member of the enumeration, or the number itself where a later library has more of them."""
    try:
        return names(number)
    except ValueError:
        return number


def _fail(status: int, outcome: Optional[_Outcome] = None, **told: Any) -> NoReturn:
    """Raises what a status means that is no result."""
    told["status"] = known = _named(Status, status)
    if known is Status.REFUSED and outcome is not None:
        reason = _named(Reason, outcome.why)
        said = f"refused {getattr(reason, 'name', reason)} at {outcome.at}"
        raise RefusedError(said, reason=reason, at=outcome.at, **told)
    if known is Status.UNDECLARED and outcome is not None:
        fault = _named(TextFault, outcome.why)
        said = f"declaration refused: {getattr(fault, 'name', fault)} at {outcome.line}:{outcome.column}"
        told.update(fault=fault, line=outcome.line, column=outcome.column, inner=outcome.inner)
        raise DeclarationError(said, **told)
    if known is Status.BAD_ITEM and outcome is not None:
        reason = _named(ItemReason if outcome.why >= ItemReason.WRONG_ITEM else Reason, outcome.why)
        said = f"{getattr(reason, 'name', reason)} at item {outcome.at}"
        raise ItemError(said, reason=reason, at=outcome.at, **told)
    if known is Status.BAD_JSON and outcome is not None:
        reason = _named(JsonReason, outcome.why)
        said = f"refused {getattr(reason, 'name', reason)} at {outcome.line}:{outcome.column}"
        raise JsonError(said, reason=reason, at=outcome.at, line=outcome.line, column=outcome.column, **told)
    if known is Status.NOT_AN_ADDRESS:
        raise AddressError("no universal address", **told)
    if known is Status.NO_KIND:
        raise NoKindError("there is no such kind", **told)
    if known is Status.NO_SUCH_PART:
        raise NoPartError("the value has no part with the path", **told)
    if known is Status.BAD_LIMITS:
        raise LimitError("a limit is out of its range", **told)
    if known is Status.NO_MEMORY:
        raise NoMemoryError("out of memory", **told)
    if known in _MESSAGES:
        raise MessageError(_MESSAGES[Status(known)], **told)
    raise OncrpcError(f"status {getattr(known, 'name', known)}", **told)


# ---- What is answered


class Limits(NamedTuple):
    """How deep a value may be, 1 to MOST_DEPTH, and how many bytes it may have, 4 to MOST_BYTES and in fours."""

    depth: int = MOST_DEPTH
    bytes: int = MOST_BYTES


class Checked(NamedTuple):
    """A value at the front of the bytes: how many it has, and whether at least one more follows."""

    used: int
    more_follows: bool


class Decoded(NamedTuple):
    """A value, and how many bytes it has."""

    value: Value
    used: int


class Shown(NamedTuple):
    """The lines of a value, each ended by a newline, as `oncrpc show` prints them, and how many bytes it has.

    Of Declarations.to_json the lines are its JSON, without a newline at the end.
    """

    lines: str
    used: int
    more_follows: bool


class Part(NamedTuple):
    """A part of a value: its place in the bytes, its own bytes, the name of its field or arm, its depth from 1.

    The same number `kind` is the same kind of the declarations.
    """

    at: int
    content: bytes
    name: str
    depth: int
    kind: int
    xdr_type: Union[XdrType, int]
    role: Union[Role, int]


class Parts(NamedTuple):
    """The parts of a value in the order of its bytes, a node before those inside it, and how many bytes it has."""

    parts: List[Part]
    used: int
    more_follows: bool


class Kind(NamedTuple):
    """A kind of the declarations. What its type does not speak of is 0.

    `members` counts those of an enum, or the fields of a struct. `size` is how many bytes an opaque or a string has, or
    items an array, at most if that varies. `item` is the kind of an array's items, of an optional's item or of a
    union's discriminant.
    """

    xdr_type: Union[XdrType, int]
    members: int
    size: int
    item: int


class Field(NamedTuple):
    """A member of an enum, a field of a struct, an arm of a union or a type: its name, and its number or its kind.

    An enum's member has the kind of the enum; an arm has the number that it was asked for by, and the others 0.
    """

    name: str
    number: int
    kind: int


class Flag(NamedTuple):
    """An item of a value that is written: whether an optional item is there, whose items then follow."""

    is_there: bool


class Count(NamedTuple):
    """An item of a value that is written: how many items of an array of variable size follow."""

    count: int


#: An item of a value that is written: a number or a boolean, content, or one of these two. A struct, an array of fixed
#: size and a void have none of their own; content brings its length and its padding.
Item = Union[int, Data, Flag, Count]


class Fed(NamedTuple):
    """What a session did with a piece: Status.OK, MORE_WANTED or OUTPUT_WAITS, and the place behind what was taken."""

    status: Status
    at: int


class Row(NamedTuple):
    """A row of a registry."""

    program: int
    version: int
    netid: bytes
    address: bytes
    owner: bytes


class Member(int):
    """The number of an enumeration's member, with its `name`: that of the first member with this number."""

    name: str

    def __new__(cls, number: int, name: str) -> Member:
        made = super().__new__(cls, number)
        made.name = name
        return made

    def __getnewargs__(self) -> Tuple[int, str]:
        return int(self), self.name

    def __repr__(self) -> str:
        return f"<{self.name}: {int(self)}>"

    __str__ = int.__repr__


@dataclass(frozen=True)
class Auth:
    """A credential or a verifier: its flavor (0 is AUTH_NONE, 1 is AUTH_SYS), and its body of at most 400 bytes."""

    flavor: int = 0
    body: bytes = b""


@dataclass(frozen=True)
class Call:
    """A call of version 2 of RPC (RFC 5531 section 9)."""

    xid: int = 0
    program: int = 0
    version: int = 0
    procedure: int = 0
    credential: Auth = Auth()
    verifier: Auth = Auth()
    arguments: bytes = b""


@dataclass(frozen=True)
class Reply:
    """A reply (RFC 5531 section 9). What its state does not speak of is empty or 0, and is not written.

    `results` are those of State.SUCCESS, `low` and `high` the versions of PROG_MISMATCH and RPC_MISMATCH, `auth_stat`
    is that of AUTH_ERROR. RPC_MISMATCH and AUTH_ERROR have no verifier.
    """

    xid: int = 0
    state: Union[State, int] = State.SUCCESS
    verifier: Auth = Auth()
    results: bytes = b""
    low: int = 0
    high: int = 0
    auth_stat: int = 0


@dataclass(frozen=True)
class AuthSys:
    """The body of a credential of the flavor 1 (RFC 5531 appendix A). It is what the caller says, and proves nothing.

    `machine` has at most 255 bytes, and there are at most 16 gids.
    """

    stamp: int = 0
    machine: bytes = b""
    uid: int = 0
    gid: int = 0
    gids: Tuple[int, ...] = ()


@dataclass(frozen=True)
class Caller:
    """What the program that has the socket knows of a call beside its bytes.

    `uid` is that of Peer.LOCAL_USER. `host` is the four bytes of the address to which the call came, where that is
    known. `trusts_remote` says whether SET and UNSET of Peer.REMOTE are taken.
    """

    peer: Peer = Peer.REMOTE
    uid: int = 0
    host: Optional[bytes] = None
    trusts_remote: bool = False


# ---- oncrpc.h


class _Outcome(ctypes.Structure):
    _fields_ = [
        ("at", ctypes.c_size_t),
        ("line", ctypes.c_size_t),
        ("column", ctypes.c_size_t),
        ("why", ctypes.c_uint32),
        ("inner", ctypes.c_uint32),
    ]


class _Handle(ctypes.Structure):
    """Each handle of the header has these fields."""

    _fields_ = [("at", ctypes.c_void_p), ("live", ctypes.c_bool)]


class _ValuePart(ctypes.Structure):
    _fields_ = [(name, ctypes.c_size_t) for name in ("at", "count", "name_at", "name_count")] + [
        (name, ctypes.c_uint32) for name in ("depth", "kind", "xdr_type", "role")
    ]


class _PartsOutcome(ctypes.Structure):
    _fields_ = [(name, ctypes.c_size_t) for name in ("at", "parts", "names")] + [("why", ctypes.c_uint32)]


class _Item(ctypes.Structure):
    _fields_ = [
        ("form", ctypes.c_uint32),
        ("signed_number", ctypes.c_int64),
        ("number", ctypes.c_uint64),
        ("at", ctypes.c_size_t),
        ("count", ctypes.c_size_t),
    ]


class _Number(ctypes.Structure):
    _fields_ = [("signed_number", ctypes.c_int64), ("number", ctypes.c_uint64)]


class _Kind(ctypes.Structure):
    _fields_ = [("members", ctypes.c_size_t)] + [(name, ctypes.c_uint32) for name in ("xdr_type", "size", "item")]


class _Field(ctypes.Structure):
    _fields_ = [("name_count", ctypes.c_size_t), ("number", ctypes.c_int64), ("kind", ctypes.c_uint32)]


class _Lying(ctypes.Structure):
    """A part of a message, or a text of a row."""

    _fields_ = [("at", ctypes.c_size_t), ("count", ctypes.c_size_t)]


def _numbers(*names: str) -> List[Tuple[str, Any]]:
    return [(name, ctypes.c_uint32) for name in names]


class _Call(ctypes.Structure):
    _fields_ = _numbers(
        "xid", "rpc_version", "program", "version", "procedure", "credential_flavor", "verifier_flavor"
    ) + [(name, _Lying) for name in ("credential", "verifier", "arguments")]


class _Reply(ctypes.Structure):
    _fields_ = _numbers("xid", "state", "low", "high", "auth_stat", "verifier_flavor") + [
        (name, _Lying) for name in ("verifier", "results")
    ]


class _Row(ctypes.Structure):
    _fields_ = _numbers("program", "version") + [(name, _Lying) for name in ("netid", "address", "owner")]


class _RowsOutcome(ctypes.Structure):
    _fields_ = [("rows", ctypes.c_size_t), ("bytes", ctypes.c_size_t)]


class _Caller(ctypes.Structure):
    _fields_ = _numbers("peer", "uid") + [
        ("host", ctypes.c_uint8 * 4),
        ("has_host", ctypes.c_bool),
        ("trusts_remote", ctypes.c_bool),
    ]


class _AuthSys(ctypes.Structure):
    _fields_ = _numbers("stamp", "uid", "gid", "gid_count") + [
        ("gids", ctypes.c_uint32 * 16),
        ("machine", _Lying),
    ]


#: The structs of the header, by their names there.
_STRUCTS = {
    "oncrpc_outcome": _Outcome,
    "oncrpc_declarations": _Handle,
    "oncrpc_value_part": _ValuePart,
    "oncrpc_number": _Number,
    "oncrpc_kind": _Kind,
    "oncrpc_member": _Field,
    "oncrpc_item": _Item,
    "oncrpc_parts_outcome": _PartsOutcome,
    "oncrpc_part": _Lying,
    "oncrpc_call": _Call,
    "oncrpc_reply": _Reply,
    "oncrpc_auth_sys": _AuthSys,
    "oncrpc_registry": _Handle,
    "oncrpc_registry_row": _Row,
    "oncrpc_rows_outcome": _RowsOutcome,
    "oncrpc_records": _Handle,
    "oncrpc_caller": _Caller,
    "oncrpc_session": _Handle,
    "oncrpc_parts": _Handle,
}

#: A part as it lies in an array of them: at, count, name_at, name_count, depth, kind, xdr_type, role.
_PART = struct.Struct("@4N4I")
#: An item as it lies in an array of them: form, signed_number, number, at, count.
_ITEM = struct.Struct("@IqQNN")
#: The numbers ONCRPC_ITEM_SIGNED, _UNSIGNED, _FLAG, _COUNT and _CONTENT.
_ITEM_SIGNED, _ITEM_UNSIGNED, _ITEM_FLAG, _ITEM_COUNT, _ITEM_CONTENT = range(1, 6)

_U32 = ctypes.c_uint32
_LENT = [ctypes.c_void_p, ctypes.c_size_t]
_COUNT = ctypes.POINTER(ctypes.c_size_t)
_OUTCOME = ctypes.POINTER(_Outcome)
_HELD = ctypes.POINTER(_Handle)
_VALUE = [*_LENT, _U32, _U32, *_LENT]

#: What each function of the header takes. One that ends in `_free` answers nothing, each other one a status.
_FUNCTIONS: Dict[str, List[Any]] = {
    "oncrpc_check": [*_LENT, *_VALUE, _OUTCOME],
    "oncrpc_declarations_read": [*_LENT, _HELD, _OUTCOME],
    "oncrpc_declarations_read_dialect": [*_LENT, *_LENT, _HELD, _OUTCOME],
    "oncrpc_declarations_to_json": [_HELD, *_VALUE, ctypes.c_bool, *_LENT, _COUNT, _OUTCOME],
    "oncrpc_declarations_from_json": [_HELD, *_VALUE, *_LENT, _COUNT, _OUTCOME],
    "oncrpc_declarations_check": [_HELD, *_VALUE, _OUTCOME],
    "oncrpc_declarations_show": [_HELD, *_VALUE, *_LENT, _COUNT, _OUTCOME],
    "oncrpc_declarations_parts": [_HELD, *_VALUE, *_LENT, *_LENT, ctypes.POINTER(_PartsOutcome)],
    "oncrpc_declarations_parts_start": [_HELD, *_VALUE, _HELD, _OUTCOME],
    "oncrpc_declarations_parts_next": [_HELD, _HELD, *_LENT, ctypes.POINTER(_ValuePart), *_LENT],
    "oncrpc_declarations_parts_skip": [_HELD, _HELD, *_LENT, _U32],
    "oncrpc_parts_free": [_HELD],
    "oncrpc_declarations_find": [_HELD, *_VALUE, *_LENT, ctypes.POINTER(_ValuePart), _OUTCOME],
    "oncrpc_part_number": [_HELD, *_LENT, ctypes.POINTER(_ValuePart), ctypes.POINTER(_Number)],
    "oncrpc_declarations_named": [_HELD, *_LENT, ctypes.POINTER(_U32)],
    "oncrpc_declarations_kind": [_HELD, _U32, ctypes.POINTER(_Kind)],
    "oncrpc_declarations_member": [_HELD, _U32, ctypes.c_size_t, *_LENT, ctypes.POINTER(_Field)],
    "oncrpc_declarations_picked": [_HELD, _U32, ctypes.c_int64, *_LENT, ctypes.POINTER(_Field)],
    "oncrpc_declarations_type": [_HELD, ctypes.c_size_t, *_LENT, ctypes.POINTER(_Field)],
    "oncrpc_declarations_write": [_HELD, *_LENT, _U32, _U32, *_LENT, *_LENT, *_LENT, _COUNT, _OUTCOME],
    "oncrpc_declarations_free": [_HELD],
    "oncrpc_normalise": [*_LENT, _U32, *_LENT, _COUNT, _OUTCOME],
    "oncrpc_call_read": [*_LENT, ctypes.POINTER(_Call)],
    "oncrpc_call_write": [ctypes.POINTER(_Call), *_LENT, *_LENT, *_LENT, *_LENT, _COUNT],
    "oncrpc_reply_read": [*_LENT, ctypes.POINTER(_Reply)],
    "oncrpc_reply_write": [ctypes.POINTER(_Reply), *_LENT, *_LENT, *_LENT, _COUNT],
    "oncrpc_auth_sys_read": [*_LENT, ctypes.POINTER(_AuthSys)],
    "oncrpc_auth_sys_write": [ctypes.POINTER(_AuthSys), *_LENT, *_LENT, _COUNT],
    "oncrpc_registry_start": [_HELD, ctypes.c_uint16, *_LENT, _OUTCOME],
    "oncrpc_registry_answer": [_HELD, *_LENT, *_LENT, *_LENT, _OUTCOME],
    "oncrpc_registry_answer_from": [_HELD, ctypes.POINTER(_Caller), *_LENT, *_LENT, *_LENT, _OUTCOME],
    "oncrpc_registry_reply": [_HELD, *_LENT, _OUTCOME],
    "oncrpc_registry_set": [_HELD, _U32, _U32, *_LENT, *_LENT, *_LENT, _OUTCOME],
    "oncrpc_registry_unset": [_HELD, _U32, _U32, *_LENT, *_LENT, _OUTCOME],
    "oncrpc_registry_rows": [_HELD, *_LENT, *_LENT, ctypes.POINTER(_RowsOutcome)],
    "oncrpc_registry_free": [_HELD],
    "oncrpc_uaddr_read": [*_LENT, ctypes.c_void_p, ctypes.POINTER(ctypes.c_uint16)],
    "oncrpc_uaddr_write": [ctypes.c_void_p, ctypes.c_uint16, *_LENT, _COUNT],
    "oncrpc_records_start": [_HELD, _U32, _OUTCOME],
    "oncrpc_records_feed": [_HELD, *_LENT, _OUTCOME],
    "oncrpc_records_take": [_HELD, *_LENT, _OUTCOME],
    "oncrpc_records_end": [_HELD, _OUTCOME],
    "oncrpc_records_free": [_HELD],
    "oncrpc_session_start": [_HELD, *_LENT, ctypes.POINTER(_Caller), _U32, _OUTCOME],
    "oncrpc_session_feed": [_HELD, _HELD, *_LENT, _OUTCOME],
    "oncrpc_session_output": [_HELD, *_LENT, _OUTCOME],
    "oncrpc_session_took": [_HELD, ctypes.c_size_t, _OUTCOME],
    "oncrpc_session_free": [_HELD],
    "oncrpc_record_header": [ctypes.c_size_t, ctypes.c_bool, ctypes.c_void_p],
    "oncrpc_version": [],
}


def _lent(data: Data) -> bytes:
    """The bytes themselves, which nobody changes, or a copy of what somebody could."""
    return data if isinstance(data, bytes) else bytes(memoryview(data))


def _text(text: Text) -> bytes:
    return text.encode("utf-8") if isinstance(text, str) else _lent(text)


def _u(bits: int, number: int, name: str) -> int:
    """The number, which ctypes would cut to so many bits without a word."""
    number = operator.index(number)
    if not 0 <= number < 1 << bits:
        raise OverflowError(f"{name} {number} is no unsigned number of {bits} bits")
    return number


def _limits(limits: Iterable[int]) -> Tuple[int, int]:
    depth, count = limits
    if not (0 <= depth < 1 << 32 and 0 <= count < 1 << 32):
        _fail(Status.BAD_LIMITS)
    return depth, count


def _caller(caller: Caller) -> _Caller:
    host = _lent(caller.host) if caller.host is not None else bytes(4)
    if len(host) != 4:
        raise ValueError(f"a host of {len(host)} bytes")
    peer, uid = _u(32, caller.peer, "peer"), _u(32, caller.uid, "uid")
    return _Caller(peer, uid, (ctypes.c_uint8 * 4)(*host), caller.host is not None, caller.trusts_remote)


def _limit(limit: int) -> int:
    if not 0 <= operator.index(limit) <= MOST_RECORD:
        _fail(Status.BAD_LIMITS)
    return limit


def _lend(buffer: bytearray) -> Tuple[Any, int]:
    """Where a buffer that is to be filled begins, and how many bytes it has."""
    return (ctypes.byref(ctypes.c_char.from_buffer(buffer)) if buffer else None), len(buffer)


def _front(buffer: bytearray, count: int) -> bytes:
    return bytes(memoryview(buffer)[:count])


def _checked(status: int, outcome: _Outcome) -> Checked:
    if status not in (Status.OK, Status.MORE_FOLLOWS):
        _fail(status, outcome)
    return Checked(outcome.at, status == Status.MORE_FOLLOWS)


# ---- The library


class Library:
    """The shared library: that at `path`, a file or the folder that it lies in.

    Without a path it is the one that ONCRPC_LIBRARY names so, else `liboncrpc.so.0` where the loader finds it. Raises
    OSError where there is none, or not all that this file calls. A library may be used by several threads at once.
    """

    def __init__(self, path: Union[str, os.PathLike[str], None] = None) -> None:
        found = os.fspath(path) if path is not None else os.environ.get("ONCRPC_LIBRARY") or "liboncrpc.so.0"
        if os.path.isdir(found):
            found = os.path.join(found, "liboncrpc.so.0")
        try:
            loaded = ctypes.CDLL(found)
        except OSError as fault:
            raise OSError(f"{fault}: ONCRPC_LIBRARY names the library, or the folder that it lies in") from None
        self._functions = {}
        for name, takes in _FUNCTIONS.items():
            function = getattr(loaded, name, None)
            if function is None:
                raise OSError(f"{found} has no {name}")
            function.argtypes = takes
            function.restype = None if name.endswith("_free") else _U32
            self._functions[name] = function

    def declarations(self, text: Text) -> Declarations:
        """Reads declarations in the XDR language, at most 262144 bytes. Raises DeclarationError, NoMemoryError."""
        return Declarations(self, text)

    def dialect(self, text: Text, names: Iterable[str] = ()) -> Declarations:
        """Reads declarations in rpcgen's dialect, where these names are defined for its lines of `#`.

        Raises TypeError where `names` is one string and no list of them, ValueError where one is no name: letters,
        digits and _, no digit first, and no value. Raises DeclarationError, NoMemoryError.
        """
        if isinstance(names, str):
            raise TypeError("names: a list of strings")
        defined = list(names)
        try:
            return Declarations(self, text, " ".join(defined))
        except NoKindError:
            raise ValueError(f"names: {defined!r}: letters, digits and _, no digit first, and no value") from None

    def registry(self, port: int = 111, seed: Optional[Data] = None) -> Registry:
        """Starts a registry with its own rows, at this port. Raises NoMemoryError.

        `seed` is bytes that the peers cannot know, 16 random ones where none are given: rows are found by hashes that
        depend on it. No answer does.
        """
        return Registry(self, port, os.urandom(16) if seed is None else seed)

    def session(self, over: str = "tcp", caller: Caller = Caller(), bound: int = 65536) -> Session:
        """The session of a connection of this caller to a registry, over `tcp` or `local`, before its first byte.

        While more than `bound` bytes of its output wait, it takes nothing. Raises NoMemoryError.
        """
        return Session(self, over, caller, bound)

    def records(self, limit: int = MOST_RECORD) -> Records:
        """A reader before the first byte of a stream whose records may have `limit` bytes.

        Raises LimitError, NoMemoryError.
        """
        return Records(self, limit)

    def version(self) -> Tuple[int, int, int]:
        """The version of the library: its major, minor and patch."""
        number = self._functions["oncrpc_version"]()
        return number >> 16, number >> 8 & 255, number & 255

    def read_address(self, text: Text) -> Tuple[bytes, int]:
        """The four bytes of the host and the port of a universal address over IPv4. Raises AddressError."""
        text, host, port = _text(text), bytearray(4), ctypes.c_uint16()
        status = self._functions["oncrpc_uaddr_read"](text, len(text), _lend(host)[0], port)
        if status != Status.OK:
            _fail(status)
        return bytes(host), port.value

    def write_address(self, host: Data, port: int) -> str:
        """The universal address of a host, of four bytes, and a port. Raises NoMemoryError."""
        host, buffer, count = _lent(host), bytearray(23), ctypes.c_size_t()
        if len(host) != 4:
            raise ValueError("a host over IPv4 has four bytes")
        status = self._functions["oncrpc_uaddr_write"](host, _u(16, port, "port"), *_lend(buffer), count)
        if status != Status.OK:
            _fail(status)
        return _front(buffer, count.value).decode("ascii")

    def record_header(self, count: int, is_last: bool = True) -> bytes:
        """The header of a fragment of so many bytes, which is its record's last or not. Raises LimitError."""
        header = bytearray(4)
        status = self._functions["oncrpc_record_header"](_limit(count), is_last, _lend(header)[0])
        if status != Status.OK:
            _fail(status)
        return bytes(header)

    def check(self, text: Text, name: str, data: Data, limits: Limits = Limits()) -> Checked:
        """As Declarations.check, with a text that is read for this one call. Raises DeclarationError, too."""
        outcome, text = _Outcome(), _text(text)
        given = (text, len(text), *_value(name, data, limits))
        return _checked(self._functions["oncrpc_check"](*given, outcome), outcome)

    def normalise(self, stream: Data, limit: int = MOST_RECORD) -> bytes:
        """Each record of the stream as one fragment, its last, where a record may have `limit` bytes.

        Raises RefusedError, which has the normal form of the records `before` the place, LimitError, NoMemoryError.
        """
        stream = _lent(stream)
        outcome, written = _Outcome(), ctypes.c_size_t()
        marked = bytearray(len(stream))  # A record has at least the header that is written for it.
        given = (stream, len(stream), _limit(limit), *_lend(marked))
        status = self._functions["oncrpc_normalise"](*given, written, outcome)
        if status == Status.REFUSED:
            _fail(status, outcome, before=_front(marked, written.value))
        if status != Status.OK:
            _fail(status, outcome)
        return _front(marked, written.value)

    def read_call(self, message: Data) -> Call:
        """Reads a call, without the header of a fragment. Raises MessageError."""
        message = _lent(message)
        call = _Call()
        status = self._functions["oncrpc_call_read"](message, len(message), call)
        if status in (Status.OTHER_VERSION, Status.BAD_CREDENTIAL, Status.BAD_VERIFIER):
            _fail(status, xid=call.xid, rpc_version=call.rpc_version)
        if status != Status.OK:
            _fail(status)
        return Call(
            call.xid,
            call.program,
            call.version,
            call.procedure,
            Auth(call.credential_flavor, _lying(message, call.credential)),
            Auth(call.verifier_flavor, _lying(message, call.verifier)),
            _lying(message, call.arguments),
        )

    def write_call(self, call: Call) -> bytes:
        """The bytes of a call. Raises MessageError where a body has more than 400 bytes, NoMemoryError."""
        numbers = {name: _u(32, getattr(call, name), name) for name in ("xid", "program", "version", "procedure")}
        numbers["credential_flavor"] = _u(32, call.credential.flavor, "credential.flavor")
        numbers["verifier_flavor"] = _u(32, call.verifier.flavor, "verifier.flavor")
        bodies = (call.credential.body, call.verifier.body, call.arguments)
        return self._written("oncrpc_call_write", _Call(**numbers), *bodies)

    def read_reply(self, message: Data) -> Reply:
        """Reads a reply, all of the bytes, without the header of a fragment. Raises MessageError, NoMemoryError."""
        message = _lent(message)
        reply = _Reply()
        status = self._functions["oncrpc_reply_read"](message, len(message), reply)
        if status != Status.OK:
            _fail(status)
        verifier = Auth(reply.verifier_flavor, _lying(message, reply.verifier))
        state = _named(State, reply.state)
        results = _lying(message, reply.results)
        return Reply(reply.xid, state, verifier, results, reply.low, reply.high, reply.auth_stat)

    def write_reply(self, reply: Reply) -> bytes:
        """The bytes of a reply. Raises MessageError: a verifier of more than 400 bytes, no state; NoMemoryError."""
        numbers = {name: _u(32, getattr(reply, name), name) for name in ("xid", "state", "low", "high", "auth_stat")}
        numbers["verifier_flavor"] = _u(32, reply.verifier.flavor, "verifier.flavor")
        return self._written("oncrpc_reply_write", _Reply(**numbers), reply.verifier.body, reply.results)

    def read_auth_sys(self, body: Data) -> AuthSys:
        """Reads the body of a credential of the flavor 1, all of the bytes. Raises MessageError, NoMemoryError."""
        body = _lent(body)
        auth = _AuthSys()
        status = self._functions["oncrpc_auth_sys_read"](body, len(body), auth)
        if status != Status.OK:
            _fail(status)
        gids = tuple(auth.gids[: auth.gid_count])
        return AuthSys(auth.stamp, _lying(body, auth.machine), auth.uid, auth.gid, gids)

    def write_auth_sys(self, auth: AuthSys) -> bytes:
        """The bytes of such a body. Raises MessageError: more than 16 gids or 255 bytes of name; NoMemoryError."""
        if len(auth.gids) > 16:
            _fail(Status.NOT_AUTH_SYS)
        numbers = {name: _u(32, getattr(auth, name), name) for name in ("stamp", "uid", "gid")}
        gids = (_U32 * 16)(*(_u(32, gid, "gid") for gid in auth.gids))
        made = _AuthSys(gid_count=len(auth.gids), gids=gids, **numbers)
        return self._written("oncrpc_auth_sys_write", made, auth.machine)

    def _written(self, name: str, numbers: ctypes.Structure, *bodies: Data) -> bytes:
        """What a writer puts into a buffer of the size that it asks for when it has none."""
        lent = [part for body in map(_lent, bodies) for part in (body, len(body))]
        count = ctypes.c_size_t()
        status = self._functions[name](numbers, *lent, None, 0, count)
        if status != Status.NO_ROOM:
            _fail(status)
        buffer = bytearray(count.value)
        status = self._functions[name](numbers, *lent, *_lend(buffer), count)
        if status != Status.OK:
            _fail(status)
        return _front(buffer, count.value)


def _lying(message: bytes, part: _Lying) -> bytes:
    return message[part.at : part.at + part.count]


_Own = TypeVar("_Own", bound="_Owner")


class _Owner:
    """A handle of the library, which is given back once, on the thread that made it."""

    _free: str

    def __init__(self, library: Library, start: Callable[[_Handle, _Outcome], int]) -> None:
        self._functions = library._functions
        self._thread = threading.get_ident()
        self._handle: Optional[_Handle] = None
        held, outcome = _Handle(), _Outcome()
        status = start(held, outcome)
        if status != Status.OK:
            _fail(status, outcome)
        self._handle = held

    def _held(self) -> _Handle:
        """The handle, where that is open and this is its thread."""
        if self._handle is None:
            raise ValueError("it is closed")
        if threading.get_ident() != self._thread:
            raise RuntimeError("it was made on another thread, and stays there")
        return self._handle

    def _call(self, name: str, *given: Any) -> int:
        """Calls a function on the handle."""
        return self._functions[name](self._held(), *given)

    def close(self) -> None:
        """Gives back what it holds. A second call does nothing."""
        if self._handle is not None:
            self._call(self._free)
            self._handle = None

    def __enter__(self: _Own) -> _Own:
        return self

    def __exit__(self, *_: object) -> None:
        self.close()

    def __del__(self) -> None:
        if getattr(self, "_handle", None) is None:
            return
        if threading.get_ident() == self._thread:
            self.close()
        else:
            warnings.warn(f"{self!r} was not closed on its thread; its memory is lost", ResourceWarning, source=self)


class Declarations(_Owner):
    """Declarations that were read. Made by Library.declarations, or Library.dialect.

    A `name` is that of a type that the text declares, or of a basic one: int, unsigned, hyper, unsigned-hyper, bool,
    opaque, string. Or `P.V.N.K`, the K-th argument, from 1, of procedure N in version V of program P, or
    `P.V.N.result`, its result.

    Each call but `close` raises RefusedError where no value begins the bytes, NoKindError, LimitError, NoMemoryError.
    """

    _free = "oncrpc_declarations_free"

    def __init__(self, library: Library, text: Text, names: Optional[str] = None) -> None:
        text = _text(text)
        given: Tuple[Any, ...] = (text, len(text))
        if names is None:
            read = library._functions["oncrpc_declarations_read"]
        else:
            defined = names.encode("utf-8")
            given = (*given, defined, len(defined))
            read = library._functions["oncrpc_declarations_read_dialect"]
        super().__init__(library, lambda held, outcome: read(*given, held, outcome))
        self._members: Dict[Tuple[int, bytes], Union[Member, int]] = {}
        self._kinds: Dict[int, Kind] = {}
        self._lists: Dict[int, List[Field]] = {}

    def check(self, name: str, data: Data, limits: Limits = Limits()) -> Checked:
        """Tells whether a value begins the bytes. No value is made, in memory for a frame for each open node."""
        outcome = _Outcome()
        return _checked(self._call("oncrpc_declarations_check", *_value(name, data, limits), outcome), outcome)

    def show(self, name: str, data: Data, limits: Limits = Limits()) -> Shown:
        """The lines of the value that begins the bytes."""
        outcome, written, buffer = _Outcome(), ctypes.c_size_t(), bytearray()
        given = _value(name, data, limits)
        status = self._call("oncrpc_declarations_show", *given, None, 0, written, outcome)
        if status == Status.NO_ROOM:
            buffer = bytearray(outcome.at)
            status = self._call("oncrpc_declarations_show", *given, *_lend(buffer), written, outcome)
        used, more_follows = _checked(status, outcome)
        return Shown(_front(buffer, written.value).decode("ascii", "replace"), used, more_follows)

    def to_json(self, name: str, data: Data, limits: Limits = Limits(), *, is_indented: bool = False) -> Shown:
        """The value that begins the bytes as JSON, on one line or with a line for each item and each member.

        It takes stack for each level of the value: on a thread with little of it, bound the depth.
        """
        outcome, written, buffer = _Outcome(), ctypes.c_size_t(), bytearray()
        given = (*_value(name, data, limits), is_indented)
        status = self._call("oncrpc_declarations_to_json", *given, None, 0, written, outcome)
        if status == Status.NO_ROOM:
            buffer = bytearray(outcome.at)
            status = self._call("oncrpc_declarations_to_json", *given, *_lend(buffer), written, outcome)
        used, more_follows = _checked(status, outcome)
        return Shown(_front(buffer, written.value).decode("utf-8"), used, more_follows)

    def from_json(self, name: str, text: Text, limits: Limits = Limits()) -> bytes:
        """The encoding of the value that the JSON text spells. Raises JsonError where it spells none.

        Any text that says the same as that of `to_json` is read: members in any order, white space, escapes. It takes
        stack for each level of the value: on a thread with little of it, bound the depth.
        """
        outcome, written, buffer = _Outcome(), ctypes.c_size_t(), bytearray()
        given = _value(name, _text(text), limits)
        status = self._call("oncrpc_declarations_from_json", *given, None, 0, written, outcome)
        if status == Status.NO_ROOM:
            buffer = bytearray(outcome.at)
            status = self._call("oncrpc_declarations_from_json", *given, *_lend(buffer), written, outcome)
        if status != Status.OK:
            _fail(status, outcome)
        return _front(buffer, written.value)

    def parts(self, name: str, data: Data, limits: Limits = Limits()) -> Parts:
        """Where the parts of the value that begins the bytes lie. A part is several objects: bound the limits."""
        given = _value(name, data, limits)
        listed, names, checked = self._parts(given)
        data = given[4]
        found = []
        for at, count, name_at, name_count, depth, kind, xdr_type, role in _PART.iter_unpack(listed):
            own = names[name_at : name_at + name_count].decode("utf-8", "replace")
            types = _named(XdrType, xdr_type), _named(Role, role)
            found.append(Part(at, data[at : at + count], own, depth, kind, *types))
        return Parts(found, *checked)

    def each_part(self, name: str, data: Data, limits: Limits = Limits()) -> Generator[Part, Optional[int], None]:
        """The parts of the value that begins the bytes one by one, in the order of `parts`, without a list of them.

        Its `send(depth)` passes over the parts that come next, as long as they are deeper, and gives the one behind
        them. With the depth of the last part that is all inside its node, with 1 less all that is left of the node
        around it. To be gone through to its end, or closed.
        """
        cursor, part, outcome, names = _Handle(), _ValuePart(), _Outcome(), bytearray(64)
        given = _value(name, data, limits)
        lent = given[4:]
        _checked(self._call("oncrpc_declarations_parts_start", *given, cursor, outcome), outcome)
        try:
            while True:
                status = self._call("oncrpc_declarations_parts_next", cursor, *lent, part, *_lend(names))
                if status == Status.NO_ROOM:
                    names = bytearray(part.name_count)
                    continue
                if status == Status.NO_PART:
                    return
                if status != Status.OK:
                    _fail(status)
                own = names[: part.name_count].decode("utf-8", "replace")
                types = _named(XdrType, part.xdr_type), _named(Role, part.role)
                content = lent[0][part.at : part.at + part.count]
                depth = yield Part(part.at, content, own, part.depth, part.kind, *types)
                if depth is not None:
                    status = self._call("oncrpc_declarations_parts_skip", cursor, *lent, _u(32, depth, "depth"))
                    if status != Status.OK:
                        _fail(status)
        finally:
            self._functions["oncrpc_parts_free"](cursor)

    def find(self, name: str, data: Data, path: str, limits: Limits = Limits()) -> Part:
        """The part that the path names, of the value that begins the bytes, without its name. Raises NoPartError.

        A path is the names of fields and arms with dots between them, and `[i]` behind an array for the item i, from 0.
        The empty path is the value itself. Of an opaque or a string the content is meant. Optional data is its item;
        where it is not there, a path to it names its flag, and no path leads on.
        """
        part, outcome, given, text = _ValuePart(), _Outcome(), _value(name, data, limits), path.encode("utf-8")
        status = self._call("oncrpc_declarations_find", *given, text, len(text), part, outcome)
        if status != Status.OK:
            _fail(status, outcome)
        content = given[4][part.at : part.at + part.count]
        types = _named(XdrType, part.xdr_type), _named(Role, part.role)
        return Part(part.at, content, "", part.depth, part.kind, *types)

    def number(self, part: Part) -> Optional[int]:
        """The number of a part of these declarations, or of an optional's flag or a length; None where it has none."""
        content, number = _lent(part.content), _Number()
        lent = _ValuePart(count=len(content), kind=part.kind, role=part.role)
        status = self._call("oncrpc_part_number", content, len(content), lent, number)
        if status == Status.NO_NUMBER:
            return None
        if status != Status.OK:
            _fail(status)
        return number.signed_number if number.signed_number < 0 else number.number

    def named(self, name: str) -> int:
        """The kind that has this name, by its number: that which its parts tell. Raises NoKindError."""
        text, kind = name.encode("utf-8"), _U32()
        status = self._call("oncrpc_declarations_named", text, len(text), kind)
        if status != Status.OK:
            _fail(status)
        return kind.value

    def kind(self, kind: int) -> Kind:
        """What the kind of this number is: of a part, of a field, of another kind's item. Raises NoKindError."""
        if kind not in self._kinds:
            told = _Kind()
            status = self._call("oncrpc_declarations_kind", _u(32, kind, "kind"), told)
            if status != Status.OK:
                _fail(status)
            self._kinds[kind] = Kind(_named(XdrType, told.xdr_type), told.members, told.size, told.item)
        return self._kinds[kind]

    def fields(self, kind: int) -> List[Field]:
        """The members of an enum, or the fields of a struct, in their order; none of another kind."""
        if kind not in self._lists:
            count = self.kind(kind).members
            found = [self._field("oncrpc_declarations_member", kind, index) for index in range(count)]
            self._lists[kind] = [field for field in found if field is not None]
        return self._lists[kind]

    def picked(self, kind: int, number: int) -> Optional[Field]:
        """The first member of an enum with the number, or the arm of a union under it; None where there is none.

        A union's default is the arm under each number that no other arm has.
        """
        number = operator.index(number)
        return self._field("oncrpc_declarations_picked", kind, number) if -(1 << 63) <= number < 1 << 63 else None

    def types(self) -> List[Field]:
        """The types that the text declares, in its order: the kind of each with its name. `number` is 0."""
        found: List[Field] = []
        while (told := self._named_field("oncrpc_declarations_type", len(found))) is not None:
            found.append(told)
        return found

    def _field(self, name: str, kind: int, key: int) -> Optional[Field]:
        return self._named_field(name, _u(32, kind, "kind"), key)

    def _named_field(self, name: str, *asked: int) -> Optional[Field]:
        told, buffer = _Field(), bytearray()
        status = self._call(name, *asked, None, 0, told)
        if status == Status.NO_ROOM:
            buffer = bytearray(told.name_count)
            status = self._call(name, *asked, *_lend(buffer), told)
        if status == Status.NO_MEMBER:
            return None
        if status != Status.OK:
            _fail(status)
        return Field(buffer.decode("utf-8", "replace"), told.number, told.kind)

    def decode(
        self,
        name: str,
        data: Data,
        limits: Limits = Limits(),
        *,
        encoding: Optional[str] = None,
        errors: str = "strict",
    ) -> Value:
        """The value that the bytes are, all of them.

        Strings are bytes, or with `encoding` str: of `errors` and of what they raise `bytes.decode` says more. Raises
        MoreFollowsError where bytes follow the value.
        """
        value, checked = self._decoded(name, data, limits, encoding, errors)
        if checked.more_follows:
            raise MoreFollowsError(f"more bytes follow the {checked.used}", status=Status.MORE_FOLLOWS, at=checked.used)
        return value

    def decode_front(
        self,
        name: str,
        data: Data,
        limits: Limits = Limits(),
        *,
        encoding: Optional[str] = None,
        errors: str = "strict",
    ) -> Decoded:
        """The value that begins the bytes, and how many it has; else as `decode`."""
        value, checked = self._decoded(name, data, limits, encoding, errors)
        return Decoded(value, checked.used)

    def encode(
        self, name: str, value: Value, limits: Limits = Limits(), *, encoding: str = "utf-8", errors: str = "strict"
    ) -> bytes:
        """The encoding of a value, as `decode` gives them, or `decode_front`.

        A str stands for a string's bytes by `encoding`, or for the number of the enum's member that has this name, of a
        discriminant too. Raises ItemError where the value is not within its type or the limits. TypeError, ValueError
        and KeyError say that it has not the shape that its kind wants: another type, too many or too few items.
        """
        items = self._items(self.named(name), value, lambda text: text.encode(encoding, errors))
        return self.write(name, items, limits)

    def _items(self, kind: int, value: Value, string: Callable[[str], bytes]) -> Iterator[Item]:
        """The items of a value. Without recursion, since it may be deeper than Python's stack."""
        left: List[Tuple[int, Any]] = [(kind, value)]
        while left:
            kind, value = left.pop()
            told = self.kind(kind)
            if told.xdr_type in (_ARRAY, _FIXED_ARRAY):
                if not isinstance(value, (list, tuple)):
                    raise TypeError(f"a list is due, and no {type(value).__name__}")
                if told.xdr_type == _ARRAY:
                    yield Count(len(value))
                elif len(value) != told.size:
                    raise ValueError(f"{told.size} items are due, and not {len(value)}")
                left.extend((told.item, item) for item in reversed(value))
            elif told.xdr_type == _STRUCT:
                fields = self.fields(kind)
                own = _dict_of(value, {field.name for field in fields})
                left.extend((field.kind, own[field.name]) for field in reversed(fields))
            elif told.xdr_type == _OPTIONAL:
                yield Flag(value is not None)
                if value is not None:
                    is_twice = self.kind(told.item).xdr_type == _OPTIONAL
                    left.append((told.item, _only(value) if is_twice else value))
            elif told.xdr_type == _UNION:
                number = self._number(told.item, _dict_of(value, value)["case"])
                yield number
                arm = self.picked(kind, number)
                if arm is None:
                    return  # The discriminant is refused, as the last item.
                own = _dict_of(value, {"case", arm.name} if arm.name else {"case"})
                left.extend([(arm.kind, own[arm.name])] if arm.name else [])
            elif told.xdr_type in (_ENUM, _BOOL):
                yield self._number(kind, value)
            elif told.xdr_type in (_FIXED_OPAQUE, _OPAQUE, _STRING):
                yield string(value) if told.xdr_type == _STRING and isinstance(value, str) else _lent(value)
            elif told.xdr_type != _VOID:
                yield operator.index(value)
            elif value is not None:
                raise TypeError("None is due")

    def _number(self, kind: int, value: Any) -> int:
        """A number, or that of the enumeration's member with a name."""
        if not isinstance(value, str):
            return operator.index(value)
        found = [field.number for field in self.fields(kind) if field.name == value]
        if not found or self.kind(kind).xdr_type != _ENUM:
            raise ValueError(f"no member is named {value}")
        return found[0]

    def write(self, name: str, items: Iterable[Item], limits: Limits = Limits()) -> bytes:
        """The encoding of the value that has these items, in the order of its bytes. Raises ItemError."""
        kind, packed, data = name.encode("utf-8"), bytearray(), bytearray()
        for item in items:
            packed += _packed(item, data)
        outcome, written, buffer = _Outcome(), ctypes.c_size_t(), bytearray()
        lent = (_lend(packed)[0], len(packed) // _ITEM.size, *_lend(data))
        given = (kind, len(kind), *_limits(limits), *lent)
        status = self._call("oncrpc_declarations_write", *given, None, 0, written, outcome)
        if status == Status.NO_ROOM:
            buffer = bytearray(outcome.at)
            status = self._call("oncrpc_declarations_write", *given, *_lend(buffer), written, outcome)
        if status != Status.OK:
            _fail(status, outcome)
        return _front(buffer, written.value)

    def _decoded(
        self, name: str, data: Data, limits: Limits, encoding: Optional[str], errors: str
    ) -> Tuple[Value, Checked]:
        data = _lent(data)
        listed, names, checked = self._parts(_value(name, data, limits))
        if len(self._members) > _MOST_MEMBERS:
            self._members.clear()

        def string(content: bytes) -> Union[bytes, str]:
            return content if encoding is None else content.decode(encoding, errors)

        return _nested(_PART.iter_unpack(listed), data, names, self._member, string), checked

    def _member(self, kind: int, content: bytes) -> Union[Member, int]:
        """What the number of an enumeration or of a discriminant is."""
        key = kind, content
        if key not in self._members:
            told = self.kind(kind)
            tag = told.item if told.xdr_type == _UNION else kind
            sort = self.kind(tag).xdr_type
            number = int.from_bytes(content, "big", signed=sort in (_INT, _ENUM))
            found = self.picked(tag, number) if sort == _ENUM else None
            self._members[key] = Member(number, found.name) if found else number == 1 if sort == _BOOL else number
        return self._members[key]

    def _parts(self, given: Tuple[Any, ...]) -> Tuple[bytearray, bytes, Checked]:
        """The parts as they lie in an array, their names, and what was found."""
        found, parts, names = _PartsOutcome(), bytearray(), bytearray()
        status = self._call("oncrpc_declarations_parts", *given, None, 0, None, 0, found)
        if status == Status.NO_ROOM:
            parts, names = bytearray(found.parts * _PART.size), bytearray(found.names)
            rooms = (_lend(parts)[0], found.parts, *_lend(names))
            status = self._call("oncrpc_declarations_parts", *given, *rooms, found)
        checked = _checked(status, _Outcome(at=found.at, why=found.why))
        return parts, bytes(names), checked


#: How many numbers of enumerations are kept with their names.
_MOST_MEMBERS = 4096


def _packed(item: Item, data: bytearray) -> bytes:
    """An item as it lies in an array of them, with its content put behind the data."""
    if isinstance(item, Flag):
        return _ITEM.pack(_ITEM_FLAG, 0, bool(item.is_there), 0, 0)
    if isinstance(item, Count):
        return _ITEM.pack(_ITEM_COUNT, 0, 0, 0, _u(64, item.count, "count"))
    if isinstance(item, (bytes, bytearray, memoryview)):
        at, content = len(data), _lent(item)
        data += content
        return _ITEM.pack(_ITEM_CONTENT, 0, 0, at, len(content))
    number = operator.index(item)
    if number < 0:
        return _ITEM.pack(_ITEM_SIGNED, -_u(63, -number - 1, "number") - 1, 0, 0, 0)
    return _ITEM.pack(_ITEM_UNSIGNED, 0, _u(64, number, "number"), 0, 0)


def _value(name: str, data: Data, limits: Limits) -> Tuple[bytes, int, int, int, bytes, int]:
    kind, data = name.encode("utf-8"), _lent(data)
    return (kind, len(kind), *_limits(limits), data, len(data))


# As plain numbers, since there is one of each for every part of a value.
_NUMBER, _, _LENGTH, _CONTENT, _ = map(int, Role)
_INT, _, _HYPER, _, _BOOL, _ENUM, _FIXED_OPAQUE, _OPAQUE, _STRING, *_ = map(int, XdrType)
_FIXED_ARRAY, _ARRAY, _STRUCT, _UNION, _OPTIONAL, _VOID = list(map(int, XdrType))[-6:]


def _dict_of(value: Any, names: Iterable[str]) -> Dict[str, Any]:
    """The value, which is a dict with no other names."""
    if not isinstance(value, dict):
        raise TypeError(f"a dict is due, and no {type(value).__name__}")
    for name in value:
        if name not in names:
            raise ValueError(f"no field or arm is named {name!r}")
    return value


def _only(value: Any) -> Any:
    """The item of a list with it alone."""
    if not isinstance(value, (list, tuple)) or len(value) != 1:
        raise TypeError("a list of one item is due")
    return value[0]


def _nested(
    parts: Iterable[Tuple[int, ...]],
    data: bytes,
    names: bytes,
    member: Callable[[int, bytes], Union[Member, int]],
    string: Callable[[bytes], Union[bytes, str]],
) -> Value:
    """The value that these are the parts of. Without recursion, since a value may be deeper than Python's stack."""
    root: List[Value] = []
    # Where the nodes inside each open one go: into a list or a dict, or to a place of one, which is a pair.
    holders: List[Any] = [root]
    for at, count, name_at, name_count, depth, kind, xdr_type, role in parts:
        value: Any = None
        if role == _NUMBER:
            number = data[at : at + count]
            if xdr_type == _ENUM:
                value = member(kind, number)
            elif xdr_type == _UNION:
                value = {"case": member(kind, number)}
            elif xdr_type == _BOOL:
                value = number[3] == 1
            else:
                value = int.from_bytes(number, "big", signed=xdr_type in (_INT, _HYPER))
        elif role == _CONTENT:
            value = string(data[at : at + count]) if xdr_type == _STRING else data[at : at + count]
        elif role == _LENGTH and xdr_type != _ARRAY:
            continue
        elif xdr_type == _STRUCT:
            value = {}
        elif xdr_type in (_ARRAY, _FIXED_ARRAY):
            value = []
        del holders[depth:]
        holder = holders[depth - 1]
        if type(holder) is tuple:
            holder, key = holder
            holder[key] = [value] if xdr_type == _OPTIONAL else value
            holder, key = (holder[key], 0) if xdr_type == _OPTIONAL else (holder, key)
        elif type(holder) is list:
            key = len(holder)
            holder.append(value)
        elif xdr_type != _VOID:
            key = names[name_at : name_at + name_count].decode("utf-8", "replace")
            holder[key] = value
        holders.append((holder, key) if xdr_type == _OPTIONAL else value)
    return root[0]


class Registry(_Owner):
    """The registry of RFC 1833, versions 2, 3 and 4 of program 100000, over the caller's own sockets.

    It has at most 1024 rows, each a program, a version, a netid, an address and an owner. Made by Library.registry.
    """

    _free = "oncrpc_registry_free"

    def __init__(self, library: Library, port: int, seed: Data) -> None:
        port, seed = _u(16, port, "port"), _lent(seed)
        start = library._functions["oncrpc_registry_start"]
        super().__init__(library, lambda held, outcome: start(held, port, seed, len(seed), outcome))

    def answer(self, over: str, record: Data) -> Optional[bytes]:
        """The reply to a record that came over `tcp` or `udp`; None where there is none, and nothing is to be sent.

        The record is as it is in a datagram or, over tcp, without the headers of its fragments. The registry is not
        told who sent it, and the owner is what its AUTH_SYS claims: a peer that claims uid 0 can remove every row. Hand
        on SET and UNSET, procedures 1 and 2 of program 100000, from peers that you trust alone, or call `answer_from`.
        """
        return self._answered("oncrpc_registry_answer", over, record)

    def answer_from(self, caller: Caller, over: str, record: Data) -> Optional[bytes]:
        """The same by who sent the record, after rpcbind; oncrpc.h says how.

        It may have come over `local` too, a socket of the host. SET and UNSET of Peer.REMOTE are AUTH_TOOWEAK, unless
        it is trusted. The owner of a row is the user whom the kernel names. An address at 0.0.0.0 is told at the host
        that was called, where that is known.
        """
        return self._answered("oncrpc_registry_answer_from", over, record, _caller(caller))

    def _answered(self, name: str, over: str, record: Data, *of: _Caller) -> Optional[bytes]:
        netid, record = over.encode("utf-8"), _lent(record)
        outcome, buffer = _Outcome(), bytearray(4096)
        given = (*of, netid, len(netid), record, len(record), *_lend(buffer))
        return self._placed(self._call(name, *given, outcome), outcome, buffer)

    def reply(self) -> Optional[bytes]:
        """The reply that waits since memory for it was refused, or None."""
        outcome = _Outcome()
        return self._placed(self._call("oncrpc_registry_reply", None, 0, outcome), outcome, bytearray())

    def _placed(self, status: int, outcome: _Outcome, buffer: bytearray) -> Optional[bytes]:
        """What stands in the buffer after this status; a reply that waits for a larger one gets it."""
        if status == Status.NO_ROOM:
            buffer = bytearray(outcome.at)
            status = self._call("oncrpc_registry_reply", *_lend(buffer), outcome)
        if status == Status.SILENCE:
            return None
        if status != Status.OK:
            _fail(status)
        return _front(buffer, outcome.at)

    def rows(self) -> List[Row]:
        """All rows, in the order in which they were added. Raises NoMemoryError."""
        outcome, rows, texts = _RowsOutcome(), bytearray(), bytearray()
        status = self._call("oncrpc_registry_rows", None, 0, None, 0, outcome)
        if status == Status.NO_ROOM:
            rows, texts = bytearray(outcome.rows * ctypes.sizeof(_Row)), bytearray(outcome.bytes)
            status = self._call("oncrpc_registry_rows", _lend(rows)[0], outcome.rows, *_lend(texts), outcome)
        if status != Status.OK:
            _fail(status)
        found, lent = (_Row * outcome.rows).from_buffer_copy(rows), bytes(texts)
        parts = ("netid", "address", "owner")
        return [Row(it.program, it.version, *(_lying(lent, getattr(it, part)) for part in parts)) for it in found]

    def set(self, program: int, version: int, netid: Text, address: Text, owner: Text) -> bool:
        """Adds a row at the end. False where oncrpc.h says that it is not added. Raises NoMemoryError."""
        return self._changed("oncrpc_registry_set", program, version, netid, address, owner)

    def unset(self, program: int, version: int, netid: Text, owner: Text) -> bool:
        """Removes the row, or with an empty netid each row, that the owner may remove. False where there is none."""
        return self._changed("oncrpc_registry_unset", program, version, netid, owner)

    def _changed(self, name: str, program: int, version: int, *texts: Text) -> bool:
        lent = [part for text in map(_text, texts) for part in (text, len(text))]
        numbers = _u(32, program, "program"), _u(32, version, "version")
        status = self._call(name, *numbers, *lent, _Outcome())
        if status not in (Status.OK, Status.UNCHANGED):
            _fail(status)
        return status == Status.OK


class Session(_Owner):
    """One connection to a registry, over the caller's own socket. Made by Library.session.

        at = 0
        while at < len(piece):
            status, at = session.feed(registry, piece, at)
            while sent := connection.send(session.output()):
                session.took(sent)
    """

    _free = "oncrpc_session_free"

    def __init__(self, library: Library, over: str, caller: Caller, bound: int) -> None:
        netid, who, bound = over.encode("utf-8"), _caller(caller), _u(32, bound, "bound")
        start = library._functions["oncrpc_session_start"]
        super().__init__(library, lambda held, outcome: start(held, netid, len(netid), who, bound, outcome))

    def feed(self, registry: Registry, piece: Data, start: int = 0) -> Fed:
        """Takes bytes of the piece from `start` on, up to the end of a record, which the registry answers.

        Status.OK: a record was answered, and the piece is to be fed again from `at` on. MORE_WANTED: all was taken.
        OUTPUT_WAITS: none was, and output is to be written first. Raises RefusedError where a header brings its record
        above 65536 bytes, and NoMemoryError; either is raised from then on, and the connection is to be closed.
        """
        piece = _lent(piece)
        if not 0 <= start <= len(piece):
            raise IndexError(f"{start} is no place in {len(piece)} bytes")
        outcome = _Outcome()
        first = ctypes.cast(piece, ctypes.c_void_p).value or 0
        status = self._call("oncrpc_session_feed", registry._held(), first + start, len(piece) - start, outcome)
        if status not in (Status.OK, Status.MORE_WANTED, Status.OUTPUT_WAITS):
            _fail(status, outcome)
        return Fed(Status(status), len(piece) if status == Status.MORE_WANTED else start + outcome.at)

    def output(self, most: int = 65536) -> bytes:
        """The first bytes that wait to be written, at most so many. They wait on, until `took` tells of them."""
        outcome, buffer = _Outcome(), bytearray(most)
        status = self._call("oncrpc_session_output", *_lend(buffer), outcome)
        if status not in (Status.OK, Status.MORE_FOLLOWS):
            _fail(status, outcome)
        return _front(buffer, outcome.at)

    def took(self, count: int) -> int:
        """Tells that so many bytes of the output were written; how many wait then. Raises LimitError if fewer do."""
        outcome = _Outcome()
        status = self._call("oncrpc_session_took", _u(64, count, "count"), outcome)
        if status != Status.OK:
            _fail(status, outcome)
        return outcome.at


class Records(_Owner):
    """A reader of one stream of records in fragments (RFC 5531 section 11). Made by Library.records.

        for piece in received:
            for record in records.each(piece):
                ...
        records.end()

    It keeps one record at most, as it comes.
    """

    _free = "oncrpc_records_free"

    def __init__(self, library: Library, limit: int) -> None:
        limit = _limit(limit)
        start = library._functions["oncrpc_records_start"]
        super().__init__(library, lambda held, outcome: start(held, limit, outcome))

    def feed(self, piece: Data, start: int = 0) -> Optional[int]:
        """Takes bytes of the piece from `start` on, up to the end of a record, which then waits for `take`.

        Returns the place in the piece behind what was taken, from which it is to be fed again; None where all was
        taken, and no record is whole. While a record waits nothing is taken. Raises RefusedError where a header brings
        its record above the limit, and NoMemoryError; either is raised from then on.
        """
        piece = _lent(piece)
        if not 0 <= start <= len(piece):
            raise IndexError(f"{start} is no place in {len(piece)} bytes")
        outcome = _Outcome()
        first = ctypes.cast(piece, ctypes.c_void_p).value or 0
        status = self._call("oncrpc_records_feed", first + start, len(piece) - start, outcome)
        if status not in (Status.OK, Status.MORE_WANTED):
            _fail(status, outcome)
        return start + outcome.at if status == Status.OK else None

    def take(self) -> Optional[bytes]:
        """The record that waits, which then waits no longer; None where none waits."""
        outcome, buffer = _Outcome(), bytearray()
        status = self._call("oncrpc_records_take", None, 0, outcome)
        if status == Status.NO_ROOM:
            buffer = bytearray(outcome.at)
            status = self._call("oncrpc_records_take", *_lend(buffer), outcome)
        if status == Status.NO_RECORD:
            return None
        if status != Status.OK:
            _fail(status, outcome)
        return _front(buffer, outcome.at)

    def each(self, piece: Data) -> Iterator[bytes]:
        """Feeds the piece, and takes each record that is whole. To be gone through to its end, or bytes are left."""
        piece = _lent(piece)
        at = self.feed(piece)
        while at is not None:
            record = self.take()
            if record is not None:
                yield record
            at = self.feed(piece, at)

    def end(self) -> None:
        """Raises RefusedError where the stream may not end here: inside a record. Or as `feed` did before."""
        outcome = _Outcome()
        status = self._call("oncrpc_records_end", outcome)
        if status != Status.OK:
            _fail(status, outcome)
