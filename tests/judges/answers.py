"""Records to the registry at port 111, one after another, each with the reply to it (RFC 5531 section 9, RFC 1833
sections 2 and 3)."""
from rows.answers import TABLES
from rows.shared import Case, PIECES, marked


def table_cases():
    """Each record, behind those before it in its table, alone and in a stream."""
    for table in TABLES:
        before = b""
        for record, sent in table:
            wanted = "no reply" if sent is None else f"reply {sent.hex()}"
            yield Case("answer", given=record, before=before), lambda told, wanted=wanted: told.answer == wanted
            before += marked(record)
        replies = [sent for _, sent in table if sent is not None]
        wanted = f"{len(table)} records, {len(replies)} replies", b"".join(map(marked, replies))
        for piece in PIECES:
            case = Case("serve", (piece, 0), given=before)
            yield case, lambda told, wanted=wanted: (told.answer, told.streams[0]) == wanted
