"""Growths of memory that are refused to the calls of `tool_probe_more`, each in turn, alone and with all later ones."""
from .bounds import bounds_rows
from .dialect import dialect_rows
from .growths import each_refused
from .json_read import json_read_rows
from .json_texts import json_rows
from .paths import path_rows
from .schemas import schema_rows


def more_refused_cases(heap):
    rows = (*json_rows(), *json_read_rows(), *path_rows(), *dialect_rows(), *bounds_rows(), *schema_rows())
    yield from each_refused(heap, [case for case, _ in rows])
