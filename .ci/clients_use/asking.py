"""How the rows of real servers ask them: by 'oncrpc call' and 'oncrpc ping', and by the clients that they are compared
with."""
import json
import subprocess

from telling import tell
from timing import LIMIT

HOST, SIX = "127.0.0.1", "::1"


def ask(words, given=None):
    """The status and both streams of a command."""
    ended = subprocess.run(words, capture_output=True, text=True, timeout=LIMIT, check=False, input=given)
    return ended.returncode, ended.stdout, ended.stderr


def rows_of(words):
    """The rows of a line-wise listing without its header: each as its words."""
    return [line.split() for line in ask(words)[1].splitlines()[1:]]


def told(name, got, wanted, of):
    """Whether a row is as it should be, which is printed."""
    return tell(name, got == wanted, (got, wanted), f"as of {of}")


class Caller:
    """Calls procedures of a program by its declarations, or by those that the program finds where none are named, and
    reads their results as JSON."""

    def __init__(self, program, declarations, *more):
        self.program, self.words = program, [*(["--types", declarations] if declarations else []), *more]

    def ask(self, procedure, *more, given=None):
        """The status and both streams. Arguments are given as a value of Python."""
        arguments = [] if given is None else ["--arguments", json.dumps(given)]
        return ask([self.program, "call", HOST, procedure, *self.words, *arguments, *more])

    def result(self, procedure, *more, given=None):
        """The result as a value of Python, or what came in its place."""
        got = self.ask(procedure, *more, given=given)
        return json.loads(got[1]) if (got[0], got[2]) == (0, "") else got


def has_answered(name, got, line):
    """Whether a ping gave this line, but for the time that it took."""
    well = got[0] == 0 and got[2] == "" and got[1].startswith(line) and got[1].endswith(" microseconds\n")
    return tell(name, well, got, "answered")
