"""Programs, as they are compiled and run here."""
import os
import shutil
import subprocess

from telling import tell

# The seconds after which a command is ended: under valgrind some take minutes.
LIMIT = 3600
ROOT = os.path.dirname(os.path.dirname(os.path.dirname(os.path.realpath(__file__))))
C = ["cc", "-std=c11", "-O2", "-Wall", "-Wextra", "-Wpedantic", "-Werror"]
CPP_FLAGS = ["-std=c++17", "-O2", "-Wall", "-Wextra", "-Wpedantic", "-Werror"]
CPP = ["c++", *CPP_FLAGS]


def run(words, **how):
    return subprocess.run(words, capture_output=True, text=True, timeout=LIMIT, check=False, **how)


def passed(name, is_well, said=""):
    return tell(name, is_well, said)


def compiled(library, source, to, *more):
    """Compiles a program on the library's archive, and says why that failed, if it did."""
    compiler = CPP if source.endswith(".cc") else C
    ran = run([*compiler, f"-I{library}/include", source, *more, f"{library}/liboncrpc.a", "-o", to])
    return ran.stderr


def tools(check, kinds="all"):
    """The ways to run a program: as it is, and under a check of valgrind, where that is there."""
    yield []
    if shutil.which("valgrind"):
        leaks = (
            ["--leak-check=full", f"--show-leak-kinds={kinds}", f"--errors-for-leak-kinds={kinds}"]
            if check == "memcheck"
            else []
        )
        yield ["valgrind", f"--tool={check}", "-q", "--error-exitcode=3", *leaks]
