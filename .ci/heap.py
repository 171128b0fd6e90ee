"""What is preloaded into proved programs, built by the C compiler of the machine: the heap of '.ci/heap.c', and the
network and the clock of '.ci/sockets.c'."""
import os
import shutil
import subprocess

HERE = os.path.dirname(os.path.realpath(__file__))


def build_heap(folder):
    """Builds the heap into a folder, and gives its path; None where no compiler is there, and a line that says so."""
    return built(folder, "heap", "no growth of memory is refused")


def build_sockets(folder):
    """The same of the network and the clock."""
    return built(folder, "sockets", "nothing stands for the network")


def built(folder, name, otherwise):
    """The path of what is built, or None, and a line that says what is not done then.

    The functions that it has in place of the C library's are not to be taken for those (-fno-builtin).
    """
    if not shutil.which("cc"):
        print(f"cc is not there: {otherwise}")
        return None
    made = f"{folder}/{name}.so"
    words = ["cc", "-O2", "-Wall", "-shared", "-fPIC", "-fno-builtin", "-o", made, f"{HERE}/{name}.c"]
    subprocess.run(words, check=True)
    return made
