"""Programs that read a text each, started once for many (bench/c/many_texts.c), and the C compiler over what rpcgen
makes."""
import os
import struct
import subprocess

from measured.compiled import LIBRARY

FOLDER = f"{os.path.dirname(os.path.dirname(os.path.realpath(__file__)))}/c"
SOURCES = [f"{FOLDER}/many_texts.c", f"{FOLDER}/preprocess.c"]
REFUSED, NO_END, PREPROCESSED = 1, 2, 4


class Reader:
    """A program that reads t.x, by its words, in a folder that is made for it."""

    def __init__(self, folder, *words):
        self.folder = folder
        os.makedirs(folder)
        preloaded = f"{folder}/many.so"
        subprocess.run(["gcc", "-O2", "-shared", "-fPIC", "-o", preloaded, *SOURCES], check=True)
        self.running = subprocess.Popen(
            words, cwd=folder, stdin=subprocess.PIPE, stdout=subprocess.PIPE,
            env={**os.environ, "LD_PRELOAD": preloaded, "LC_ALL": "C"},
        )

    def answer(self, text):
        """0 where it takes the text, and else REFUSED or NO_END; with PREPROCESSED where the C preprocessor ran."""
        run = text.encode("latin-1")
        self.running.stdin.write(struct.pack("=I", len(run)) + run)
        self.running.stdin.flush()
        return self.running.stdout.read(1)[0]

    def close(self):
        self.running.stdin.close()
        if self.running.wait():
            raise ValueError(f"{self.folder}: ended early")


def rpcgen(folder, mode="-c"):
    return Reader(f"{folder}/rpcgen{mode}", "rpcgen", "-N", "-DDEFINED", mode, "t.x")


class Compiler:
    """What the C compiler says of what rpcgen makes; the headers of rpcgen's library are read once."""

    def __init__(self, folder):
        self.folder = f"{folder}/compiled"
        self.header, self.code = rpcgen(self.folder, "-h"), rpcgen(self.folder)
        headers = ["-x", "c-header", f"{LIBRARY}/rpc/rpc.h", "-o", f"{self.folder}/rpc.h.gch"]
        subprocess.run(["gcc", "-w", f"-I{LIBRARY}", *headers], check=True)

    def refuses(self, text):
        """Whether rpcgen or the compiler refuses the text."""
        if any(each.answer(text) & (REFUSED | NO_END) for each in (self.header, self.code)):
            return True
        os.replace(f"{self.header.folder}/printed", f"{self.folder}/t.h")
        os.replace(f"{self.code.folder}/printed", f"{self.folder}/t.c")
        command = ["gcc", "-w", f"-I{LIBRARY}", "-include", "rpc.h", "-fsyntax-only", "t.c"]
        return subprocess.run(command, cwd=self.folder, stderr=subprocess.DEVNULL).returncode != 0

    def close(self):
        self.header.close()
        self.code.close()
