"""What rpcgen and the C compiler make of a text: routines that decode bytes and encode the value again."""
import os
import re
import shutil
import struct
import subprocess
import sys

from measured.common import help_if_asked, refuse

LIBRARY = "/usr/include/tirpc"
# Headers that are taken as read already, since they declare what a file does, and a macro that no header has.
READ = {
    "crypt.x": ("-D__FBSDID(text)=extern int none",),
    "rpcb_prot.x": ("-D_RPCB_PROT_H_RPCGEN", "-D_RPC_RPCB_CLNT_H"),
    "nis_callback.x": ("-D_NIS_H_RPCGEN", "-D_RPCSVC_NIS_H"),
}
# A header that a file includes and no package has.
MISSING = "nis_clnt.h"
# Reads a type's number, a length and so many bytes, decodes them as that type and encodes the value. It writes 1, the
# length and the bytes, or 0 and a length of 0 where either fails; a value that leaves bytes over is one that fails.
PROGRAM = """#include <stdio.h>
#include <stdlib.h>
#include <string.h>
#include "t.h"
#define NUMBERS(name) __attribute__((weak)) bool_t name(XDR *x, u_int32_t *n) { return xdr_u_int32_t(x, n); }
NUMBERS(xdr_rpcprog_t)
NUMBERS(xdr_rpcvers_t)
NUMBERS(xdr_rpcproc_t)
static struct { xdrproc_t routine; size_t size; } types[] = { @TYPES@ };
int main(void) {
    unsigned head[2];
    while (fread(head, 4, 2, stdin) == 2) {
        char *bytes = malloc(head[1] + 4), *back = malloc(head[1] + 4);
        void *value = calloc(1, types[head[0]].size);
        XDR from, onto;
        unsigned told[2] = { 0, 0 };
        if (fread(bytes, 1, head[1], stdin) != head[1]) return 1;
        xdrmem_create(&from, bytes, head[1], XDR_DECODE);
        xdrmem_create(&onto, back, head[1] + 4, XDR_ENCODE);
        if (types[head[0]].routine(&from, value) && xdr_getpos(&from) == head[1]
            && types[head[0]].routine(&onto, value)) {
            told[0] = 1;
            told[1] = xdr_getpos(&onto);
        }
        fwrite(told, 4, 2, stdout);
        fwrite(back, 1, told[1], stdout);
        free(bytes);
        free(back);
    }
    return 0;
}
"""


def asked(script, text, probe, *names):
    """The numbers that a script is called with, once the programs that it runs are there."""
    words = sys.argv[1:]
    help_if_asked(words, text)
    if len(words) != len(names) or not all(re.fullmatch("[0-9]{1,9}", each) for each in words):
        refuse(f"usage: {script} {' '.join(names)}, all of them numbers")
    if not os.path.isfile(probe):
        refuse(f"{probe} is not built: {script} --help says how")
    for program in ("rpcgen", "gcc"):
        if not shutil.which(program):
            refuse(f"{program} is not on the PATH: {script} --help says what it needs")
    return map(int, words)


def made(folder, mode, name, text):
    """Writes what rpcgen makes of the text by one of its modes, and gives what it says where it refuses it."""
    with open(f"{folder}/t.x", "w", encoding="latin-1", newline="") as file:
        file.write(text)
    try:
        ran = subprocess.run(["rpcgen", "-N", "-DDEFINED", mode, "t.x"], cwd=folder, capture_output=True, timeout=20)
    except subprocess.TimeoutExpired:
        return "does not end"
    with open(f"{folder}/{name}", "wb") as file:
        file.write(ran.stdout)
    return (ran.stderr.decode("latin-1") or f"status {ran.returncode}") if ran.returncode else ""


def compiled(folder, *names):
    """What the C compiler says of these files; nothing where it takes them."""
    libraries = ["-ltirpc"] if names[0] == "-o" else []
    command = ["gcc", "-w", f"-I{LIBRARY}", *names, *libraries]
    ran = subprocess.run(command, cwd=folder, capture_output=True, timeout=120)
    return ran.stderr.decode("latin-1") if ran.returncode else ""


def for_rpcgen(text):
    """The text with each line of % that goes on as one line, and without the files that stand before it already."""
    joined = re.sub(r"(?m)^%(?:.*\\\n)+.*", lambda line: line[0].replace("\\\n", " "), text)
    return re.sub(r'(?m)^#include ".*\.x"', "", joined)


class Routines:
    """The routines of a text: `types` has the names of those that there are."""

    def __init__(self, folder, text, file_of):
        self.folder = folder
        open(f"{folder}/{MISSING}", "w", encoding="ascii").close()
        for mode, name in ("-h", "t.h"), ("-c", "t.c"):
            said = made(folder, mode, name, for_rpcgen(text))
            if said:
                raise ValueError(said)
        with open(f"{folder}/t.h", encoding="latin-1") as file:
            found = re.findall(r"extern +bool_t +xdr_(\w+) \(XDR \*, ([^)]*?)\*?\);", file.read())
        self.types = [name for name, _ in found]
        rows = ", ".join(f"{{ (xdrproc_t)xdr_{name}, sizeof({kind}) }}" for name, kind in found)
        with open(f"{folder}/m.c", "w", encoding="latin-1") as file:
            file.write(PROGRAM.replace("@TYPES@", rows))
        said = compiled(folder, "-o", "m", "m.c", "t.c", *READ.get(file_of, ()))
        if said:
            raise ValueError(said)

    def answers(self, values):
        """Of each type's number and bytes, the bytes of the value that was decoded; None where that fails."""
        asked = b"".join(struct.pack("=II", number, len(each)) + each for number, each in values)
        told = subprocess.run([f"{self.folder}/m"], input=asked, stdout=subprocess.PIPE, check=True).stdout
        at, found = 0, []
        for _ in values:
            status, length = struct.unpack_from("=II", told, at)
            found.append(told[at + 8 : at + 8 + length] if status else None)
            at += 8 + length
        return found
