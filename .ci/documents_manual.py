"""The sentences of manual pages in mdoc(7)."""
import re

from documents_comments import blank, long_sentences

# Macros that end a paragraph, or stand by themselves; and those whose words are read with the text around them.
ENDS = r"(?:Dd|Dt|Os|Sh|Ss|Pp|Bl|It|El|Bd|Ed|Nd|Rs|Re|%\w|Ft|Fo|Fa|Fc|In)\b"
INLINE = r"\b(?:Ar|Bq|Bro|Brc|Brq|Cm|Dq|Dv|Em|Ev|Fl|Fn|Li|Nm|No|Ns|Oc|Oo|Op|Pa|Pc|Po|Pq|Ql|Qq|Sq|Sx|Sy|Ta|Va|Vt|Xr)\b"


def read_as(line):
    """A line as it is read: its macros left out, and marks beside the word that they follow."""
    if not line.startswith("."):
        return line
    if re.match(rf"\.(?:\\\"|{ENDS})", line):
        return ""
    words = re.sub(INLINE, " ", line[1:]).replace('"', " ")
    return re.sub(r"\s+([.,:;?!)]+)(?=\s|$)", r"\1", " ".join(words.split()))


def faults_of_manual(path, text):
    """Where a sentence of a page is too long; what stands as it is, and its head and synopsis, are not looked at."""
    text = re.sub(r"^\.Bd -literal.*?^\.Ed$|\A.*?(?=^\.Sh DESCRIPTION)", blank, text, flags=re.S | re.M)
    lines = [read_as(it) for it in text.split("\n")]
    begins, at = [], 0
    for line in lines:
        begins.append(at)
        at += len(line) + 1
    for place, said, words in long_sentences("\n".join(lines)):
        number = sum(begin <= place for begin in begins)
        yield f"{path}:{number}: `{said}`: a sentence of {words} words"
