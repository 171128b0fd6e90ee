"""What rpcgen and read_dialect may say otherwise of a text, each with the reason that docs/LANGUAGE.md gives."""
import re

# Of a text that rpcgen and the C compiler take: the fault's number, the text around its place, which @ marks, and why.
REFUSED_HERE = [
    ("2", r"@-0\w", "an octal or hexadecimal number behind -"),
    ("2", r"@", "a number that C never sees, as that of a macro without a use"),
    ("1", r"@# ?define", "a macro of C that is no number"),
    ("1", r"@#", "a line of # that is not read"),
    ("1", r"@_", "a name that begins with _"),
    ("1", r"@'", "a character as a number"),
    ("1", r"@//", "// behind #define NAME NUMBER"),
    ("1", r"= ?@- ?;", "- alone as a number"),
    ("3", r"= ?@[A-Za-z]\w* ?;", "a name to which the text gives no number"),
    ("3", r"@[,}]", "a member without a number behind one whose value is a name"),
    ("3", r"@#", "#define inside a body"),
    ("3", r"\([^)]*@(?:[A-Za-z]\w* ?)?[*<]", "an argument behind a pointer, or with a size"),
    ("3", r"\([^)]*@-?\d", "a number as the name of an argument"),
    ("7", r"[<\[] ?@-", "a negative size"),
    ("7", r"[<\[] ?@[A-Za-z]\w* ?[>\]]", "a size by the name of a member or of a negative constant"),
    ("8", r"= ?@", "a number of a program, a version, a procedure or a member that is negative or too large"),
    ("10", r"@(?:union\b|[^;{]*\[)", "a discriminant or a case of another kind, or an array of size 0"),
    ("5", r"@", "a name that comes twice, of which C never sees the first"),
    ("6", r"@", "a name that C's library declares"),
]
# Of a text that read_dialect takes: what rpcgen, or the preprocessor that it runs, says, and why.
REFUSED_THERE = [
    (r"^\s+%.*\n\^+\n.*illegal character in file: %", "% behind white space"),
    (r"^ +\d+ \| %:", "a line of %:, which is # for the preprocessor"),
    (r"\bstruct\s+(?:union|enum|float|double)\b", "struct before union, enum, float and double"),
    (r"^\s*const\b.*=.*\n\^+\n.*expected", "marks that a quotation leaves"),
    (r"^\s*= *define\b", "a mark that #define leaves"),
    (r"unterminated comment", "a comment that a line of % opens"),
    (r"preprocessor error", "#pragma and #ident"),
    (r"\b(?:char|short)\b.*\n\^+\n.*expected|illegal \(reserved\) name", "names that rpcgen keeps for itself"),
]


def around(text, place):
    """The text around a place, a line and a column, with one blank for white space and comments."""
    line, column = map(int, place.split(":"))
    at = sum(len(it) + 1 for it in text.split("\n")[: line - 1]) + column - 1
    before, after = text[max(0, at - 60) : at], text[at : at + 30]
    return re.sub(r"(?:\s|/\*[^*]*\*/)+", " ", f"{before}@{after}")


def without_comments(text):
    """The text without the comments of // that the C preprocessor sees."""
    return re.sub(r"(?s)(/\*.*?\*/)|//[^\n]*", lambda found: found[1] or "", text)


def without_quotations(text):
    """The text without what stands in a line behind a quotation mark, where it opens a comment."""
    return re.sub(r"(?m)^([^\n'\"]*)['\"][^\n]*/\*.*$", r"\1", text)


def without_opened(text):
    """The text without the comments that lines of % open."""
    return re.sub(r"(?ms)^(%[^\n]*?)/\*.*?\*/", r"\1", text)


def is_with_macro(text, where):
    """Whether a word near the place is a macro without a value."""
    before, after = where.split("@")
    near = re.findall(r"\w+", before)[-2:] + re.findall(r"\w+", after)[:1]
    return any(re.search(rf"(?m)^\s*#\s*define\s+{it}\s*$", text) for it in near)


def why_here(text, number, place, is_taken):
    """Why read_dialect may refuse the text with that fault, or nothing; it is asked whether it takes other texts."""
    where = around(text, place)
    if number == "3" and is_with_macro(text, where):
        return "a macro that the text uses"
    if number == "3" and where.endswith("@") and re.search(r"//.*/\*", text) and is_taken(without_comments(text)):
        return "// before /* in what #if hides"
    if number == "3" and where.endswith("@") and is_taken(without_quotations(text)):
        return "/* behind a quotation mark"
    if without_opened(text) != text and is_taken(without_opened(text)):
        return "a comment that a line of % opens"
    return next((why for fault, form, why in REFUSED_HERE if fault == number and re.search(form, where)), None)


def why_there(text, said, is_taken):
    """Why rpcgen may refuse a text with these words, or nothing; read_dialect is asked whether it takes other texts."""
    macros = re.findall(r"(?m)^\s*#\s*define\s+(\w+)(.*)", text)
    if any(len(re.findall(rf"\b{name}\b", text)) > 1 for name, rest in macros if not (rest.strip() and name[-1].isdigit())):
        return "a macro that the text uses"
    if re.search(r"//.*/\*", text) and not is_taken(without_comments(text)):
        return "what stands behind // and /* in what #if hides"
    if "\\\n" in text and not is_taken(text.replace("\\\n", "")):
        return "a line behind \\, which the preprocessor joins"
    return next((why for form, why in REFUSED_THERE if re.search(form, said, re.M)), None)
