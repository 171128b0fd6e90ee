/* What the C preprocessor with -C makes of a text, for the part of C that changed texts seldom leave: comments, strings,
 * macros that are numbers, and lines of #define, #ifdef, #ifndef, #if, #elif, #else and #endif. Of any other text
 * `preprocess` says that it does not know. Lines stay where they are. */
#include <ctype.h>
#include <setjmp.h>
#include <stdio.h>
#include <string.h>
enum { WORD = 64, MACROS = 256, DEEPEST = 32, LINE = 1000 };
struct macro { char name[WORD], value[WORD]; };
struct section { int shown, was_shown, is_last; };
static struct macro macros[MACROS];
static struct section sections[DEEPEST];
static int macro_count, depth;
static const char *at;
static char *out, *out_end, *line_start;
static jmp_buf not_known;
/* What is made is not known. */
static void unknown(void) { longjmp(not_known, 1); }
/* The preprocessor refuses the text. */
static void refused(void) { longjmp(not_known, 2); }
static int is_word(int c) { return isalnum(c) || c == '_'; }
static int is_shown(void) { return depth == 0 || sections[depth - 1].shown; }
static void put(char c) {
    if (out == out_end || out - line_start > LINE) unknown();
    *out++ = c;
    if (c == '\n') line_start = out;
}
/* Goes on to a place; of what is hidden only the ends of lines are put out. */
static void pass(const char *to) {
    for (; at < to; at++) if (is_shown() || *at == '\n') put(*at);
}
/* A name that the preprocessor may know by itself, or that rpcgen defines. */
static int is_own(const char *name) {
    return *name == '_' || !strncmp(name, "RPC_", 4) || !strcmp(name, "linux") || !strcmp(name, "unix")
        || !strcmp(name, "defined");
}
static int is_number(const char *word) {
    const char *c = word + (*word == '-');
    if (!isdigit(*c)) return 0;
    while (is_word(*c)) c++;
    return *c == 0 && c - word < WORD;
}
static struct macro *macro(const char *name) {
    for (int i = 0; i < macro_count; i++) if (!strcmp(macros[i].name, name)) return &macros[i];
    return NULL;
}
static const char *comment_end(void) {
    const char *end = strstr(at + 2, "*/");
    if (!end) refused();
    return end + 2;
}
/* The words of a line of #, in which a comment is a blank; the ends of its lines are put out. */
static void words_of(char *words, size_t room) {
    for (at++; *at != '\n';) {
        if (room-- < 2 || *at == '"' || *at == '\'' || !(isprint(*at) || *at == '\t')) unknown();
        if (at[0] == '/' && at[1] == '/') {
            at += strcspn(at, "\n");
        } else if (at[0] == '/' && at[1] == '*') {
            for (const char *end = comment_end(); at < end; at++) if (*at == '\n') put('\n');
            *words++ = ' ';
        } else {
            *words++ = *at++;
        }
    }
    *words = 0;
}
/* Takes a word from what is left of a line; it is empty where none begins there. */
static void take_word(const char **left, char *word) {
    size_t length = 0;
    *left += strspn(*left, " \t");
    while (is_word((*left)[length])) length++;
    if (length >= WORD) unknown();
    memcpy(word, *left, length);
    word[length] = 0;
    *left += length;
}
/* Takes the name that a line is about. */
static void take_name(const char **left, char *name) {
    take_word(left, name);
    if (!isalpha(*name) && *name != '_') refused();
    if (is_own(name) || **left == '$') unknown();
}
static void define(const char *left) {
    char name[WORD];
    take_name(&left, name);
    struct macro *there = macro(name);
    if (!strchr(" \t", *left) || strchr(left, '#') || macro_count == MACROS) unknown();
    left += strspn(left, " \t");
    size_t length = strlen(left);
    while (length && strchr(" \t", left[length - 1])) length--;
    if (length >= WORD || (there && (strlen(there->value) != length || memcmp(there->value, left, length)))) unknown();
    if (there) return;
    struct macro *made = &macros[macro_count++];
    strcpy(made->name, name);
    memcpy(made->value, left, length);
    made->value[length] = 0;
}
/* Whether a condition holds that is 0, 1 or a name. */
static int holds(const char *left) {
    char word[WORD];
    if (!left[strspn(left, " \t")]) refused();
    take_word(&left, word);
    struct macro *named = macro(word);
    if (left[strspn(left, " \t")] || is_own(word) || (named && strcmp(named->value, "1"))) unknown();
    if (isdigit(*word) && strcmp(word, "0") && strcmp(word, "1")) unknown();
    return named || !strcmp(word, "1");
}
static int is_named(const char *left) {
    char name[WORD];
    take_name(&left, name);
    return macro(name) != NULL;
}
static void open_section(const char *word, const char *left) {
    int is_hidden = !is_shown(), shown = 0;
    if (depth == DEEPEST) unknown();
    if (!is_hidden) shown = strcmp(word, "if") ? is_named(left) == !strcmp(word, "ifdef") : holds(left);
    sections[depth++] = (struct section){ shown, shown || is_hidden, 0 };
}
static void next_branch(int is_last, const char *left) {
    if (depth == 0 || sections[depth - 1].is_last) refused();
    struct section *section = &sections[depth - 1];
    section->shown = !section->was_shown && (is_last || holds(left));
    section->was_shown |= section->shown;
    section->is_last = is_last;
}
/* What the preprocessor knows besides, and its own lines, which begin with a number. */
static int is_other(const char *word) {
    static const char *const others[] = { "undef", "include", "include_next", "import", "line", "error", "warning", "pragma",
                                          "ident", "sccs", "assert", "unassert", "elifdef", "elifndef" };
    for (size_t i = 0; i < sizeof others / sizeof *others; i++) if (!strcmp(word, others[i])) return 1;
    return isdigit(*word) || *word == '_';
}
static void directive(void) {
    char words[LINE], word[WORD];
    const char *left = words;
    words_of(words, LINE);
    take_word(&left, word);
    if (*left == '$' || is_other(word)) unknown();
    if (!strcmp(word, "define")) {
        if (is_shown()) define(left);
    } else if (!strcmp(word, "if") || !strcmp(word, "ifdef") || !strcmp(word, "ifndef")) {
        open_section(word, left);
    } else if (!strcmp(word, "elif") || !strcmp(word, "else")) {
        next_branch(!strcmp(word, "else"), left);
    } else if (!strcmp(word, "endif")) {
        if (depth-- == 0) refused();
    } else if (is_shown() && (*word || *left)) {
        refused();
    }
}
static void quoted(void) {
    const char *end = at + 1 + strcspn(at + 1, *at == '"' ? "\"\n" : "'\n");
    if (*end != *at) unknown();
    pass(end + 1);
}
/* A word that is no number, with the number in place of a macro that stands by itself. */
static void named(const char *before) {
    char name[WORD];
    size_t length = 0;
    while (is_word(at[length])) length++;
    if (length >= WORD || strchr("\"'$", at[length])) unknown();
    memcpy(name, at, length);
    name[length] = 0;
    if (is_own(name)) unknown();
    struct macro *stands = is_shown() ? macro(name) : NULL;
    if (!stands) {
        pass(at + length);
        return;
    }
    if (!is_number(stands->value) || !strchr(" \t\n{}()[]<>,;:=", *before) || !strchr(" \t\n{}()[]<>,;:=", at[length])) unknown();
    for (const char *c = stands->value; *c; c++) put(*c);
    at += length;
}
/* The end of a number as the preprocessor reads one: with signs behind e and p. */
static const char *number_end(void) {
    const char *end = at + 1;
    while (is_word(*end) || *end == '.' || (strchr("+-", *end) && strchr("eEpP", end[-1]))) end++;
    return end;
}
static void line(void) {
    const char *start = at;
    int is_begun = 0;
    at += strspn(at, " \t");
    if (*at == '#') {
        directive();
        return;
    }
    for (at = start; *at != '\n';) {
        if (*at == '#' && !is_begun) unknown();
        is_begun |= !strchr(" \t/", *at);
        if (at[0] == '/' && at[1] == '*') pass(comment_end());
        else if (at[0] == '/' && at[1] == '/') pass(at + strcspn(at, "\n"));
        else if (*at == '"' || *at == '\'') quoted();
        else if (isdigit(*at) || (*at == '.' && isdigit(at[1]))) pass(number_end());
        else if (is_word(*at)) named(at - 1);
        else if (*at == '$' || (at[0] == '%' && at[1] == ':') || !(isprint(*at) || *at == '\t')) unknown();
        else pass(at + 1);
    }
}
/* The length of what is made of a text that a line feed precedes and ends, -1 where that is not known, or -2 where the
 * preprocessor refuses the text. Each of `words` that begins with -D defines a name. */
long preprocess(const char *text, char *const words[], char *made, size_t room) {
    macro_count = depth = 0;
    at = text;
    out = line_start = made;
    out_end = made + room;
    if (strchr(text, '\\')) return -1;
    int why = setjmp(not_known);
    if (why) return -why;
    for (int i = 0; words[i]; i++) {
        char line[LINE];
        if (!strncmp(words[i], "-D", 2) && snprintf(line, LINE, "%s 1", words[i] + 2) < LINE) define(line);
    }
    for (const char *c = "# 1 \"t.x\"\n"; *c; c++) put(*c);
    while (*at) {
        line();
        put('\n');
        at++;
    }
    if (depth) refused();
    return out - made;
}
