/* mutate FILE: lists what can be changed in a C source, one change a line: its
 * number from 1, the line and column of the source, and what becomes of what.
 * mutate FILE NUMBER: writes the source with that change.
 *
 * The changes: a condition negated, always or never met; an operand of && or
 * || always or never met; && and || exchanged; ! left out; a comparison
 * exchanged (< with <=, > with >=, == with !=); a statement or a case left
 * out; an operator exchanged; a number one more and one less. What only counts
 * for `reached` is left alone, and so are declarations. */
#include <ctype.h>
#include <stdbool.h>
#include <stdio.h>
#include <stdlib.h>
#include <string.h>

enum { SOURCE_MAX = 1 << 17, TOKENS_MAX = 1 << 15, CHANGES_MAX = 1 << 13 };

struct token {
    size_t begin, end;
    unsigned line;
    bool word, number;
    bool counts; /* within what only counts */
};

struct change {
    size_t begin, end;
    unsigned line;
    char text[512];
};

static char source[SOURCE_MAX + 1];
static size_t length;
static struct token token[TOKENS_MAX];
static size_t tokens;
static struct change change[CHANGES_MAX];
static size_t changes;

static void fail(const char *what)
{
    fprintf(stderr, "mutate: %s\n", what);
    exit(2);
}

static bool is(size_t i, const char *text)
{
    const size_t size = strlen(text);

    return i < tokens && token[i].end - token[i].begin == size
        && memcmp(source + token[i].begin, text, size) == 0;
}

static bool is_any(size_t i, const char *const *texts)
{
    while (*texts && !is(i, *texts))
        texts++;
    return *texts;
}

/* Tokens ---------------------------------------------------------------- */

static size_t operator_length(const char *at)
{
    static const char *const longer[] = {"<<=", ">>=", "->", "++", "--", "<<",
                                         ">>", "<=", ">=", "==", "!=", "&&",
                                         "||", "+=", "-=", "*=", "/=", "%=",
                                         "&=", "|=", "^=", NULL};

    for (const char *const *text = longer; *text; text++)
        if (strncmp(at, *text, strlen(*text)) == 0)
            return strlen(*text);
    return 1;
}

static void scan(void)
{
    unsigned line = 1;
    bool fresh = true; /* nothing but blanks on the line so far */

    for (size_t i = 0; i < length;) {
        const char c = source[i];
        size_t size = 1;
        if (c == '\n') {
            line++;
            fresh = true;
            i++;
            continue;
        }
        if (isspace((unsigned char)c)) {
            i++;
            continue;
        }
        if (c == '#' && fresh) { /* a directive, with the lines it goes on to */
            while (i < length && (source[i] != '\n' || source[i - 1] == '\\'))
                line += source[i++] == '\n';
            continue;
        }
        fresh = false;
        if (strncmp(source + i, "/*", 2) == 0) {
            for (i += 2; i < length && strncmp(source + i, "*/", 2) != 0; i++)
                line += source[i] == '\n';
            i += 2;
            continue;
        }
        if (tokens == TOKENS_MAX)
            fail("too many tokens");
        struct token *next = &token[tokens++];
        *next = (struct token){.begin = i, .line = line};
        if (isalpha((unsigned char)c) || c == '_') {
            next->word = true;
            while (isalnum((unsigned char)source[i + size])
                   || source[i + size] == '_')
                size++;
        } else if (isdigit((unsigned char)c)) {
            next->number = true;
            while (isalnum((unsigned char)source[i + size]))
                size++;
        } else if (c == '"' || c == '\'') {
            while (source[i + size] != c)
                size += source[i + size] == '\\' ? 2 : 1;
            size++;
        } else {
            size = operator_length(source + i);
        }
        next->end = i += size;
    }
}

static bool opens(size_t i)
{
    return is(i, "(") || is(i, "[") || is(i, "{");
}

static bool closes(size_t i)
{
    return is(i, ")") || is(i, "]") || is(i, "}");
}

/* The token that closes what this one opens. */
static size_t match(size_t i)
{
    unsigned depth = 0;

    for (; i < tokens; i++) {
        depth += opens(i);
        depth -= closes(i);
        if (depth == 0)
            return i;
    }
    fail("brackets do not match");
    return 0;
}

static void mark_counting(void)
{
    static const char *const calls[] = {"fault", "unreadable", "reached",
                                        "_Static_assert", NULL};

    for (size_t i = 0; i + 1 < tokens; i++)
        if (is_any(i, calls) && is(i + 1, "("))
            for (size_t j = i, end = match(i + 1); j <= end; j++)
                token[j].counts = true;
}

/* Changes --------------------------------------------------------------- */

/* Puts text in place of the tokens from one to another; %s in it is what they
 * were. */
static void add(size_t from, size_t to, const char *text)
{
    const size_t begin = token[from].begin, end = token[to].end;
    struct change *next = &change[changes];
    char was[400];

    if (token[from].counts)
        return;
    if (changes == CHANGES_MAX)
        fail("too many changes");
    if (end - begin >= sizeof was)
        fail("too long a condition");
    snprintf(was, sizeof was, "%.*s", (int)(end - begin), source + begin);
    next->begin = begin;
    next->end = end;
    next->line = token[from].line;
    snprintf(next->text, sizeof next->text, text, was);
    for (size_t i = 0; i < changes; i++) /* found before */
        if (change[i].begin == begin && change[i].end == end
            && strcmp(change[i].text, next->text) == 0)
            return;
    changes++;
}

static void add_condition(size_t from, size_t to)
{
    add(from, to, "!(%s)");
    add(from, to, "1");
    add(from, to, "0");
}

/* Whether an operand ends at this token: at what binds looser than && (tight)
 * or than ||. */
static bool bounds(size_t i, bool tight)
{
    static const char *const loose[] = {"||", "?", ":", ",", ";", "=", "|=",
                                        "&=", "+=", "-=", "return", NULL};

    return is_any(i, loose) || (tight && is(i, "&&"));
}

static size_t operand_begin(size_t i, bool tight)
{
    unsigned depth = 0;

    while (i > 0) {
        if (depth == 0 && (opens(i - 1) || bounds(i - 1, tight)))
            break;
        i--;
        depth += closes(i);
        depth -= opens(i);
    }
    return i;
}

static size_t operand_end(size_t i, bool tight)
{
    while (i + 1 < tokens && !closes(i + 1) && !bounds(i + 1, tight))
        i = opens(i + 1) ? match(i + 1) : i + 1;
    return i;
}

static void change_conditions(size_t i)
{
    if ((is(i, "if") || is(i, "while")) && is(i + 1, "("))
        add_condition(i + 2, match(i + 1) - 1);
    if (is(i, "for") && is(i + 1, "(")) {
        size_t from = i + 2;
        while (!is(from, ";"))
            from = opens(from) ? match(from) + 1 : from + 1;
        size_t to = ++from;
        while (!is(to, ";"))
            to = opens(to) ? match(to) + 1 : to + 1;
        if (from < to)
            add_condition(from, to - 1);
    }
    if (is(i, "?"))
        add_condition(operand_begin(i, false), i - 1);
    if (is(i, "&&") || is(i, "||")) {
        const bool tight = is(i, "&&");
        const size_t left = operand_begin(i, tight);
        const size_t right = operand_end(i, tight);
        add(left, i - 1, "1");
        add(left, i - 1, "0");
        add(i + 1, right, "1");
        add(i + 1, right, "0");
        add(i, i, tight ? "||" : "&&");
    }
    if (is(i, "!"))
        add(i, i, "");
}

static void change_operator(size_t i)
{
    static const char *const pairs[][2] = {
        {"<", "<="},  {"<=", "<"},  {">", ">="},  {">=", ">"},  {"==", "!="},
        {"!=", "=="}, {"+", "-"},   {"-", "+"},   {"/", "*"},   {"%", "/"},
        {"<<", ">>"}, {">>", "<<"}, {"|", "&"},   {"|=", "&="}, {"|=", "="},
        {"&=", "|="}, {"+=", "-="}, {"-=", "+="}, {"++", "--"}, {"--", "++"}};
    static const char *const starts[] = {"(", ",", "=", "return", "?", ":", "[",
                                         "{", "<", "==", NULL};
    const bool prefix = i == 0 || is_any(i - 1, starts);

    for (size_t p = 0; p < sizeof pairs / sizeof *pairs; p++)
        if (is(i, pairs[p][0]) && !(prefix && is(i, "-")))
            add(i, i, pairs[p][1]);
    /* & between two operands, not an address. */
    if (is(i, "&") && i > 0
        && (token[i - 1].word || is(i - 1, ")") || is(i - 1, "]")
            || token[i - 1].number))
        add(i, i, "|");
}

static void change_number(size_t i)
{
    if (!token[i].number)
        return;
    add(i, i, "(%s + 1)");
    add(i, i, "(%s - 1)");
}

/* A statement that is an expression, a break or a continue, from its first
 * token; case labels. */
static void change_statement(size_t i)
{
    static const char *const others[] = {
        "if", "for", "while", "do", "switch", "return", "else", "case",
        "default", "const", "struct", "static", "unsigned", "enum", "goto",
        "uint8_t", "uint16_t", "uint32_t", "uint64_t", "size_t", "bool",
        "char", "FILE", "int", "wide", "typedef", NULL};
    const bool after = is(i - 1, ";") || is(i - 1, "{") || is(i - 1, "}")
        || is(i - 1, ")") || is(i - 1, "else") || is(i - 1, ":");

    if (is(i, "case")) {
        size_t end = i;
        while (!is(end, ":"))
            end++;
        add(i, end, "");
    }
    if (!after || is_any(i, others) || is(i, "{") || is(i, "}") || is(i, ";")
        || is(i, ")") || (!token[i].word && !is(i, "*") && !is(i, "++")))
        return;
    if (is(i - 1, ")")) { /* only behind if, for, while */
        size_t open = i - 1;
        unsigned depth = 0;
        for (;; open--) {
            depth += closes(open);
            depth -= opens(open);
            if (depth == 0)
                break;
        }
        if (!is(open - 1, "if") && !is(open - 1, "for")
            && !is(open - 1, "while"))
            return;
    }
    if (is(i - 1, ":") && !is(i, "break")) { /* behind a label, not in ?: */
        size_t back = i - 1;
        while (!is(back, ";") && !is(back, "{") && !is(back, "?"))
            back--;
        if (is(back, "?"))
            return;
    }
    size_t end = i;
    while (end < tokens && !is(end, ";")) {
        if (closes(end))
            return;
        end = opens(end) ? match(end) + 1 : end + 1;
    }
    add(i, end, ";");
}

/* From the brace that opens a function's body to the one that closes it. */
static void change_body(size_t from, size_t to)
{
    for (size_t i = from + 1; i < to; i++) {
        change_conditions(i);
        change_operator(i);
        change_number(i);
        change_statement(i);
    }
}

static bool in_for_head(size_t begin, size_t end)
{
    for (size_t i = 0; i < tokens; i++)
        if (is(i, "for") && is(i + 1, "(") && token[i + 1].begin < begin
            && token[match(i + 1)].begin >= end)
            return true;
    return false;
}

static void find_changes(void)
{
    static const char *const bodiless[] = {"struct", "enum", "union", NULL};

    for (size_t i = 0; i < tokens; i++) {
        if (is(i, "(")) {
            i = match(i);
            if (is(i + 1, "{")) {
                const size_t end = match(i + 1);
                change_body(i + 1, end);
                i = end;
            }
        } else if (is_any(i, bodiless)) {
            /* The values of an enum's names are numbers like any other. */
            const bool values = is(i, "enum");
            while (i < tokens && !is(i, "{") && !is(i, ";") && !is(i, "(")
                   && !is(i, "=") && !is(i, "*"))
                i++;
            if (is(i, "{")) {
                const size_t end = match(i);
                for (size_t j = i; values && j < end; j++)
                    change_number(j);
                i = end;
            } else {
                i--;
            }
        } else if (is(i, "=") && is(i + 1, "{")) {
            const size_t end = match(i + 1);
            for (size_t j = i; j < end; j++)
                change_number(j);
            i = end;
        }
    }
}

static void show(size_t begin, size_t end)
{
    bool blank = false;

    for (size_t i = begin; i < end; i++) {
        const bool space = isspace((unsigned char)source[i]);
        if (!space || !blank)
            putchar(space ? ' ' : source[i]);
        blank = space;
    }
}

static void list_change(size_t i)
{
    const struct change *one = &change[i];
    size_t column = 1;

    while (column <= one->begin && source[one->begin - column] != '\n')
        column++;
    printf("%zu %u:%zu `", i + 1, one->line, column);
    show(one->begin, one->end);
    if (one->text[0] == '\0' || strcmp(one->text, ";") == 0) {
        printf("` left out");
    } else {
        printf("` becomes `");
        for (const char *at = one->text; *at != '\0'; at++)
            if (!isspace((unsigned char)*at) || !isspace((unsigned char)at[1]))
                putchar(isspace((unsigned char)*at) ? ' ' : *at);
        printf("`");
    }
    putchar('\n');
}

int main(int argc, char **argv)
{
    FILE *file;

    if (argc != 2 && argc != 3) {
        fprintf(stderr, "usage: mutate FILE [NUMBER]\n");
        return 2;
    }
    if (!(file = fopen(argv[1], "rb"))) {
        perror(argv[1]);
        return 2;
    }
    length = fread(source, 1, SOURCE_MAX, file);
    if (ferror(file) || length == SOURCE_MAX)
        fail("cannot read the source");
    fclose(file);
    scan();
    mark_counting();
    find_changes();
    /* Statements found in a head of `for` are none. */
    size_t kept = 0;
    for (size_t i = 0; i < changes; i++)
        if (strcmp(change[i].text, ";") != 0
            || !in_for_head(change[i].begin, change[i].end))
            change[kept++] = change[i];
    changes = kept;

    if (argc == 2) {
        for (size_t i = 0; i < changes; i++)
            list_change(i);
        return 0;
    }
    const unsigned long number = strtoul(argv[2], NULL, 10);
    if (number < 1 || number > changes)
        fail("no such change");
    const struct change *one = &change[number - 1];
    fwrite(source, 1, one->begin, stdout);
    fputs(one->text, stdout);
    fwrite(source + one->end, 1, length - one->end, stdout);
    return fflush(stdout) != 0;
}
