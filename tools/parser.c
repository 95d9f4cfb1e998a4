/* A plain parser of the same grammar, which tools/measure runs beside the program: recursive descent over an array of tokens,
   nodes in an arena, names as pieces of the source. It reads the code of literate files, tells the seconds of processor time that
   tokens and tree took, and how many nodes there are or at which token it stopped. */
#include <ctype.h>
#include <stdio.h>
#include <stdlib.h>
#include <string.h>
#include <time.h>

enum { END, UPPER, LOWER, INT, DEC, MONEY, DATE, SYMBOL, WORD };
static const char *const WORDS[] = {
    "declaration", "scope", "structure", "enumeration", "data", "content", "input", "output", "internal", "context", "condition",
    "definition", "rule", "equals", "consequence", "fulfilled", "not", "assertion", "label", "exception", "of", "if", "then", "else",
    "match", "with", "anything", "and", "or", "xor", "true", "false", "boolean", "integer", "decimal", "money", "date", "duration",
    "year", "month", "day", "increasing", "decreasing", "among", "exists", "sum", "to", "in", "initially", "contains", "get_year",
    "get_month", "get_day", "under condition", "depends on", "list of", "for all", "we have", "such that", "number of", "map each",
    "combine all", "with pattern", "date round", "round of", "output of", 0};
enum {
    DECLARATION = WORD, SCOPE, STRUCTURE, ENUMERATION, DATA, CONTENT, INPUT, OUTPUT, INTERNAL, CONTEXT, CONDITION, DEFINITION, RULE,
    EQUALS, CONSEQUENCE, FULFILLED, NOT, ASSERTION, LABEL, EXCEPTION, OF, IF, THEN, ELSE, MATCH, WITH, ANYTHING, AND, OR, XOR, TRUE_,
    FALSE_, BOOLEAN, INTEGER, DECIMAL, MONEY_, DATE_, DURATION, YEAR, MONTH, DAY, INCREASING, DECREASING, AMONG, EXISTS, SUM, TO, IN,
    INITIALLY, CONTAINS, GET_YEAR, GET_MONTH, GET_DAY, UNDER_CONDITION, DEPENDS_ON, LIST_OF, FOR_ALL, WE_HAVE, SUCH_THAT, NUMBER_OF,
    MAP_EACH, COMBINE_ALL, WITH_PATTERN, DATE_ROUND, ROUND_OF, OUTPUT_OF, LESS_EQUAL, GREATER_EQUAL, NOT_EQUAL, DASHES
};
/* a symbol of one character has the kind 256 and its character */
#define SIGN(c) (256u + (unsigned)(c))
typedef struct { unsigned kind, line, column, length; const char *text; long long value; } Token;
typedef struct Node { struct Node *parts, *next; const Token *at, *name; unsigned short form, height, strength, in_match; } Node;

static Token *tokens, *here;
static size_t count, nodes;
static clock_t lexed;

static void *room(size_t size) {
    static char *at, *end;
    if ((size_t)(end - at) < size) {
        at = malloc(1 << 20);
        if (!at) exit(2);
        end = at + (1 << 20);
    }
    at += size;
    return at - size;
}

static int told(void) {
    printf("nodes %zu %.6f\n", nodes, (double)(clock() - lexed) / CLOCKS_PER_SEC);
    return 0;
}

static void stop(const char *why) {
    int status = told();
    printf("%s %zu\n", why, (size_t)(here - tokens));
    exit(status + 1);
}

/* ---- tokens */

static void add(unsigned kind, const char *text, size_t length, unsigned line, unsigned column, long long value) {
    static size_t most;
    if (count == most) tokens = realloc(tokens, (most = most ? 2 * most : 1 << 16) * sizeof *tokens);
    tokens[count++] = (Token){kind, line, column, (unsigned)length, text, value};
}

static unsigned short table[1 << 12];
static unsigned hash(const char *s, size_t n) {
    unsigned h = 5381;
    while (n--) h = h * 33 + (unsigned char)*s++;
    return h & ((1 << 12) - 1);
}

static unsigned word_kind(const char *s, size_t n) {
    for (unsigned h = hash(s, n); table[h]; h = (h + 1) & ((1 << 12) - 1))
        if (strlen(WORDS[table[h] - 1]) == n && !memcmp(WORDS[table[h] - 1], s, n)) return WORD + table[h] - 1;
    return 0;
}

static void fill(void) {
    for (int k = 0; WORDS[k]; k++) {
        unsigned h = hash(WORDS[k], strlen(WORDS[k]));
        while (table[h]) h = (h + 1) & ((1 << 12) - 1);
        table[h] = (unsigned short)(k + 1);
    }
}

static size_t word_end(const char *s, size_t at) {
    while (isalnum((unsigned char)s[at]) || s[at] == '_' || (s[at] & 0x80)) at++;
    return at;
}

static void piece(const char *s, const char *end, unsigned line) {
    const char *start = s;
    while (s < end) {
        unsigned column = (unsigned)(s - start) + 1;
        if (*s == '\n') { line++; start = ++s; continue; }
        if (*s == ' ' || *s == '\t' || *s == '\r') { s++; continue; }
        if (*s == '#') { while (s < end && *s != '\n') s++; continue; }
        if (isalpha((unsigned char)*s) || (*s & 0x80)) {
            size_t n = word_end(s, 0), m = n;
            unsigned kind = 0;
            while (s[m] == ' ' || s[m] == '\n' || s[m] == '\t' || s[m] == '\r') m++;
            if (m > n && islower((unsigned char)s[m])) {
                size_t e = word_end(s, m);
                char both[40];
                if (n + e - m + 1 < sizeof both) {
                    memcpy(both, s, n);
                    both[n] = ' ';
                    memcpy(both + n + 1, s + m, e - m);
                    kind = word_kind(both, n + 1 + e - m);
                    if (kind) {
                        add(kind, s, e, line, column, 0);
                        for (size_t k = 0; k < e; k++) if (s[k] == '\n') { line++; start = s + k + 1; }
                        s += e;
                        continue;
                    }
                }
            }
            kind = isupper((unsigned char)*s) ? UPPER : word_kind(s, n);
            add(kind ? kind : LOWER, s, n, line, column, 0);
            s += n;
            continue;
        }
        if (isdigit((unsigned char)*s) || *s == '$' || *s == '|') {
            const char *e = s + 1;
            unsigned kind = *s == '$' ? MONEY : *s == '|' ? DATE : INT;
            long long value = isdigit((unsigned char)*s) ? *s - '0' : 0;
            if (kind == DATE) { while (*e != '|') e++; e++; }
            else {
                for (; isdigit((unsigned char)*e) || (kind == MONEY && *e == ','); e++) if (*e != ',') value = value * 10 + *e - '0';
                if (*e == '.' && isdigit((unsigned char)e[1])) {
                    kind = kind == INT ? DEC : kind;
                    for (e++; isdigit((unsigned char)*e); e++) value = value * 10 + *e - '0';
                }
                if (*e == '%') { kind = DEC; e++; }
            }
            add(kind, s, (size_t)(e - s), line, column, value);
            s = e;
            continue;
        }
        unsigned two = s[1] == '=' && *s == '<' ? LESS_EQUAL : s[1] == '=' && *s == '>' ? GREATER_EQUAL
            : s[1] == '=' && *s == '!' ? NOT_EQUAL : s[0] == '-' && s[1] == '-' ? DASHES : 0;
        add(two ? two : SIGN(*s), s, two ? 2 : 1, line, column, 0);
        s += two ? 2 : 1;
    }
}

static void source(char *text) {
    unsigned line = 1;
    for (char *s = text; *s;) {
        char *end = strchr(s, '\n');
        size_t n = end ? (size_t)(end - s) : strlen(s);
        char *next = end ? end + 1 : s + n;
        line++;
        if (n >= 10 && !memcmp(s, "```catala", 9)) n = 9;
        if (n == 9 && !memcmp(s, "```catala", 9)) {
            char *stop = strstr(next, "\n```");
            if (!stop) return;
            stop++;
            piece(next, stop, line);
            for (char *k = next; k < stop; k++) line += *k == '\n';
            next = strchr(stop, '\n');
            next = next ? next + 1 : stop + strlen(stop);
            line++;
        }
        s = next;
    }
}

/* ---- the tree */

static const Token *take(unsigned kind) {
    if (here->kind != kind) stop("unexpected");
    return here++;
}

static const Token *taken(unsigned kind) { return here->kind == kind ? here++ : 0; }

enum { NAME = 1, LITERAL, CASE, PARENS, FIELD, PREFIXED, SUMMED, CONTENTS, CALL, BINARY, TEST, LIST, STRUCT, SCOPE_CALL, CHOICE,
    MATCHED, EACH, COMBINE, ARM, VALUE, TYPE, VARIABLE, USE, BLOCK, ITEM };

static Node *node(unsigned form, const Token *at, const Token *name, unsigned height, unsigned strength) {
    Node *n = room(sizeof *n);
    if (height > 256) stop("too deep");
    nodes++;
    *n = (Node){0, 0, at, name, (unsigned short)form, (unsigned short)height, (unsigned short)strength, 0};
    return n;
}

static Node *expression(unsigned level);
static unsigned taller(unsigned a, unsigned b) { return a > b ? a : b; }

/* one with a part; `last` tells that it ends in it */
static Node *over(unsigned form, const Token *at, const Token *name, unsigned level, Node *part, int last) {
    Node *n = node(form, at, name, part->height + 1u, last && !part->strength ? 0 : level);
    n->parts = part;
    n->in_match = last && part->in_match;
    return n;
}

static Node *several(Node *n, unsigned level, unsigned between) {
    Node **end = &n->parts;
    unsigned tallest = 0;
    do {
        Node *part = expression(level);
        tallest = taller(tallest, part->height);
        *end = part;
        end = &part->next;
    } while (taken(between));
    if (tallest >= 256) stop("too deep");
    n->height = (unsigned short)(tallest + 1);
    return n;
}

static Node *fields(Node *n, int one) {
    Node **end = &n->parts;
    unsigned tallest = 0;
    take(SIGN('{'));
    while (here->kind == DASHES || one) {
        one = 0;
        take(DASHES);
        const Token *name = take(LOWER);
        take(SIGN(':'));
        Node *value = expression(0), *field = over(VALUE, name, name, 9, value, 0);
        tallest = taller(tallest, value->height);
        *end = field;
        end = &field->next;
    }
    take(SIGN('}'));
    if (tallest >= 256) stop("too deep");
    n->height = (unsigned short)(tallest + 1);
    return n;
}

static const Token *case_name(void) {
    const Token *name = take(UPPER);
    if (here->kind == SIGN('.') && here[1].kind == UPPER) { here++; return here++; }
    return name;
}

static const Token *type(void) {
    while (taken(LIST_OF)) {}
    if (here->kind == UPPER || (here->kind >= BOOLEAN && here->kind <= DURATION)) return here++;
    stop("unexpected");
    return 0;
}

static Node *form(const Token *at, unsigned tallest, Node *first, Node *last) {
    Node *n = node(CHOICE, at, 0, taller(tallest, last->height) + 1, 0);
    Node **end = &first;
    while (*end) end = &(*end)->next;
    *end = last;
    n->parts = first;
    n->in_match = last->in_match;
    return n;
}

static Node *matched(const Token *at) {
    Node *value = expression(0), **end = &value->next;
    unsigned tallest = value->height, in_match = 0;
    take(WITH_PATTERN);
    do {
        take(DASHES);
        const Token *name = taken(ANYTHING);
        if (!name) { name = case_name(); if (taken(OF)) take(LOWER); }
        take(SIGN(':'));
        Node *body = expression(0), *arm = over(ARM, name, name, 0, body, 1);
        tallest = taller(tallest, body->height);
        in_match = body->in_match;
        *end = arm;
        end = &arm->next;
    } while (!in_match && here->kind == DASHES && here[1].kind != LOWER);
    Node *n = node(MATCHED, at, 0, tallest + 1, 0);
    n->parts = value;
    n->in_match = 1;
    return n;
}

static Node *worded(const Token *at) {
    Node *a, *b;
    switch (at->kind) {
    case IF:
        a = expression(0);
        take(THEN);
        b = expression(0);
        a->next = b;
        take(ELSE);
        return form(at, taller(a->height, b->height), a, expression(0));
    case MATCH:
        return matched(at);
    case SUM:
        type();
        take(OF);
        return over(SUMMED, at, 0, 8, expression(8), 1);
    default:
        take(LOWER);
        take(AMONG);
        a = expression(0);
        if (at->kind == COMBINE_ALL) {
            take(IN);
            take(LOWER);
            take(INITIALLY);
            b = expression(0);
            a->next = b;
            take(WITH);
            return form(at, taller(a->height, b->height), a, expression(0));
        }
        take(at->kind == FOR_ALL ? WE_HAVE : at->kind == MAP_EACH ? TO : SUCH_THAT);
        return form(at, a->height, a, expression(0));
    }
}

static Node *primary(unsigned level) {
    const Token *at = here++, *name;
    Node *n;
    switch (at->kind) {
    case INT:
        if (at->value <= 999999999 && here->kind >= YEAR && here->kind <= DAY) here++;
        return node(LITERAL, at, 0, 1, 9);
    case DEC: case MONEY: case DATE: case TRUE_: case FALSE_:
        return node(LITERAL, at, 0, 1, 9);
    case LOWER:
        if (level <= 8 && taken(OF)) return several(node(CALL, at, at, 1, 8), 9, SIGN(','));
        return node(NAME, at, at, 1, 9);
    case UPPER:
        if (here->kind == SIGN('{')) return fields(node(STRUCT, at, at, 1, 9), 1);
        name = at;
        if (here->kind == SIGN('.') && here[1].kind == UPPER) { here++; name = here++; }
        if (level <= 8 && taken(CONTENT)) return over(CONTENTS, at, name, 8, expression(8), 1);
        return node(CASE, at, name, 1, 9);
    case SIGN('('):
        n = over(PARENS, at, 0, 9, expression(0), 0);
        take(SIGN(')'));
        return n;
    case SIGN('['):
        n = node(LIST, at, 0, 1, 9);
        if (taken(SIGN(']'))) return n;
        several(n, 0, SIGN(';'));
        take(SIGN(']'));
        return n;
    case OUTPUT_OF:
        name = take(UPPER);
        take(WITH);
        n = fields(node(SCOPE_CALL, at, name, 1, 9), 0);
        take(SIGN('.'));
        take(LOWER);
        return n;
    case NOT:
        if (level <= 3) return over(PREFIXED, at, 0, 3, expression(3), 1);
        break;
    case SIGN('-'):
        if (level <= 7) return over(PREFIXED, at, 0, 7, expression(7), 1);
        break;
    case INTEGER: case DECIMAL: case MONEY_: case GET_YEAR: case GET_MONTH: case GET_DAY:
        if (level > 8) break;
        take(OF);
        return over(PREFIXED, at, 0, 8, expression(8), 1);
    case ROUND_OF: case NUMBER_OF:
        if (level <= 8) return over(PREFIXED, at, 0, 8, expression(8), 1);
        break;
    case IF: case MATCH: case SUM: case FOR_ALL: case EXISTS: case MAP_EACH: case LIST_OF: case COMBINE_ALL:
        if (level <= 8) return worded(at);
        break;
    }
    here--;
    stop("unexpected");
    return 0;
}

/* the level of the operator, and the least one of its left operand */
static unsigned operator_level(unsigned kind, unsigned *left) {
    switch (kind) {
    case OR: case XOR: *left = 1; return 1;
    case AND: *left = 2; return 2;
    case SIGN('+'): case SIGN('-'): *left = 5; return 5;
    case SIGN('*'): case SIGN('/'): *left = 6; return 6;
    case SIGN('<'): case SIGN('>'): case SIGN('='): case LESS_EQUAL: case GREATER_EQUAL: case NOT_EQUAL: case CONTAINS:
        *left = 5;
        return 4;
    }
    return 0;
}

static Node *expression(unsigned level) {
    Node *left = primary(level);
    for (;;) {
        unsigned least = 0, binds = operator_level(here->kind, &least);
        if (binds && binds >= level && left->strength >= least) {
            const Token *at = here++;
            Node *right = expression(binds + 1), *n = node(BINARY, at, 0, taller(left->height, right->height) + 1, right->strength ? binds : 0);
            left->next = right;
            n->parts = left;
            n->in_match = right->in_match;
            left = n;
        } else if (here->kind == SIGN('.') && left->strength == 9) {
            const Token *at = here++;
            left = over(FIELD, at, take(LOWER), 9, left, 0);
        } else if (here->kind == WITH_PATTERN && level <= 4 && left->strength >= 5 && here[1].kind != DASHES) {
            const Token *at = here++;
            left = over(TEST, at, case_name(), 4, left, 0);
        } else
            return left;
    }
}

/* ---- programs */

static void typed(Node *n) {
    (void)n;
    take(LOWER);
    take(CONTENT);
    type();
}

static Node *variable(void) {
    const Token *at = here;
    if (taken(LOWER)) { take(SCOPE); return node(VARIABLE, at, take(UPPER), 1, 9); }
    if (taken(INPUT) || taken(CONTEXT)) taken(OUTPUT);
    else if (!taken(OUTPUT)) take(INTERNAL);
    Node *n = node(VARIABLE, at, take(LOWER), 1, 9);
    if (!taken(CONDITION)) { take(CONTENT); type(); }
    if (taken(DEPENDS_ON)) do typed(n); while (taken(SIGN(',')));
    return n;
}

static Node *declaration(const Token *at) {
    const Token *what = here++, *name;
    Node *n, **end;
    if (what->kind != STRUCTURE && what->kind != ENUMERATION && what->kind != SCOPE) { here--; stop("unexpected"); }
    name = take(UPPER);
    take(SIGN(':'));
    n = node(ITEM, at, name, 1, 9);
    end = &n->parts;
    if (what->kind == STRUCTURE) do { take(DATA); Node *f = node(VARIABLE, here, here, 1, 9); typed(f); *end = f; end = &f->next; }
        while (here->kind == DATA);
    else if (what->kind == ENUMERATION) do {
        take(DASHES);
        Node *f = node(VARIABLE, here, take(UPPER), 1, 9);
        if (taken(CONTENT)) type();
        *end = f;
        end = &f->next;
    } while (here->kind == DASHES);
    else while (here->kind == LOWER || (here->kind >= INPUT && here->kind <= CONTEXT)) {
        Node *f = variable();
        *end = f;
        end = &f->next;
    }
    return n;
}

static Node *use(void) {
    Node *n = node(USE, here, 0, 1, 9);
    if (taken(ASSERTION)) { n->parts = expression(0); return n; }
    if (taken(DATE_ROUND)) { if (!taken(INCREASING)) take(DECREASING); return n; }
    if (taken(LABEL)) take(LOWER);
    if (taken(EXCEPTION)) taken(LOWER);
    const Token *form = taken(RULE);
    if (!form) take(DEFINITION);
    n->name = take(LOWER);
    if (taken(SIGN('.'))) take(LOWER);
    if (taken(OF)) do take(LOWER); while (taken(SIGN(',')));
    if (taken(UNDER_CONDITION)) { n->parts = expression(0); take(CONSEQUENCE); }
    if (form) { taken(NOT); take(FULFILLED); return n; }
    take(EQUALS);
    Node *body = expression(0);
    if (n->parts) n->parts->next = body; else n->parts = body;
    return n;
}

static Node *block(void) {
    const Token *at = take(SCOPE);
    Node *n = node(BLOCK, at, take(UPPER), 1, 9), **end = &n->parts;
    if (taken(UNDER_CONDITION)) { n->parts = expression(0); end = &n->parts->next; }
    take(SIGN(':'));
    while (here->kind == LABEL || here->kind == EXCEPTION || here->kind == DEFINITION || here->kind == RULE || here->kind == ASSERTION
           || here->kind == DATE_ROUND) {
        Node *u = use();
        *end = u;
        end = &u->next;
    }
    return n;
}

int main(int argc, char **argv) {
    clock_t begun = clock();
    fill();
    for (int k = 1; k < argc; k++) {
        FILE *file = fopen(argv[k], "rb");
        if (!file) return 2;
        fseek(file, 0, SEEK_END);
        long size = ftell(file);
        rewind(file);
        char *text = malloc((size_t)size + 1);
        if (!text || fread(text, 1, (size_t)size, file) != (size_t)size) return 2;
        text[size] = 0;
        source(text);
    }
    add(END, "", 0, 0, 0, 0);
    lexed = clock();
    here = tokens;
    printf("tokens %zu %.6f\n", count - 1, (double)(lexed - begun) / CLOCKS_PER_SEC);
    static Node *first, **end = &first;
    size_t items = 0;
    while (here->kind == DECLARATION || here->kind == SCOPE) {
        const Token *at = taken(DECLARATION);
        *end = at ? declaration(at) : block();
        end = &(*end)->next;
        items++;
    }
    if (here->kind != END) stop("unexpected");
    return told();
}
