/* A plain interpreter of listings, which tools/measure runs beside the program: one loop around a switch, values that are copied at
   each use, lists and structures in room that only grows. It tests each number that it looks up, the depth of each stack that it
   pops and the kind of each value that it takes. It reads the listing whose file is named and, from standard input, the input of the
   scope that is named; it writes the line of the outcome, the number of steps, and how many nanoseconds of processor time each took.
   It has all instructions and operators: 128 bits have room for each product of two numbers. Of two forms that were tried this is the
   faster: with a node for each value in a vector that only grows, as the program has them, a step took up to two fifths more. */
#include <ctype.h>
#include <jansson.h>
#include <stdint.h>
#include <stdio.h>
#include <stdlib.h>
#include <string.h>
#include <time.h>

typedef __int128 Wide;
typedef unsigned __int128 Natural;
typedef enum { NOTHING, TRUTH, INTEGER, DECIMAL, MONEY, DATE, DURATION, LIST, STRUCTURE, CASE } Kind;
static const char *const KINDS[] = {"condition", "boolean", "integer", "decimal", "money", "date", "duration", 0};
typedef struct Value {
    uint32_t kind, number; /* the number of a case, or of parts */
    union {
        int64_t n; /* 0 or 1, a number, cents, days behind 1970-01-01 */
        struct { int64_t top, bottom; };
        struct { int64_t months, days; };
        struct Value *parts; /* of a case its content */
    };
} Value;
typedef struct { Kind kind; uint32_t lists; size_t number; } Type;
typedef struct { char *name, *word, *spelled; Type type; } Part; /* a field, a case or an item, whose kind is the word */
typedef struct { char *name; size_t entry, from, end; } Declared;
typedef struct { uint32_t name, a, b, c; } Instruction;
typedef struct { size_t slots, locals, place; } Frame;
typedef struct { const Value *at, *end; size_t base; int collects; } Loop;
typedef struct { uint32_t definition; Value value; } Held;
/* how a run ends: with a structure of outputs where there is no word, and else at a target or a position */
typedef struct { const char *word; uint32_t number; uint64_t steps; Value outputs; } Outcome;

/* what grows at its end */
#define GROWING(type, name) static type *name; static size_t name##_count, name##_room
#define PUSH(name, ...) do { \
        if (name##_count == name##_room) { \
            name##_room = name##_room ? 2 * name##_room : 64; \
            if (!(name = realloc(name, name##_room * sizeof *name))) stuck("memory"); \
        } \
        name[name##_count++] = (__VA_ARGS__); \
    } while (0)
/* what no listing of the program comes to */
#define WANTED(test) do { if (!(test)) stuck(#test); } while (0)
#define POP(name) (name##_count ? name[--name##_count] : (stuck(#name), name[0]))
#define TOP(name) (name##_count ? &name[name##_count - 1] : (stuck(#name), name))

GROWING(char *, files);
GROWING(Declared, structures);
GROWING(Part, fields);
GROWING(Declared, enumerations);
GROWING(Part, cases);
GROWING(Declared, scopes);
GROWING(Part, items);
GROWING(char *, targets);
GROWING(char *, definitions);
GROWING(size_t, functions);
GROWING(char *, positions);
GROWING(char *, spelled_constants);
GROWING(Value, constants);
GROWING(Instruction, code);
GROWING(Value, operands);
GROWING(Value, slots);
GROWING(Value, locals);
GROWING(Value, collected);
GROWING(Loop, loops);
GROWING(Held, held);
GROWING(size_t, defaults); /* of each default frame, where in `held` it begins */
GROWING(Frame, pending);   /* of each pending frame its slots, and in place of a place the scope's number */
GROWING(Frame, frames);

_Noreturn static void stuck(const char *what) {
    printf("stuck: %s\n", what);
    exit(3);
}

_Noreturn static void refuse(const char *what) {
    printf("input refused: %s\n", what);
    exit(4);
}

static Value *room(size_t count) {
    static Value *at, *end;
    if ((size_t)(end - at) < count) {
        size_t most = count > 1 << 15 ? count : 1 << 15;
        if (!(at = malloc(most * sizeof *at))) stuck("memory");
        end = at + most;
    }
    at += count;
    return at - count;
}

static Value plain(Kind kind, int64_t n) { return (Value){.kind = kind, .n = n}; }

/* a list or a structure of copies of these */
static Value made(Kind kind, const Value *parts, size_t count) {
    Value whole = {.kind = kind, .number = (uint32_t)count, .parts = room(count)};
    if (count) memcpy(whole.parts, parts, count * sizeof *parts);
    return whole;
}

/* ---- numbers and dates; each gives the name of a fault, or none */

static int fits(Wide n) { return n >= -INT64_MAX && n <= INT64_MAX; }

static const char *whole(Value *result, Kind kind, Wide n) {
    result->kind = kind;
    result->n = (int64_t)n;
    return fits(n) ? 0 : "Overflow";
}

static Natural size_of(Wide n) { return n < 0 ? -(Natural)n : (Natural)n; }

static uint64_t common(uint64_t a, uint64_t b) {
    while (b) { uint64_t rest = a % b; a = b; b = rest; }
    return a;
}

static Natural wide_common(Natural a, Natural b) {
    while (b >> 64) { Natural rest = a % b; a = b; b = rest; }
    return b ? common((uint64_t)b, (uint64_t)(a % b)) : a;
}

/* a decimal in lowest terms, by 64 bits where they have room */
static const char *ratio(Value *result, Wide top, Wide bottom) {
    if (!bottom) return "DivisionByZero";
    if (bottom < 0) { top = -top; bottom = -bottom; }
    if (bottom > 1 && fits(top) && fits(bottom)) {
        int64_t by = (int64_t)common((uint64_t)size_of(top), (uint64_t)bottom);
        top = (int64_t)top / by;
        bottom = (int64_t)bottom / by;
    } else if (bottom > 1) {
        Wide by = (Wide)wide_common(size_of(top), size_of(bottom));
        top /= by;
        bottom /= by;
    }
    *result = (Value){.kind = DECIMAL, .top = (int64_t)top, .bottom = (int64_t)bottom};
    return fits(top) && fits(bottom) ? 0 : "Overflow";
}

/* the nearest whole number, a half away from zero */
static Wide nearest(Wide top, Wide bottom) {
    if (bottom < 0) { top = -top; bottom = -bottom; }
    Natural size = size_of(top), by = (Natural)bottom;
    Wide n = size >> 64 || by >> 64 ? (Wide)(size / by) : (Wide)((uint64_t)size / (uint64_t)by);
    Natural rest = size - (Natural)n * by;
    if (rest >= by - rest) n++;
    return top < 0 ? -n : n;
}

static const char *rounded(Value *result, Wide top, Wide bottom) {
    return bottom ? whole(result, MONEY, nearest(top, bottom)) : "DivisionByZero";
}

static int is_leap(int64_t year) { return year % 4 == 0 && (year % 100 != 0 || year % 400 == 0); }

static int64_t month_length(int64_t year, int64_t month) {
    return month == 2 ? 28 + is_leap(year) : 30 + ((month + month / 8) & 1);
}

/* days behind 1970-01-01, by years that begin in March */
static int64_t days_of(int64_t year, int64_t month, int64_t day) {
    int64_t y = year - (month < 3), m = (month + 9) % 12;
    return 365 * y + y / 4 - y / 100 + y / 400 + (153 * m + 2) / 5 + day - 719469;
}

static void civil(int64_t days, int64_t *year, int64_t *month, int64_t *day) {
    int64_t n = days + 719468, era = n / 146097, in_era = n % 146097;
    int64_t y = (in_era - in_era / 1460 + in_era / 36524 - in_era / 146096) / 365;
    int64_t in_year = in_era - (365 * y + y / 4 - y / 100), m = (5 * in_year + 2) / 153;
    *day = in_year - (153 * m + 2) / 5 + 1;
    *month = m < 10 ? m + 3 : m - 9;
    *year = 400 * era + y + (*month < 3);
}

static const char *moved(Value *result, int64_t from, Wide months, Wide days, uint32_t rounding) {
    int64_t year, month, day;
    civil(from, &year, &month, &day);
    months += 12 * year + month - 1;
    if (months < 12 || months >= 120000) return "Overflow";
    int64_t last = month_length((int64_t)(months / 12), (int64_t)(months % 12) + 1);
    if (day > last && !rounding) return "AmbiguousDate";
    days += day > last && rounding == 1;
    days += days_of((int64_t)(months / 12), (int64_t)(months % 12) + 1, day > last ? last : day);
    return days >= days_of(1, 1, 1) && days <= days_of(9999, 12, 31) ? whole(result, DATE, days) : "Overflow";
}

static const char *span(Value *result, Wide months, Wide days) {
    *result = (Value){.kind = DURATION, .months = (int64_t)months, .days = (int64_t)days};
    return fits(months) && fits(days) ? 0 : "Overflow";
}

/* ---- operators: the operands lie one behind the other, and the result takes the place of the first */

static int sign(Wide a, Wide b) { return (a > b) - (a < b); }

/* how two decimals or durations stand to each other; 2 where that isn't known */
static __attribute__((noinline)) int order_of(const Value *a, const Value *b) {
    if (a->kind == DECIMAL) return sign((Wide)a->top * b->bottom, (Wide)b->top * a->bottom);
    WANTED(a->kind == DURATION);
    if (!a->days && !b->days) return sign(a->months, b->months);
    return !a->months && !b->months ? sign(a->days, b->days) : 2;
}

/* of each comparison for which orders it holds: less, equal and greater from the lowest bit on */
static const unsigned char HOLDS[] = {1, 3, 4, 6, 2, 5};

static inline const char *compared(uint32_t number) {
    WANTED(operands_count >= 2);
    Value *a = &operands[--operands_count - 1], *b = a + 1;
    WANTED(a->kind == b->kind && a->kind >= (number < 34 ? INTEGER : TRUTH));
    int is_number = a->kind <= INTEGER || a->kind == MONEY || a->kind == DATE;
    int order = is_number ? (a->n > b->n) - (a->n < b->n) : order_of(a, b);
    if (order == 2) return "Uncomparable";
    a->kind = TRUTH;
    a->n = HOLDS[number - 30] >> (order + 1) & 1;
    return 0;
}

/* a sum or a difference */
static inline const char *added(Kind kind, int is_taken_off) {
    WANTED(operands_count >= 2);
    Value *a = &operands[--operands_count - 1], *b = a + 1;
    WANTED(a->kind == kind && b->kind == kind);
    int is_over = is_taken_off ? __builtin_sub_overflow(a->n, b->n, &a->n) : __builtin_add_overflow(a->n, b->n, &a->n);
    return is_over || a->n < -INT64_MAX ? "Overflow" : 0;
}

static const char *part_of_day(Value *result, uint32_t number, int64_t days) {
    int64_t parts[3];
    civil(days, &parts[0], &parts[1], &parts[2]);
    return whole(result, INTEGER, parts[number - 43]);
}

/* the kinds that an operator takes, but for those above; none on the right of what stands before one operand */
static const unsigned char TAKES[46][2] = {
    [3] = {INTEGER, INTEGER}, {INTEGER, INTEGER}, {DECIMAL, DECIMAL}, {DECIMAL, DECIMAL}, {DECIMAL, DECIMAL}, {DECIMAL, DECIMAL},
    [11] = {MONEY, DECIMAL}, {DECIMAL, MONEY}, {MONEY, INTEGER}, {INTEGER, MONEY}, {MONEY, DECIMAL}, {MONEY, INTEGER}, {MONEY, MONEY},
    {DATE, DURATION}, {DATE, DURATION}, {DATE, DATE}, {DURATION, DURATION}, {DURATION, DURATION}, {DURATION, INTEGER},
    {INTEGER}, {DECIMAL}, {MONEY}, {DURATION}, {TRUTH}, {TRUTH, TRUTH},
    [36] = {DECIMAL}, {INTEGER}, {MONEY}, {DECIMAL}, {INTEGER}, {DECIMAL}, {MONEY}, {DATE}, {DATE}, {DATE}};

static const char *operated(Value *a, const Value *b, uint32_t number, uint32_t rounding) {
    switch (number) {
    case 3: return whole(a, INTEGER, (Wide)a->n * b->n);
    case 4: case 17: return ratio(a, a->n, b->n);
    case 5: return ratio(a, (Wide)a->top * b->bottom + (Wide)b->top * a->bottom, (Wide)a->bottom * b->bottom);
    case 6: return ratio(a, (Wide)a->top * b->bottom - (Wide)b->top * a->bottom, (Wide)a->bottom * b->bottom);
    case 7: return ratio(a, (Wide)a->top * b->top, (Wide)a->bottom * b->bottom);
    case 8: return ratio(a, (Wide)a->top * b->bottom, (Wide)a->bottom * b->top);
    case 11: return rounded(a, (Wide)a->n * b->top, b->bottom);
    case 12: return rounded(a, (Wide)b->n * a->top, a->bottom);
    case 13: case 14: return whole(a, MONEY, (Wide)a->n * b->n);
    case 15: return rounded(a, (Wide)a->n * b->bottom, b->top);
    case 16: return rounded(a, a->n, b->n);
    case 18: return moved(a, a->n, b->months, b->days, rounding);
    case 19: return moved(a, a->n, -b->months, -b->days, rounding);
    case 20: return span(a, 0, (Wide)a->n - b->n);
    case 21: return span(a, (Wide)a->months + b->months, (Wide)a->days + b->days);
    case 22: return span(a, (Wide)a->months - b->months, (Wide)a->days - b->days);
    case 23: return span(a, (Wide)a->months * b->n, (Wide)a->days * b->n);
    case 24: case 26: return whole(a, a->kind, -(Wide)a->n);
    case 25: return ratio(a, -(Wide)a->top, a->bottom);
    case 27: return span(a, -(Wide)a->months, -(Wide)a->days);
    case 28: return whole(a, TRUTH, !a->n);
    case 29: return whole(a, TRUTH, a->n != b->n);
    case 36: return whole(a, INTEGER, a->top / a->bottom);
    case 37: return ratio(a, a->n, 1);
    case 38: return ratio(a, a->n, 100);
    case 39: return rounded(a, (Wide)a->top * 100, a->bottom);
    case 40: return whole(a, MONEY, (Wide)a->n * 100);
    case 41: return ratio(a, nearest(a->top, a->bottom), 1);
    case 42: return whole(a, MONEY, 100 * nearest(a->n, 100));
    case 43: case 44: case 45: return part_of_day(a, number, a->n);
    }
    stuck("an operator that isn't there");
}

static __attribute__((noinline)) const char *operate_by_kinds(const Instruction *now) {
    WANTED(now->a <= 45 && TAKES[now->a][0]);
    const unsigned char *takes = TAKES[now->a];
    const size_t count = takes[1] ? 2 : 1;
    WANTED(operands_count >= count);
    operands_count -= count - 1;
    Value *a = &operands[operands_count - 1], *b = a + 1;
    WANTED(a->kind == takes[0] && (count == 1 || b->kind == takes[1]));
    return operated(a, b, now->a, now->b);
}

static inline const char *operate(const Instruction *now) {
    switch (now->a) {
    case 1: return added(INTEGER, 0);
    case 2: return added(INTEGER, 1);
    case 9: return added(MONEY, 0);
    case 10: return added(MONEY, 1);
    case 30: case 31: case 32: case 33: case 34: case 35: return compared(now->a);
    default: return operate_by_kinds(now);
    }
}

/* ---- the machine */

static const char *const NAMES[] = {
    "const", "slot", "local", "store", "bind", "drop", "given", "jump", "jumpfalse", "op", "pack", "list", "field", "tag", "tagnone",
    "iscase", "content", "length", "iter", "iterlist", "next", "collect", "leave", "call", "scope", "pass", "enter", "return", "begin",
    "hold", "merge", "check", "held", "take", "novalue", "assert", 0};
enum {
    CONST, SLOT, LOCAL, STORE, BIND, DROP, GIVEN, JUMP, JUMPFALSE, OP, PACK, LIST_OF, FIELD, TAG, TAGNONE, ISCASE, CONTENT, LENGTH, ITER,
    ITERLIST, NEXT, COLLECT, LEAVE, CALL, SCOPE, PASS, ENTER, RETURN, BEGIN, HOLD, MERGE, CHECK, HELD, TAKE, NOVALUE, ASSERT
};

static inline int truth(void) {
    Value value = POP(operands);
    WANTED(value.kind == TRUTH);
    return value.n != 0;
}

static void make(Kind kind, size_t count) {
    WANTED(operands_count >= count);
    Value value = made(kind, operands + operands_count - count, count);
    operands_count -= count;
    PUSH(operands, value);
}

static void begin_loop(int collects) {
    Value over = POP(operands);
    WANTED(over.kind == LIST);
    PUSH(loops, (Loop){over.parts, over.parts + over.number, collected_count, collects});
}

/* whether a loop goes on, with the next element on top; what it collected is there where it doesn't */
static inline int goes_on(void) {
    Loop *loop = TOP(loops);
    if (loop->at < loop->end) {
        PUSH(operands, *loop->at++);
        return 1;
    }
    if (loop->collects) PUSH(operands, made(LIST, collected + loop->base, collected_count - loop->base));
    collected_count = loop->base;
    loops_count--;
    return 0;
}

/* an empty pending frame on top of all slots */
static void make_pending(size_t scope) {
    WANTED(scope < scopes_count);
    PUSH(pending, (Frame){.slots = slots_count, .place = scope});
    for (size_t k = scopes[scope].from; k < scopes[scope].end; k++) PUSH(slots, (Value){0});
}

static size_t held_on_top(void) { return held_count - *TOP(defaults); }

static Outcome run(size_t scope) {
    size_t place = scopes[scope].entry, own_slots = 0, own_locals = 0;
    for (uint64_t steps = 1;; steps++) {
        WANTED(place < code_count);
        const Instruction *i = &code[place++];
        Value value;
        Frame frame;
        const char *fault;
        switch (i->name) {
        case CONST: WANTED(i->a < constants_count); PUSH(operands, constants[i->a]); break;
        case SLOT:
            WANTED(i->a < slots_count - own_slots && slots[own_slots + i->a].kind);
            PUSH(operands, slots[own_slots + i->a]);
            break;
        case LOCAL: WANTED(i->a < locals_count - own_locals); PUSH(operands, locals[own_locals + i->a]); break;
        case STORE: WANTED(i->a < slots_count - own_slots); slots[own_slots + i->a] = POP(operands); break;
        case BIND: value = POP(operands); PUSH(locals, value); break;
        case DROP: WANTED(i->a <= locals_count - own_locals); locals_count -= i->a; break;
        case GIVEN: WANTED(i->a < slots_count - own_slots); if (slots[own_slots + i->a].kind) place = i->b; break;
        case JUMP: place = i->a; break;
        case JUMPFALSE: if (!truth()) place = i->a; break;
        case OP: if ((fault = operate(i))) return (Outcome){fault, i->c, steps, {0}}; break;
        case PACK: make(STRUCTURE, i->a); break;
        case LIST_OF: make(LIST, i->a); break;
        case FIELD: value = POP(operands); WANTED(value.kind == STRUCTURE && i->a < value.number); PUSH(operands, value.parts[i->a]); break;
        case TAG: make(CASE, 1); TOP(operands)->number = i->a; break;
        case TAGNONE: PUSH(operands, (Value){.kind = CASE, .number = i->a}); break;
        case ISCASE: value = POP(operands); WANTED(value.kind == CASE); PUSH(operands, plain(TRUTH, value.number == i->a)); break;
        case CONTENT: value = POP(operands); WANTED(value.kind == CASE && value.parts); PUSH(operands, *value.parts); break;
        case LENGTH: value = POP(operands); WANTED(value.kind == LIST); PUSH(operands, plain(INTEGER, value.number)); break;
        case ITER: begin_loop(0); break;
        case ITERLIST: WANTED(i->a < constants_count && constants[i->a].kind == LIST && !constants[i->a].number); begin_loop(1); break;
        case NEXT: if (!goes_on()) place = i->a; break;
        case COLLECT: value = POP(operands); WANTED(TOP(loops)->collects); PUSH(collected, value); break;
        case LEAVE: collected_count = POP(loops).base; break;
        case CALL:
            WANTED(i->a < functions_count && operands_count >= i->b);
            PUSH(frames, (Frame){own_slots, own_locals, place});
            own_locals = locals_count;
            place = functions[i->a];
            for (size_t k = operands_count - i->b; k < operands_count; k++) PUSH(locals, operands[k]);
            operands_count -= i->b;
            break;
        case SCOPE: make_pending(i->a); break;
        case PASS:
            value = POP(operands);
            WANTED(i->a < slots_count - TOP(pending)->slots);
            slots[TOP(pending)->slots + i->a] = value;
            break;
        case ENTER:
            PUSH(frames, (Frame){own_slots, own_locals, place});
            frame = POP(pending);
            own_slots = frame.slots;
            own_locals = locals_count;
            place = scopes[frame.place].entry;
            break;
        case RETURN:
            if (!frames_count) {
                WANTED(operands_count == 1 && operands->kind == STRUCTURE && !defaults_count && !loops_count && !pending_count);
                return (Outcome){.steps = steps, .outputs = *operands};
            }
            locals_count = own_locals;
            frame = POP(frames);
            if (frame.slots != own_slots) slots_count = own_slots;
            own_slots = frame.slots;
            own_locals = frame.locals;
            place = frame.place;
            break;
        case BEGIN: PUSH(defaults, held_count); break;
        case HOLD: WANTED(i->a < definitions_count && defaults_count); PUSH(held, (Held){i->a, POP(operands)}); break;
        case MERGE: WANTED(defaults_count >= 2); defaults_count--; break;
        case CHECK: WANTED(i->a < targets_count); if (held_on_top() > 1) return (Outcome){"conflict", i->a, steps, {0}}; break;
        case HELD: if (held_on_top()) place = i->a; break;
        case TAKE:
            WANTED(held_on_top() < 2);
            if (held_on_top()) PUSH(operands, held[held_count - 1].value);
            else place = i->a;
            held_count = POP(defaults);
            break;
        case NOVALUE: WANTED(i->a < targets_count); return (Outcome){"no value", i->a, steps, {0}};
        case ASSERT: if (!truth()) return (Outcome){"AssertionFailed", i->a, steps, {0}}; break;
        }
    }
}

#include "machine_texts.h"

/* ---- a call */

static char *text_of(const char *name) {
    FILE *file = fopen(name, "rb");
    size_t size = 0, most = 1 << 16;
    char *text = malloc(most);
    WANTED(file && text);
    for (size_t more; (more = fread(text + size, 1, most - size - 1, file)) > 0;) {
        size += more;
        if (size + 1 == most) text = realloc(text, most *= 2);
        WANTED(text);
    }
    fclose(file);
    text[size] = 0;
    return text;
}

int main(int count, char **words) {
    WANTED(count == 3);
    read_listing(text_of(words[1]));
    size_t scope = 0;
    while (scope < scopes_count && strcmp(scopes[scope].name, words[2])) scope++;
    WANTED(scope < scopes_count);
    json_t *json = json_loadf(stdin, JSON_DECODE_ANY, 0);
    if (!json) refuse("no JSON");
    fill(&scopes[scope], json);
    json_decref(json);
    clock_t began = clock();
    Outcome ended = run(scope);
    double seconds = (double)(clock() - began) / CLOCKS_PER_SEC;
    write_outcome(ended, &scopes[scope]);
    printf("steps %llu\nnanoseconds %.2f\n", (unsigned long long)ended.steps, seconds * 1e9 / (double)ended.steps);
}
