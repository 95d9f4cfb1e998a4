/* What a listing, an input in JSON and the line of an outcome say, for the interpreter of machine.c, which takes this in. Why an input is
   refused it tells in words of its own. */

/* ---- a listing */

/* the word in front, which is cut off */
static char *word(char **line) {
    char *first = *line, *end = first + strcspn(first, " ");
    *line = *end ? end + 1 : end;
    *end = 0;
    return first;
}

static size_t number(char **line) { return strtoul(word(line), 0, 10); }

static void read_instruction(char *rest) {
    const char *name = word(&rest);
    Instruction made = {0};
    while (NAMES[made.name] && strcmp(NAMES[made.name], name)) made.name++;
    if (!NAMES[made.name]) stuck(name);
    made.a = (uint32_t)number(&rest);
    made.b = (uint32_t)number(&rest);
    made.c = (uint32_t)number(&rest);
    PUSH(code, made);
}

static void read_scope(char *rest) {
    char *name = word(&rest);
    PUSH(scopes, (Declared){name, number(&rest), items_count, items_count});
}

static Part part_of(char *rest) {
    char *name = word(&rest);
    return (Part){.name = name, .spelled = rest};
}

static Part item_of(char *rest) {
    char *name = word(&rest), *kind = word(&rest);
    word(&rest);
    return (Part){.name = name, .word = kind, .spelled = rest};
}

static void read_line(char *rest) {
    const char *first = word(&rest);
    if (isdigit((unsigned char)*first)) read_instruction(rest);
    else if (!strcmp(first, "file")) PUSH(files, rest);
    else if (!strcmp(first, "structure")) PUSH(structures, (Declared){rest, 0, fields_count, fields_count});
    else if (!strcmp(first, "enumeration")) PUSH(enumerations, (Declared){rest, 0, cases_count, cases_count});
    else if (!strcmp(first, "scope")) read_scope(rest);
    else if (!strcmp(first, "field")) { PUSH(fields, part_of(rest)); TOP(structures)->end++; }
    else if (!strcmp(first, "case")) { PUSH(cases, part_of(rest)); TOP(enumerations)->end++; }
    else if (!strcmp(first, "item")) { PUSH(items, item_of(rest)); TOP(scopes)->end++; }
    else if (!strcmp(first, "target")) PUSH(targets, rest);
    else if (!strcmp(first, "definition")) PUSH(definitions, rest);
    else if (!strcmp(first, "function")) PUSH(functions, number(&rest));
    else if (!strcmp(first, "position")) PUSH(positions, rest);
    else if (!strcmp(first, "const")) PUSH(spelled_constants, rest);
    else WANTED(!strcmp(first, "catala-code"));
}

static int is_spelled(const char *name, const char *spelled, size_t length) {
    return strlen(name) == length && !memcmp(name, spelled, length);
}

/* whether one of these has the name that is spelled, and its number */
static int is_declared(const Declared *declared, size_t count, const char *spelled, size_t length, size_t *number) {
    for (*number = 0; *number < count; ++*number) if (is_spelled(declared[*number].name, spelled, length)) return 1;
    return 0;
}

/* the type in front, and what stands behind it */
static Type type(char *spelled, char **behind) {
    Type found = {0};
    for (; !strncmp(spelled, "list of ", 8); spelled += 8) found.lists++;
    size_t length = strcspn(spelled, " ");
    *behind = spelled + length;
    for (size_t k = 0; KINDS[k]; k++) if (is_spelled(KINDS[k], spelled, length)) found.kind = k ? (Kind)k : TRUTH;
    if (is_declared(structures, structures_count, spelled, length, &found.number)) found.kind = STRUCTURE;
    else if (is_declared(enumerations, enumerations_count, spelled, length, &found.number)) found.kind = CASE;
    return found;
}

static void find_types(Part *parts, size_t count) {
    char *behind;
    for (size_t k = 0; k < count; k++) parts[k].type = type(parts[k].spelled, &behind);
}

/* ---- values in JSON */

static Value value_of(const json_t *json, Type type);

static int64_t whole_of(const json_t *json) {
    if (!json_is_integer(json) || !fits(json_integer_value(json))) refuse("no whole number");
    return json_integer_value(json);
}

static Wide digits(const char **text, size_t most, size_t *count) {
    Wide n = 0;
    for (*count = 0; isdigit((unsigned char)**text); ++*count) n = n * 10 + *(*text)++ - '0';
    if (*count < 1 || *count > most) refuse("digits");
    return n;
}

/* a number with at most so many places, whose size is given with what it is over */
static Wide fixed_of(const char *text, size_t most, Wide *over) {
    int is_below = *text == '-';
    size_t count;
    text += is_below;
    Wide n = digits(&text, 19, &count);
    *over = 1;
    if (*text == '.') {
        text++;
        Wide places = digits(&text, most, &count);
        while (count--) *over *= 10;
        n = n * *over + places;
    } else if (*text == '/' && most == 9) {
        text++;
        *over = digits(&text, 19, &count);
    }
    if (*text) refuse("a number");
    return is_below ? -n : n;
}

static Value decimal_of(const json_t *json) {
    Value value;
    Wide over = 1, n = json_is_string(json) ? fixed_of(json_string_value(json), 9, &over) : whole_of(json);
    if (ratio(&value, n, over)) refuse("a decimal");
    return value;
}

static Value money_of(const json_t *json) {
    Value value;
    Wide over = 1, n = json_is_string(json) ? fixed_of(json_string_value(json), 2, &over) : whole_of(json);
    if (whole(&value, MONEY, n * (100 / over))) refuse("an amount");
    return value;
}

static Value date_of(const json_t *json) {
    int year, month, day, end = 0;
    const char *text = json_is_string(json) ? json_string_value(json) : "";
    if (strlen(text) != 10 || sscanf(text, "%4d-%2d-%2d%n", &year, &month, &day, &end) != 3 || end != 10) refuse("no date");
    if (year < 1 || month < 1 || month > 12 || day < 1 || day > month_length(year, month)) refuse("no day");
    return plain(DATE, days_of(year, month, day));
}

static Value duration_of(const json_t *json) {
    Value value = {.kind = DURATION};
    if (json_object_size(json) != 2) refuse("no duration");
    value.days = whole_of(json_object_get(json, "days"));
    value.months = whole_of(json_object_get(json, "months"));
    return value;
}

static Value structure_of(const json_t *json, const Declared *declared) {
    Value value = {.kind = STRUCTURE, .number = (uint32_t)(declared->end - declared->from), .parts = room(declared->end - declared->from)};
    if (json_object_size(json) != value.number) refuse("keys");
    for (size_t k = 0; k < value.number; k++) {
        const Part *field = &fields[declared->from + k];
        value.parts[k] = value_of(json_object_get(json, field->name), field->type);
    }
    return value;
}

static Value case_of(const json_t *json, const Declared *declared) {
    const char *name = json_is_string(json) ? json_string_value(json) : json_object_iter_key(json_object_iter((json_t *)json));
    for (size_t k = declared->from; name && k < declared->end; k++) {
        if (strcmp(cases[k].name, name) || json_is_string(json) != !*cases[k].spelled || json_object_size(json) > 1) continue;
        if (json_is_string(json)) return (Value){.kind = CASE, .number = (uint32_t)k};
        Value content = value_of(json_object_get(json, name), cases[k].type), value = made(CASE, &content, 1);
        value.number = (uint32_t)k;
        return value;
    }
    refuse("no case");
}

static Value list_of(const json_t *json, Type of) {
    if (!json_is_array(json)) refuse("no list");
    Value value = {.kind = LIST, .number = (uint32_t)json_array_size(json), .parts = room(json_array_size(json))};
    for (size_t k = 0; k < value.number; k++) value.parts[k] = value_of(json_array_get(json, k), of);
    return value;
}

static Value value_of(const json_t *json, Type type) {
    if (type.lists) return list_of(json, (Type){type.kind, type.lists - 1, type.number});
    switch (type.kind) {
    case TRUTH: if (!json_is_boolean(json)) refuse("no truth value"); return plain(TRUTH, json_is_true(json));
    case INTEGER: return plain(INTEGER, whole_of(json));
    case DECIMAL: return decimal_of(json);
    case MONEY: return money_of(json);
    case DATE: return date_of(json);
    case DURATION: return duration_of(json);
    case STRUCTURE: return structure_of(json, &structures[type.number]);
    case CASE: return case_of(json, &enumerations[type.number]);
    default: stuck("a type that isn't there");
    }
}

/* the slots of a scope, with what is given of them */
static void fill(const Declared *scope, const json_t *json) {
    size_t known = 0;
    if (!json_is_object(json)) refuse("no object");
    for (size_t k = scope->from; k < scope->end; k++) {
        int is_input = !strncmp(items[k].word, "input", 5), is_context = !strncmp(items[k].word, "context", 7);
        const json_t *given = is_input || is_context ? json_object_get(json, items[k].name) : 0;
        if (is_input && !given) refuse(items[k].name);
        known += given != 0;
        PUSH(slots, given ? value_of(given, items[k].type) : (Value){0});
    }
    if (known != json_object_size(json)) refuse("a key that isn't known");
}

/* a whole listing, whose constants are values in JSON */
static void read_listing(char *text) {
    for (char *line = text, *end; (end = strchr(line, '\n')); line = end + 1) {
        *end = 0;
        read_line(line);
    }
    find_types(fields, fields_count);
    find_types(cases, cases_count);
    find_types(items, items_count);
    for (size_t k = 0; k < spelled_constants_count; k++) {
        char *behind;
        Type of = type(spelled_constants[k], &behind);
        json_t *json = json_loads(behind, JSON_DECODE_ANY, 0);
        PUSH(constants, value_of(json, of));
        json_decref(json);
    }
}

/* ---- the line of an outcome */

static void write_wide(Wide n) {
    if (n >= 10) write_wide(n / 10);
    putchar('0' + (int)(n % 10));
}

static void write_fixed(Wide n, int places) {
    Wide by = 1;
    for (int k = 0; k < places; k++) by *= 10;
    if (n < 0) putchar('-');
    n = n < 0 ? -n : n;
    write_wide(n / by);
    if (places) putchar('.');
    while (places--) { by /= 10; putchar('0' + (int)(n / by % 10)); }
}

static void write_decimal(const Value *value) {
    Wide by = 1;
    int places = 0;
    for (; places < 9 && by % value->bottom; places++) by *= 10;
    if (by % value->bottom == 0) write_fixed(value->top * (by / value->bottom), places);
    else printf("%lld/%lld", (long long)value->top, (long long)value->bottom);
}

static void write_value(const Value *value, Type type);

static int by_name(const void *a, const void *b) { return strcmp((*(const Part *const *)a)->name, (*(const Part *const *)b)->name); }

/* an object of these parts, in the order of their names; of a scope of its outputs */
static void write_object(const Part *parts, size_t count, const Value *values) {
    const Part **order = malloc((count + 1) * sizeof *order);
    const Value **of = malloc((count + 1) * sizeof *of);
    size_t written = 0;
    for (size_t k = 0; k < count; k++) {
        const char *output = parts[k].word ? strstr(parts[k].word, "output") : "output";
        if (!output) continue;
        of[k] = values++;
        order[written++] = &parts[k];
    }
    qsort(order, written, sizeof *order, by_name);
    for (size_t k = 0; k < written; k++) {
        printf("%c\"%s\":", k ? ',' : '{', order[k]->name);
        write_value(of[order[k] - parts], order[k]->type);
    }
    fputs(written ? "}" : "{}", stdout);
    free(order);
    free(of);
}

static void write_list(const Value *value, Type of) {
    putchar('[');
    for (size_t k = 0; k < value->number; k++) {
        if (k) putchar(',');
        write_value(&value->parts[k], of);
    }
    putchar(']');
}

static void write_case(const Value *value) {
    const Part *found = &cases[value->number];
    printf(value->parts ? "{\"%s\":" : "\"%s\"", found->name);
    if (!value->parts) return;
    write_value(value->parts, found->type);
    putchar('}');
}

static void write_value(const Value *value, Type type) {
    int64_t year, month, day;
    if (type.lists) { write_list(value, (Type){type.kind, type.lists - 1, type.number}); return; }
    switch (type.kind) {
    case TRUTH: fputs(value->n ? "true" : "false", stdout); break;
    case INTEGER: write_fixed(value->n, 0); break;
    case DECIMAL: putchar('"'); write_decimal(value); putchar('"'); break;
    case MONEY: putchar('"'); write_fixed(value->n, 2); putchar('"'); break;
    case DATE: civil(value->n, &year, &month, &day); printf("\"%04d-%02d-%02d\"", (int)year, (int)month, (int)day); break;
    case DURATION: printf("{\"days\":%lld,\"months\":%lld}", (long long)value->days, (long long)value->months); break;
    case STRUCTURE: {
        const Declared *declared = &structures[type.number];
        write_object(fields + declared->from, declared->end - declared->from, value->parts);
        break;
    }
    case CASE: write_case(value); break;
    default: stuck("a type that isn't there");
    }
}

static void write_position(const char *position) {
    printf("%s%s", files[strtoul(position, 0, 10)], strchr(position, ':'));
}

static int by_number(const void *a, const void *b) { return sign(((const Held *)a)->definition, ((const Held *)b)->definition); }

/* a conflict or the want of a value, of a target with its own position */
static void write_stop(Outcome ended) {
    char *position = targets[ended.number], *name = word(&position);
    printf("%s %s at", ended.word, name);
    if (strcmp(ended.word, "conflict")) { putchar(' '); write_position(position); return; }
    size_t first = *TOP(defaults);
    qsort(held + first, held_count - first, sizeof *held, by_number);
    for (; first < held_count; first++) { putchar(' '); write_position(definitions[held[first].definition]); }
}

static void write_outcome(Outcome ended, const Declared *scope) {
    if (!ended.word) write_object(items + scope->from, scope->end - scope->from, ended.outputs.parts);
    else if (islower((unsigned char)*ended.word)) write_stop(ended);
    else {
        WANTED(ended.number < positions_count);
        printf("fault %s at ", ended.word);
        write_position(positions[ended.number]);
    }
    putchar('\n');
}
