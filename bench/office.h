// Sheets from the growers' office, document 02, §1, as the proved importer has it: one pass over the text, and of a field only a few numbers
// are kept. Included behind plain.c.

enum { COLUMNS = 6 };
// How many bytes a field has (9 for any more), the last eight of them, whether a minus leads, whether all others are digits, and the
// number that they stand for.
typedef struct { u32 count; bool minus, digits; u64 word, size; } cell;
typedef struct { u32 number; size_t line; } imported;
enum { TO_COMMA, TO_END, UNQUOTED };

static void see(cell *c, u8 b) {
    bool leads = c->count == 0 && b == '-';
    if (c->count < 9) c->count++;
    c->word = c->word << 8 | b;
    c->minus |= leads;
    c->digits &= leads || (b >= '0' && b <= '9');
    c->size = 10 * (c->size < 1ull << 32 ? c->size : 1ull << 32) + (b > '0' ? b - '0' : 0);
}

static bool is_end(const u8 *text, size_t n, size_t i) { return i + 1 < n && text[i] == '\r' && text[i + 1] == '\n'; }

// What stands behind a field: its comma, the end of its line or of the text, or something that breaks the quoting.
static int behind(const u8 *text, size_t n, size_t i, size_t *next) {
    if (i == n) return *next = n, TO_END;
    if (text[i] == ',') return *next = i + 1, TO_COMMA;
    if (is_end(text, n, i)) return *next = i + 2, TO_END;
    return UNQUOTED;
}

static int field_at(const u8 *text, size_t n, size_t at, cell *c, size_t *next) {
    *c = (cell){.digits = true};
    size_t i = at;
    if (i < n && text[i] == '"') {
        for (i++; i < n; i++) {
            u8 b = text[i];
            if (b == '\r' || b == '\n') return UNQUOTED;
            if (b == '"' && (++i == n || text[i] != '"')) return behind(text, n, i, next);
            see(c, b);
        }
        return UNQUOTED;
    }
    for (; i < n; i++) {
        u8 b = text[i];
        if (b == ',' || b == '\r' || b == '\n' || b == '"') break;
        see(c, b);
    }
    return behind(text, n, i, next);
}

static u8 kind_of(const cell *c) {
    if (c->count == 5 && c->word == 0x706f696e74) return POINT;
    if (c->count == 4 && c->word == 0x6c696e6b) return LINK;
    if (c->count == 8 && c->word == 0x6f7264696e617279) return ORDINARY;
    if (c->count == 4 && c->word == 0x77616974) return WAIT;
    return 0;
}

static bool is_decimal(const cell *c) { return c->count == 0 || (c->digits && !(c->count == 1 && c->minus)); }
static bool is_point(const cell *c) { return is_decimal(c) && c->size < 256 && (!c->minus || c->size == 0); }
static bool is_number(const cell *c) { return is_decimal(c) && c->size < (1ull << 31) + c->minus; }
static i32 number_of(const cell *c) { return c->minus ? (i32)-(i64)c->size : (i32)c->size; }

static bool is_code(const cell *c) {
    if (c->count == 0) return true;
    bool so = c->count == 6;
    for (int k = 0; k < 6; k++) {
        u8 b = c->word >> 8 * k;
        so &= k < 4 ? b >= '0' && b <= '9' : b >= 'A' && b <= 'Z';
    }
    return so;
}

static u32 code_of(const cell *c) {
    if (c->count == 0) return 0;
    u8 b[6];
    for (int k = 0; k < 6; k++) b[k] = c->word >> 8 * (5 - k);
    u32 digits = ((b[2] - '0') * 10 + b[3] - '0') * 100 + (b[4] - '0') * 10 + b[5] - '0';
    return (26 * (b[0] - 'A') + b[1] - 'A') * 10000 + digits + 1;
}

// The number of a line, 0 if it is good, and its record.
static u32 line_at(const u8 *text, size_t n, size_t at, record *r, size_t *next) {
    cell cells[COLUMNS];
    size_t columns = 0;
    int how;
    do {
        how = field_at(text, n, at, &cells[columns++ % COLUMNS], &at);
        if (how == UNQUOTED) return 40;
    } while (how == TO_COMMA);
    if (columns != COLUMNS) return 41;
    *r = (record){kind_of(&cells[0]), cells[1].size, cells[2].size, number_of(&cells[3]), number_of(&cells[4]), 0};
    if (!r->kind || !is_point(&cells[1]) || !is_point(&cells[2]) || !is_number(&cells[3]) || !is_number(&cells[4])) return 42;
    if (!is_code(&cells[5])) return 43;
    r->code = code_of(&cells[5]);
    *next = at;
    return 0;
}

static imported import(const u8 *text, size_t n, plan *p) {
    memset(p, 0, sizeof *p);
    size_t lines = 0;
    for (size_t at = 0; at < n; lines++) {
        u32 number = line_at(text, n, at, &p->records[lines % RECORDS], &at);
        if (number) return memset(p, 0, sizeof *p), (imported){number, lines};
    }
    p->count = lines < RECORDS + 1 ? lines : RECORDS + 1;
    refusal found = check(p);
    if (found.number) memset(p, 0, sizeof *p);
    return (imported){found.number, found.place};
}
