// The engine that keeps counts, document 02, §5, as the proved one has it: for each point how many records still hold it shut, its window
// so far and its running waits, and the records listed by the points that they name. Included behind plain.c.

enum { LISTS = POINTS + 1, HIGHEST = INT32_MAX };

// The records of a point in file order: where each list starts, and where each record's entry goes on. RECORDS ends a list.
typedef struct { u32 start[LISTS], next[RECORDS]; } listed;
typedef struct { u8 kind, from, to, over; i32 first; } held;
typedef struct { u32 points; links l; held rows[RECORDS]; listed into, out, ends; } engine;
typedef struct { u32 holds[POINTS]; i32 lows[POINTS], runs[POINTS], highs[POINTS]; u32 last; } kept;

static bool is_holding(const held *r) { return (r->kind == ORDINARY && r->first < 0) || r->kind == WAIT; }

static void put_in(listed *t, u32 list, u32 i) {
    t->next[i] = t->start[list];
    t->start[list] = i;
}

// The plan's own refusal, or the engine and what is kept of the fresh board.
static refusal begin(const plan *p, engine *g, kept *k) {
    refusal found = check(p);
    if (found.number) return found;
    g->points = points_of(p);
    links_of(p, &g->l);
    memset(k, 0, sizeof *k);
    for (u32 i = 0; i < POINTS; i++) k->highs[i] = HIGHEST;
    for (u32 i = 0; i < LISTS; i++) g->into.start[i] = g->out.start[i] = g->ends.start[i] = RECORDS;
    for (u32 i = p->count; i-- > 0;) {
        const record *r = &p->records[i];
        g->rows[i] = (held){r->kind, r->a, r->kind == WAIT ? g->l.from[r->b] : r->b, r->b, r->first};
        if (r->kind < ORDINARY) continue;
        put_in(&g->into, g->rows[i].to, i);
        put_in(&g->out, r->a, i);
        if (r->kind == WAIT) put_in(&g->ends, r->b, i);
        k->holds[r->a] += is_holding(&g->rows[i]);
    }
    return found;
}

// ---- what an event changes

static void raise(i32 *x, i32 y) {
    if (*x < y) *x = y;
}

// The largest A + w of a point's waits whose links are running.
static i32 running_of(const engine *g, const board *b, u8 v) {
    i32 top = 0;
    for (u32 i = g->out.start[v]; i < RECORDS; i = g->out.next[i]) {
        const held *r = &g->rows[i];
        if (r->kind == WAIT && has(b->done, r->to) && !has(b->done, r->over)) raise(&top, b->minutes[r->to] + r->first);
    }
    return top;
}

static void do_point(const engine *g, kept *k, board *b, u8 z) {
    i32 t = b->clock;
    for (u32 i = g->into.start[z]; i < RECORDS; i = g->into.next[i]) {
        const held *r = &g->rows[i];
        k->holds[r->from] -= is_holding(r);
        raise(r->kind == ORDINARY ? &k->lows[r->from] : &k->runs[r->from], r->kind == ORDINARY ? t - r->first : t + r->first);
    }
    for (u32 i = g->out.start[z]; i < RECORDS; i = g->out.next[i]) {
        const held *r = &g->rows[i];
        if (r->kind == ORDINARY && t + r->first < k->highs[r->over]) k->highs[r->over] = t + r->first;
    }
    b->minutes[z] = t;
    b->calls[z] = k->last;
    b->done |= 1u << z;
    for (u32 i = g->ends.start[z]; i < RECORDS; i = g->ends.next[i])
        k->runs[g->rows[i].from] = running_of(g, b, g->rows[i].from);
}

static void do_event(const engine *g, kept *k, board *b, u32 minute, u8 v, u32 set) {
    b->clock = minute;
    k->last++;
    for (u32 rest = set; rest; rest &= rest - 1) do_point(g, k, b, __builtin_ctz(rest));
    if (v < POINTS) do_point(g, k, b, v);
}

// ---- the windows from what is kept

static i32 low_of(const kept *k, const board *b, u8 p) {
    i32 low = b->clock;
    raise(&low, k->lows[p]);
    raise(&low, k->runs[p]);
    return low;
}

static u32 opens_of(const engine *g, const kept *k, const board *b) {
    u32 opens = 0;
    for (u32 p = 0; p < POINTS; p++) opens |= (u32)(k->holds[p] == 0) << p;
    return opens & below(g->points) & ~(g->l.watched | b->done);
}

static i32 high_of(const kept *k, u32 opens) {
    i32 high = HIGHEST;
    for (u32 rest = opens; rest; rest &= rest - 1)
        if (k->highs[__builtin_ctz(rest)] < high) high = k->highs[__builtin_ctz(rest)];
    return high;
}

// The first record in file order that still holds a point shut, 0 for none.
static u32 holder_of(const engine *g, const kept *k, u32 done, u8 v) {
    if (k->holds[v] == 0) return 0;
    for (u32 i = g->out.start[v]; i < RECORDS; i = g->out.next[i])
        if (is_holding(&g->rows[i]) && !has(done, g->rows[i].to)) return i;
    return 0;
}

static bool stands_stuck(const engine *g, const kept *k, const board *b, u32 opens, i32 high) {
    for (u32 rest = opens; rest; rest &= rest - 1)
        if (low_of(k, b, __builtin_ctz(rest)) <= high) return false;
    if (opens) return true;
    for (u32 rest = g->l.watched; rest; rest &= rest - 1) {
        u8 c = __builtin_ctz(rest);
        if (has(b->done, g->l.from[c]) && !has(b->done, c)) return false;
    }
    return true;
}

static i32 latest_by(const board *b, i32 high) {
    i32 furthest = (i32)b->clock + FARTHEST;
    return high < furthest ? high : furthest;
}

static u32 kept_number(const engine *g, const kept *k, const board *b, const u8 *e, size_t length, u32 *why) {
    u32 n = g->points;
    const links *l = &g->l;
    if (b->done == below(n)) return 21;
    u32 opens = opens_of(g, k, b);
    i32 high = high_of(k, opens);
    if (stands_stuck(g, k, b, opens, high)) return 22;
    if (length != RECORD || e[5] || e[6] || e[7] || word_at(e + 12)) return 23;
    u32 minute = word_at(e), set = word_at(e + 8);
    u8 v = e[4];
    if ((v != 255 && v >= n) || (set & ~below(n)) || (v == 255 && !set)) return 23;
    if (minute < b->clock) return 24;
    for (u32 rest = set; rest; rest &= rest - 1) {
        u8 c = __builtin_ctz(rest);
        if (!has(l->watched, c) || !has(b->done, l->from[c]) || has(b->done, c)) return 25;
    }
    for (u32 rest = set; rest; rest &= rest - 1) {
        u8 c = __builtin_ctz(rest);
        i64 duration = (i64)minute - b->minutes[l->from[c]];
        if (duration < l->x[c] || duration > l->y[c]) return 26;
    }
    for (u32 rest = l->watched & ~(b->done | set); rest; rest &= rest - 1) {
        u8 c = __builtin_ctz(rest);
        if (has(b->done, l->from[c]) && minute > (u64)b->minutes[l->from[c]] + l->y[c]) return 27;
    }
    if (v != 255 && !has(opens, v)) return *why = has(l->watched | b->done, v) ? 0 : holder_of(g, k, b->done, v), 28;
    if (v != 255 && minute < (u32)low_of(k, b, v)) return 29;
    if (opens && (i64)minute > latest_by(b, high)) return 30;
    return 0;
}

static refusal take_kept(const engine *g, kept *k, board *b, const u8 *e, size_t length) {
    u32 why = 0, number = kept_number(g, k, b, e, length, &why);
    if (number == 0) do_event(g, k, b, word_at(e), e[4], word_at(e + 8));
    return (refusal){number, why};
}

static void reply_kept(const engine *g, const kept *k, const board *b, reply *out) {
    u32 n = g->points;
    out->latest = 0;
    out->refused = (refusal){0, 0};
    for (u32 i = 0; i < POINTS; i++) out->places[i] = (place){SHUT, 0};
    out->outcome = FINISHED;
    if (b->done == below(n)) return;
    u32 opens = opens_of(g, k, b);
    i32 high = high_of(k, opens), latest = latest_by(b, high);
    if (stands_stuck(g, k, b, opens, high)) out->outcome = STUCK;
    else if (opens == 0) out->outcome = WAITING;
    else out->outcome = OFFERS, out->latest = latest;
    for (u8 i = 0; i < n; i++) {
        place *at = &out->places[i];
        if (has(b->done, i)) *at = (place){DONE, b->minutes[i]};
        else if (has(g->l.watched, i)) *at = (place){WATCHED, 0};
        else if (!has(opens, i)) *at = (place){SHUT, holder_of(g, k, b->done, i)};
        else if (out->outcome == STUCK || low_of(k, b, i) > latest) *at = (place){HELD, 0};
        else *at = (place){OFFERED, low_of(k, b, i)};
    }
}

// For the printing program, which has one plan and one board, fresh at first.
static refusal take_by_counts(const plan *p, board *b, const u8 *e, size_t length) {
    static engine g;
    static kept k;
    static bool begun;
    if (!begun) begin(p, &g, &k);
    begun = true;
    return take_kept(&g, &k, b, e, length);
}
