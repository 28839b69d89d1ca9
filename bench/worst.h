// The worst finishing minute, document 02, §13, in two ways: by what is kept of a run's board, as the proved tool has it, and by the plain
// engine's pass over all records for each event. Included behind tables.h and kept.h.

typedef struct { u32 minute, projection; } worst_found;
// What a run reads and has: the plan one way, the engine and what is kept of the fresh board the other.
typedef struct { const plan *p; links l; u32 points; engine g; kept begun; i32 lasts[POINTS]; u8 log[RECORD * POINTS]; bool counts; } runner;

static void put_event(u8 *at, u32 minute, u8 v, u32 set) {
    memset(at, 0, RECORD);
    put_word(at, minute);
    at[4] = v;
    put_word(at + 8, set);
}

// The aim of a board: the least Low of the open points and the first point that has it.
static u32 aim_at(const runner *r, const kept *k, const board *b, u8 *point) {
    windows w;
    if (r->counts) w.opens = opens_of(&r->g, k, b);
    else windows_of(r->p, b, &r->l, &w);
    u32 least = UINT32_MAX;
    for (u32 rest = w.opens; rest; rest &= rest - 1) {
        u8 q = __builtin_ctz(rest);
        u32 low = r->counts ? low_of(k, b, q) : w.lows[q];
        if (low < least) least = low, *point = q;
    }
    return least;
}

// The running links that end first, all at once, and when.
static u32 first_ends(const runner *r, const board *b, u32 *ends) {
    u32 first = UINT32_MAX;
    for (u32 rest = r->l.watched & ~b->done; rest; rest &= rest - 1) {
        u8 c = __builtin_ctz(rest);
        if (!has(b->done, r->l.from[c])) continue;
        u32 end = b->minutes[r->l.from[c]] + r->lasts[c];
        if (end < first) first = end, *ends = 0;
        if (end == first) *ends |= 1u << c;
    }
    return first;
}

static void mark_all(board *b, u32 minute, u8 v, u32 set, u32 call) {
    u32 points = set | (v < POINTS ? 1u << v : 0);
    b->clock = minute;
    b->done |= points;
    for (u32 rest = points; rest; rest &= rest - 1) b->minutes[__builtin_ctz(rest)] = minute, b->calls[__builtin_ctz(rest)] = call;
}

// The finishing minute of the run of the projection that r stands at; its events are in the log then.
static u32 run_one(runner *r) {
    kept k = r->begun;
    board b = {0};
    for (u32 i = 0; b.done != below(r->points); i++) {
        u8 v = 255;
        u32 ends = 0, aim = aim_at(r, &k, &b, &v), end = first_ends(r, &b, &ends);
        if (end < aim) v = 255;
        if (aim < end) ends = 0;
        u32 minute = end < aim ? end : aim;
        put_event(r->log + RECORD * i, minute, v, ends);
        if (r->counts) do_event(&r->g, &k, &b, minute, v, ends);
        else mark_all(&b, minute, v, ends, i + 1);
    }
    return b.clock;
}

static void run_all(runner *r, u32 link, u32 past, u32 *number, worst_found *found) {
    if (link == past) {
        u32 minute = run_one(r), i = (*number)++;
        if (found->minute < minute) *found = (worst_found){minute, i};
        return;
    }
    const record *l = &r->p->records[link];
    for (i32 p = l->first; p <= l->second; p++) {
        r->lasts[l->b] = p;
        run_all(r, link + 1, past, number, found);
    }
}

// Of a plan that passes the test.
static worst_found worst_of(const plan *p, bool counts) {
    static runner r;
    r = (runner){.p = p, .points = points_of(p), .counts = counts};
    links_of(p, &r.l);
    begin(p, &r.g, &r.begun);
    worst_found found = {0, 0};
    u32 number = 0;
    run_all(&r, r.points, r.points + __builtin_popcount(r.l.watched), &number, &found);
    return found;
}
