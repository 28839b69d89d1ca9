// The rules of document 01, with the twin records and the event numbers of document 02 and why a point is shut, in plain C, by the same
// passes as the proved programs, to measure those against: `plain sheet` is the printing program and `plain probe` takes the requests of
// compare/PROBE.md. Every call checks the plan and the board that it is given, as the proved ones do. Nothing here is proved. It stands
// alone, and is also included by verbs.c and calls.c (RULES_ALONE), which have the later requests of document 02 beside it.
#include <stdbool.h>
#include <stdint.h>
#include <stdio.h>
#include <string.h>
#include <unistd.h>

typedef uint8_t u8;
typedef uint16_t u16;
typedef uint32_t u32;
typedef uint64_t u64;
typedef int32_t i32;
typedef int64_t i64;

enum { POINTS = 32, LINKS = 8, ORDINARIES = 1024, WAITS = 64, RECORDS = POINTS + LINKS + ORDINARIES + WAITS, RECORD = 16, FARTHEST = 100000 };
enum { POINT = 1, LINK, ORDINARY, WAIT };
enum { LISTED = 4096, SAID = 4, STREAM_ROOM = 12288 };

typedef struct { u8 kind, a, b; i32 first, second; u32 code; } record;
typedef struct { u32 count; record records[RECORDS]; } plan;
typedef struct { u32 number, place; } refusal;
typedef struct { u32 clock, done; u32 minutes[POINTS], calls[POINTS]; } board;

static bool has(u32 set, u8 p) { return p < POINTS && (set >> p & 1); }
static u32 below(u32 n) { return n < POINTS ? (1u << n) - 1 : ~0u; }

// --- Reading and checking plans: numbers 1 to 12, and 15 ---

static u32 word_at(const u8 *b) { return b[0] | b[1] << 8 | b[2] << 16 | (u32)b[3] << 24; }

static void put_word(u8 *b, u32 x) { b[0] = x; b[1] = x >> 8; b[2] = x >> 16; b[3] = x >> 24; }

// What the records so far have said.
typedef struct { u8 kind; u32 counts[5], watched, joined[POINTS]; u8 from[POINTS]; i32 longest[POINTS]; } seen;

// The number of the next record, 0 if it is good; then it counts as seen.
static u32 next_record(seen *s, const record *r, u8 reserved) {
    static const u32 most[5] = {0, POINTS, LINKS, ORDINARIES, WAITS};
    u32 points = s->counts[POINT];
    if (r->kind < 1 || r->kind > 4) return 4;
    if (r->kind < s->kind) return 5;
    if (s->counts[r->kind] == most[r->kind]) return 6;
    bool zeros = reserved == 0;
    if (r->kind == POINT) zeros = zeros && r->b == 0 && r->first == 0 && r->second == 0;
    else zeros = zeros && r->code == 0 && (r->kind == LINK || r->second == 0);
    if (!zeros) return 7;
    if (r->kind == POINT) {
        if (r->a != points) return 8;
    } else {
        if (r->a >= points || r->b >= points) return 8;
        if (r->a == r->b) return 9;
        if (r->kind == LINK) {
            if (has(s->watched, r->b)) return 10;
            if (r->first < 1 || r->first >= r->second || r->second > FARTHEST) return 11;
            s->watched |= 1u << r->b;
            s->from[r->b] = r->a;
            s->longest[r->b] = r->second;
        } else if (r->kind == ORDINARY) {
            if (has(s->joined[r->a], r->b)) return 15;
            if (r->first < -FARTHEST || r->first > FARTHEST) return 11;
            s->joined[r->a] |= 1u << r->b;
        } else {
            if (!has(s->watched, r->b) || has(s->watched, r->a) || r->a == s->from[r->b]) return 10;
            if (r->first < 1 || r->first > s->longest[r->b]) return 11;
        }
    }
    s->kind = r->kind;
    s->counts[r->kind]++;
    return 0;
}

static refusal test_records(const plan *p, const u8 *reserved) {
    seen s = {0};
    for (u32 i = 0; i < p->count; i++) {
        u32 number = next_record(&s, &p->records[i], reserved ? reserved[i] : 0);
        if (number) return (refusal){number, i};
    }
    return (refusal){0, 0};
}

static refusal read_plan(const u8 *bytes, size_t n, plan *out) {
    memset(out, 0, sizeof *out);
    if (n == 0) return (refusal){1, 0};
    if (n % RECORD) return (refusal){2, 0};
    if (n / RECORD > RECORDS) return (refusal){3, 0};
    u8 reserved[RECORDS];
    out->count = n / RECORD;
    for (u32 i = 0; i < out->count; i++) {
        const u8 *b = bytes + RECORD * i;
        out->records[i] = (record){b[0], b[1], b[2], (i32)word_at(b + 4), (i32)word_at(b + 8), word_at(b + 12)};
        reserved[i] = b[3];
    }
    refusal found = test_records(out, reserved);
    if (found.number) memset(out, 0, sizeof *out);
    return found;
}

static refusal check(const plan *p) {
    if (p->count == 0) return (refusal){1, 0};
    if (p->count > RECORDS) return (refusal){3, 0};
    return test_records(p, NULL);
}

static refusal write_plan(const plan *p, u8 *out, size_t n) {
    refusal found = check(p);
    if (found.number) return found;
    if (n < RECORD * (size_t)p->count) return (refusal){12, 0};
    for (u32 i = 0; i < p->count; i++) {
        const record *r = &p->records[i];
        u8 *b = out + RECORD * i;
        b[0] = r->kind, b[1] = r->a, b[2] = r->b, b[3] = 0;
        put_word(b + 4, r->first);
        put_word(b + 8, r->second);
        put_word(b + 12, r->code);
    }
    return found;
}

static u32 points_of(const plan *p) {
    u32 n = 0;
    for (u32 i = 0; i < p->count; i++) n += p->records[i].kind == POINT;
    return n;
}

// --- Boards, windows, replies ---

// The numbers of the events that did the points, by one pass over the done points with a table by number.
static bool is_numbered(const board *b, u32 watched) {
    u32 seen = 0, foremans = 0, noted[POINTS];
    for (u8 i = 0; i < POINTS; i++) {
        u32 n = b->calls[i];
        if (!has(b->done, i)) {
            if (n) return false;
            continue;
        }
        if (n == 0 || n > POINTS) return false;
        u32 slot = 1u << (n - 1);
        if (seen & slot && noted[n - 1] != b->minutes[i]) return false;
        if (!has(watched, i)) {
            if (foremans & slot) return false;
            foremans |= slot;
        }
        seen |= slot;
        noted[n - 1] = b->minutes[i];
    }
    u32 count = __builtin_popcount(seen);
    if (seen != below(count)) return false;
    for (u32 i = 1; i < count; i++)
        if (noted[i] < noted[i - 1]) return false;
    return true;
}

static bool is_sound(const plan *p, const board *b) {
    if (b->done & ~below(points_of(p))) return false;
    u32 last = 0;
    for (u8 i = 0; i < POINTS; i++) {
        u32 m = b->minutes[i];
        if (m > b->clock || (m && !has(b->done, i))) return false;
        if (m > last) last = m;
    }
    if (b->clock != last) return false;
    u32 watched = 0;
    for (u32 i = 0; i < p->count; i++) {
        const record *r = &p->records[i];
        if (r->kind != LINK) continue;
        watched |= 1u << r->b;
        u64 from = b->minutes[r->a], to = b->minutes[r->b];
        if (has(b->done, r->b)) {
            if (!has(b->done, r->a) || to < from + r->first || to > from + r->second) return false;
            if (b->calls[r->a] >= b->calls[r->b]) return false;
        } else if (has(b->done, r->a) && b->clock > from + r->second) return false;
    }
    if (b->clock > FARTHEST * (u32)__builtin_popcount(b->done)) return false;
    return is_numbered(b, watched);
}

// The links by the points that they end at.
typedef struct { u32 watched; u8 from[POINTS]; i32 x[POINTS], y[POINTS]; } links;

static void links_of(const plan *p, links *l) {
    memset(l, 0, sizeof *l);
    for (u32 i = 0; i < p->count; i++) {
        const record *r = &p->records[i];
        if (r->kind != LINK) continue;
        l->watched |= 1u << r->b;
        l->from[r->b] = r->a;
        l->x[r->b] = r->first;
        l->y[r->b] = r->second;
    }
}

#define NO_HIGH INT64_MAX

// Of each point the first record that shuts it, 0 for none: that is a point's.
typedef struct { u32 opens, shut, firsts[POINTS]; i64 lows[POINTS], high; } windows;

static void shuts(windows *w, u8 v, u32 i) {
    w->shut |= 1u << v;
    if (w->firsts[v] == 0) w->firsts[v] = i;
}

// One pass over the records, then the open points.
static void windows_of(const plan *p, const board *b, const links *l, windows *w) {
    i64 highs[POINTS];
    w->shut = 0;
    for (u32 i = 0; i < POINTS; i++) w->lows[i] = b->clock, highs[i] = NO_HIGH, w->firsts[i] = 0;
    for (u32 i = 0; i < p->count; i++) {
        const record *r = &p->records[i];
        if (r->kind == ORDINARY) {
            if (has(b->done, r->b)) {
                i64 low = (i64)b->minutes[r->b] - r->first;
                if (low > w->lows[r->a]) w->lows[r->a] = low;
            } else if (r->first < 0) shuts(w, r->a, i);
            if (has(b->done, r->a)) {
                i64 high = (i64)b->minutes[r->a] + r->first;
                if (high < highs[r->b]) highs[r->b] = high;
            }
        } else if (r->kind == WAIT) {
            u8 a = l->from[r->b];
            if (!has(b->done, a)) shuts(w, r->a, i);
            else if (!has(b->done, r->b)) {
                i64 low = (i64)b->minutes[a] + r->first;
                if (low > w->lows[r->a]) w->lows[r->a] = low;
            }
        }
    }
    w->opens = below(points_of(p)) & ~(l->watched | b->done | w->shut);
    w->high = NO_HIGH;
    for (u32 rest = w->opens; rest; rest &= rest - 1) {
        i64 high = highs[__builtin_ctz(rest)];
        if (high < w->high) w->high = high;
    }
}

static bool any_running(const plan *p, const board *b) {
    for (u32 i = 0; i < p->count; i++) {
        const record *r = &p->records[i];
        if (r->kind == LINK && has(b->done, r->a) && !has(b->done, r->b)) return true;
    }
    return false;
}

static bool is_stuck(const plan *p, const board *b, const windows *w) {
    if (w->opens == 0) return !any_running(p, b);
    for (u32 rest = w->opens; rest; rest &= rest - 1)
        if (w->lows[__builtin_ctz(rest)] <= w->high) return false;
    return true;
}

// The record for a point that is not open: a watched or a done one has none.
static u32 why_shut(const board *b, const links *l, const windows *w, u8 v) {
    return has(l->watched | b->done, v) ? 0 : w->firsts[v];
}

static i64 latest_of(const board *b, const windows *w) {
    i64 furthest = (i64)b->clock + FARTHEST;
    return w->high < furthest ? w->high : furthest;
}

enum { REFUSED = 100, FINISHED, STUCK, WAITING, OFFERS };
enum { DONE = 1, WATCHED, SHUT, HELD, OFFERED };

// A minute where it is done or offered, the record where it is shut.
typedef struct { u32 state, with; } place;
typedef struct { u32 outcome, latest; refusal refused; place places[POINTS]; } reply;

static void reply_of(const plan *p, const board *b, reply *out) {
    out->latest = 0;
    for (u32 i = 0; i < POINTS; i++) out->places[i] = (place){SHUT, 0};
    out->outcome = REFUSED;
    out->refused = check(p);
    if (out->refused.number) return;
    out->refused = (refusal){20, 0};
    if (!is_sound(p, b)) return;
    u32 n = points_of(p);
    out->outcome = FINISHED;
    if (b->done == below(n)) return;
    links l;
    windows w;
    links_of(p, &l);
    windows_of(p, b, &l, &w);
    i64 latest = latest_of(b, &w);
    if (is_stuck(p, b, &w)) out->outcome = STUCK;
    else if (w.opens == 0) out->outcome = WAITING;
    else out->outcome = OFFERS, out->latest = latest;
    for (u8 i = 0; i < n; i++) {
        place *at = &out->places[i];
        if (has(b->done, i)) *at = (place){DONE, b->minutes[i]};
        else if (has(l.watched, i)) *at = (place){WATCHED, 0};
        else if (!has(w.opens, i)) *at = (place){SHUT, why_shut(b, &l, &w, i)};
        else if (out->outcome == STUCK || w.lows[i] > latest) *at = (place){HELD, 0};
        else *at = (place){OFFERED, w.lows[i]};
    }
}

// --- Events: numbers 20 to 30 ---

// The number of an event; with 28 the record that keeps its point shut.
static u32 event_number(const plan *p, const board *b, const u8 *e, size_t length, u32 *why) {
    u32 n = points_of(p);
    if (b->done == below(n)) return 21;
    links l;
    windows w;
    links_of(p, &l);
    windows_of(p, b, &l, &w);
    if (is_stuck(p, b, &w)) return 22;
    if (length != RECORD || e[5] || e[6] || e[7] || word_at(e + 12)) return 23;
    u32 minute = word_at(e), set = word_at(e + 8);
    u8 v = e[4];
    if ((v != 255 && v >= n) || (set & ~below(n)) || (v == 255 && !set)) return 23;
    if (minute < b->clock) return 24;
    for (u32 rest = set; rest; rest &= rest - 1) {
        u8 c = __builtin_ctz(rest);
        if (!has(l.watched, c) || !has(b->done, l.from[c]) || has(b->done, c)) return 25;
    }
    for (u32 rest = set; rest; rest &= rest - 1) {
        u8 c = __builtin_ctz(rest);
        i64 duration = (i64)minute - b->minutes[l.from[c]];
        if (duration < l.x[c] || duration > l.y[c]) return 26;
    }
    for (u32 i = 0; i < p->count; i++) {
        const record *r = &p->records[i];
        if (r->kind == LINK && has(b->done, r->a) && !has(b->done | set, r->b)
            && minute > (u64)b->minutes[r->a] + r->second) return 27;
    }
    if (v != 255 && !has(w.opens, v)) return *why = why_shut(b, &l, &w, v), 28;
    if (v != 255 && minute < w.lows[v]) return 29;
    if (w.opens && minute > latest_of(b, &w)) return 30;
    return 0;
}

static refusal take(const plan *p, board *b, const u8 *e, size_t length) {
    refusal found = check(p);
    if (found.number) return found;
    if (!is_sound(p, b)) return (refusal){20, 0};
    u32 why = 0, number = event_number(p, b, e, length, &why);
    if (number) return (refusal){number, why};
    u32 points = word_at(e + 8) | (e[4] == 255 ? 0 : 1u << e[4]);
    u32 call = 0;
    for (u32 rest = b->done; rest; rest &= rest - 1)
        if (b->calls[__builtin_ctz(rest)] > call) call = b->calls[__builtin_ctz(rest)];
    b->clock = word_at(e);
    b->done |= points;
    for (u32 rest = points; rest; rest &= rest - 1) {
        b->minutes[__builtin_ctz(rest)] = b->clock;
        b->calls[__builtin_ctz(rest)] = call + 1;
    }
    return found;
}

// The whole events of some bytes one after the other, as far as there is room to say four numbers of each.
static refusal take_all(const plan *p, board *b, const u8 *events, size_t length, u32 *room, size_t numbers) {
    refusal found = check(p);
    if (found.number) return found;
    if (!is_sound(p, b)) return (refusal){20, 0};
    for (size_t i = 0; RECORD * (i + 1) <= length && SAID * (i + 1) <= numbers; i++) {
        u32 *said = room + SAID * i;
        refusal one = take(p, b, events + RECORD * i, RECORD);
        said[0] = one.number, said[1] = one.place;
        said[2] = b->clock;
        said[3] = b->done;
    }
    return found;
}

// --- The verdict: kept is number 0, broken 100 with the record ---

static refusal ended(const plan *p, const board *b) {
    refusal found = check(p);
    if (found.number) return found;
    if (!is_sound(p, b)) return (refusal){20, 0};
    if (b->done != below(points_of(p))) return (refusal){31, 0};
    return found;
}

static refusal verdict_of(const plan *p, const board *b) {
    refusal found = ended(p, b);
    if (found.number) return found;
    links l;
    links_of(p, &l);
    for (u32 i = 0; i < p->count; i++) {
        const record *r = &p->records[i];
        i64 at = b->minutes[r->a], to = b->minutes[r->b];
        if (r->kind == ORDINARY && to - at > r->first) return (refusal){100, i};
        if (r->kind == WAIT) {
            i64 from = b->minutes[l.from[r->b]];
            i64 least = r->first < to - from ? r->first : to - from;
            if (at - from < least) return (refusal){100, i};
        }
    }
    return found;
}

// The verdict over a list, eight bytes a bound: two points, two bytes for nothing and a signed number.
static refusal judge_list(const plan *p, const board *b, const u8 *list, size_t length) {
    refusal found = ended(p, b);
    if (found.number) return found;
    u32 points = points_of(p), count = length / 8 < LISTED ? length / 8 : LISTED;
    for (u32 i = 0; i < count; i++)
        if (list[8 * i] >= points || list[8 * i + 1] >= points) return (refusal){8, i};
    for (u32 i = 0; i < count; i++) {
        i64 at = b->minutes[list[8 * i]], to = b->minutes[list[8 * i + 1]];
        if (to - at > (i32)word_at(list + 8 * i + 4)) return (refusal){100, i};
    }
    return found;
}

// --- The plan test, by tables of distances ---

#define NONE (INT64_MAX / 4)
typedef i64 table[POINTS * POINTS];
// A record for the test: a wait joins V to its link's A.
typedef struct { u8 kind, from, to, over; i64 first, second; } row;
typedef struct { u32 rows, points; row sheet[RECORDS]; i64 durations[POINTS]; table all, falls, rises; } test;
typedef struct { u32 outcome, at, x, y; } answer;
enum { YES = 101, CYCLE, PAIR };
enum { ALL, FALLING, RISING };

static void offer(i64 *t, int part, u8 i, u8 j, i64 v) {
    if ((part == FALLING && v >= 0) || (part == RISING && v < 0)) return;
    if (v < t[i * POINTS + j]) t[i * POINTS + j] = v;
}

// The distances over the edges of a part, or false where they have a cycle of negative sum.
static bool fill(const test *s, i64 *t, int part) {
    u32 n = s->points;
    for (u32 i = 0; i < POINTS * POINTS; i++) t[i] = NONE;
    for (u32 i = 0; i < POINTS; i++) t[i * POINTS + i] = 0;
    for (u32 q = 0; q < s->rows; q++) {
        const row *r = &s->sheet[q];
        i64 p = s->durations[r->over];
        if (r->kind == ORDINARY) offer(t, part, r->from, r->to, r->first);
        else if (r->kind == WAIT) offer(t, part, r->from, r->to, -(r->first < p ? r->first : p));
        else if (r->kind == LINK) {
            offer(t, part, r->from, r->to, p);
            offer(t, part, r->to, r->from, -p);
        }
    }
    for (u32 k = 0; k < n; k++) {
        if (t[k * POINTS + k] < 0) return false;
        for (u32 i = 0; i < n; i++) {
            i64 b = t[i * POINTS + k];
            if (b == NONE) continue;
            for (u32 j = 0; j < n; j++) {
                i64 c = t[k * POINTS + j];
                if (c < NONE && b + c < t[i * POINTS + j]) t[i * POINTS + j] = b + c;
            }
        }
    }
    for (u32 i = 0; i < n; i++)
        if (t[i * POINTS + i] < 0) return false;
    return true;
}

// Some point has a way down to it from x and up from it to y that is no longer than v.
static bool reaches(const test *s, u32 x, u32 y, i64 v) {
    for (u32 m = 0; m < s->points; m++) {
        i64 down = s->falls[x * POINTS + m], up = s->rises[m * POINTS + y];
        if (down < NONE && up < NONE && down + up <= v) return true;
    }
    return false;
}

static answer judge(test *s, u32 number) {
    if (!fill(s, s->all, ALL) || !fill(s, s->falls, FALLING) || !fill(s, s->rises, RISING))
        return (answer){CYCLE, number, 0, 0};
    for (u32 x = 0; x < s->points; x++)
        for (u32 y = 0; y < s->points; y++) {
            i64 v = s->all[x * POINTS + y];
            if (v < NONE && !reaches(s, x, y, v)) return (answer){PAIR, number, x, y};
        }
    return (answer){YES, number + 1, 0, 0};
}

// Each link's durations inside the walk of the link before it; stops at the first projection that fails.
static answer walk(test *s, u32 link, u32 past, u32 number) {
    if (link == past) return judge(s, number);
    const row *r = &s->sheet[link];
    answer found = {YES, number, 0, 0};
    for (i64 p = r->first; p <= r->second && found.outcome == YES; p++) {
        s->durations[r->over] = p;
        found = walk(s, link + 1, past, found.at);
    }
    return found;
}

static answer test_plan(const plan *p) {
    refusal found = check(p);
    if (found.number) return (answer){REFUSED, found.number, found.place, 0};
    static test s;
    links l;
    links_of(p, &l);
    s.rows = p->count;
    s.points = points_of(p);
    memset(s.durations, 0, sizeof s.durations);
    u32 past = s.points;
    u64 projections = 1;
    for (u32 i = 0; i < p->count; i++) {
        const record *r = &p->records[i];
        s.sheet[i] = (row){r->kind, r->a, r->kind == WAIT ? l.from[r->b] : r->b, r->b, r->first, r->second};
        if (r->kind == LINK) {
            past++;
            if (projections <= 4096) projections *= r->second + 1 - r->first;
        }
    }
    if (projections > 4096) return (answer){REFUSED, 13, 0, 0};
    return walk(&s, s.points, past, 0);
}

// --- The printing program ---

static u8 lines[65536];
static size_t waiting;

static void flush(void) {
    for (size_t done = 0; done < waiting;) {
        ssize_t n = write(1, lines + done, waiting - done);
        if (n <= 0) break;
        done += n;
    }
    waiting = 0;
}

static void put_text(const char *s) {
    while (*s) lines[waiting++] = *s++;
}

static void put_number(u64 n) {
    u8 digits[20];
    int k = 0;
    do digits[k++] = '0' + n % 10; while (n /= 10);
    while (k) lines[waiting++] = digits[--k];
}

static void put_line(const char *word, const u64 *numbers, int count) {
    if (waiting + 128 > sizeof lines) flush();
    put_text(word);
    for (int i = 0; i < count; i++) {
        if (i || *word) lines[waiting++] = ' ';
        put_number(numbers[i]);
    }
    lines[waiting++] = '\n';
}

static void say(u64 a, u32 b, u32 c, u32 d) { put_line("", (u64[]){a, b, c, d}, 4); }

static size_t read_full(u8 *buffer, size_t n) {
    size_t have = 0;
    while (have < n) {
        ssize_t more = read(0, buffer + have, n - have);
        if (more <= 0) break;
        have += more;
    }
    return have;
}

static bool is_mark(const u8 *r) {
    for (int i = 0; i < RECORD; i++)
        if (r[i] != 255) return false;
    return true;
}

static void put_end(const plan *p, const board *b) {
    refusal verdict = verdict_of(p, b);
    reply r;
    reply_of(p, b, &r);
    if (verdict.number == 0) put_line("end kept", NULL, 0);
    else if (verdict.number == 100) put_line("end broken", (u64[]){verdict.place}, 1);
    else put_line(r.outcome == STUCK ? "end stuck" : "end open", NULL, 0);
}

// What the printing program takes events with.
static refusal (*taken_by)(const plan *, board *, const u8 *, size_t) = take;

static void sheet(void) {
    static u8 chunk[65536], file[RECORD * (RECORDS + 2)];
    static plan p;
    static board b;
    size_t length = 0, n, left = 0;
    u64 events = 0;
    bool playing = false, refused = false;
    refusal found = {0, 0};
    do {
        n = read_full(chunk, sizeof chunk);
        for (size_t at = 0; at + RECORD <= n; at += RECORD) {
            const u8 *r = chunk + at;
            if (refused) continue;
            if (playing) {
                found = taken_by(&p, &b, r, RECORD);
                say(events++, found.number, b.clock, __builtin_popcount(b.done));
            } else if (is_mark(r)) {
                found = read_plan(file, length, &p);
                playing = found.number == 0;
                refused = !playing;
            } else if (length <= RECORD * RECORDS) {
                memcpy(file + length, r, RECORD);
                length += RECORD;
            }
        }
        left = n % RECORD;
    } while (n == sizeof chunk);
    if (!playing && !refused) {
        found = read_plan(file, length + left, &p);
        refused = found.number != 0;
        left = 0;
    }
    if (refused) put_line("plan", (u64[]){found.number, found.place}, 2);
    else {
        if (left) put_line("tail", NULL, 0);
        put_end(&p, &b);
    }
    flush();
}

// --- The probe: requests of sixteen bytes, see compare/PROBE.md ---

enum { PRIME = 16777213 };

static u32 mixed(u32 sum, u32 x) { return ((u64)(sum % PRIME) * 251 + x + 1) % PRIME; }

static u32 up(i32 x) { return x < 0 ? 0 : x; }
static u32 down(i32 x) { return x < 0 ? -(u32)x : 0; }

static u32 sum_of_plan(const plan *p) {
    u32 sum = p->count;
    for (u32 i = 0; i < RECORDS; i++) {
        const record *r = &p->records[i];
        sum = mixed(mixed(mixed(sum, r->kind), r->a), r->b);
        sum = mixed(mixed(mixed(mixed(sum, up(r->first)), down(r->first)), up(r->second)), down(r->second));
        sum = mixed(sum, r->code);
    }
    return sum;
}

static plan desk_plan;
static board desk_board;
static u8 buffer[65536];
static u32 next_place, times;
static size_t buffer_length;

// The plan with another pond code in its first record.
static plan *coded(plan *p, u32 code) {
    p->records[0].code = code;
    return p;
}

static void say_board(u32 asked) {
    say(asked, desk_board.clock, desk_board.done, 0);
    const u32 *m = desk_board.minutes, *c = desk_board.calls;
    for (u32 k = 0; k < POINTS; k += 4) say(m[k], m[k + 1], m[k + 2], m[k + 3]);
    for (u32 k = 0; k < POINTS; k += 4) say(c[k], c[k + 1], c[k + 2], c[k + 3]);
}

// A stream with a room of so many numbers, each x before; the sum is over all of them.
static void stream(u32 numbers, u32 x) {
    static u32 room[STREAM_ROOM];
    if (numbers > STREAM_ROOM) numbers = STREAM_ROOM;
    for (u32 i = 0; i < numbers; i++) room[i] = x;
    refusal found = take_all(&desk_plan, &desk_board, buffer, buffer_length, room, numbers);
    u32 sum = 0;
    for (u32 i = 0; i < numbers; i++) sum = mixed(sum, room[i]);
    say(24, found.number, found.place, sum);
    say_board(24);
}

static void call(u8 asked, u32 first, u32 second) {
    plan p = desk_plan;
    u32 sum = 0;
    if (asked == 16) {
        reply r;
        for (u32 k = 0; k < times; k++) {
            reply_of(coded(&p, k), &desk_board, &r);
            sum = mixed(sum, r.latest);
        }
        reply_of(&desk_plan, &desk_board, &r);
        if (r.outcome == REFUSED) say(16, r.refused.number, r.refused.place, sum);
        else say(16, r.outcome, r.latest, sum);
        for (u32 i = 0; i < POINTS; i++) say(i, r.places[i].state, r.places[i].with, 0);
    } else if (asked == 17) {
        board b;
        for (u32 k = 0; k < times; k++) {
            b = desk_board;
            take(coded(&p, k), &b, buffer, buffer_length);
            sum = mixed(sum, b.clock);
        }
        refusal found = take(&desk_plan, &desk_board, buffer, buffer_length);
        say(17, found.number, found.place, sum);
        say_board(17);
    } else if (asked == 18) {
        for (u32 k = 0; k < times; k++) {
            refusal v = verdict_of(coded(&p, k), &desk_board);
            sum = mixed(sum, v.number == 100 ? v.place : v.number);
        }
        refusal v = verdict_of(&desk_plan, &desk_board);
        say(18, v.number, v.place, sum);
    } else if (asked == 19) {
        refusal found = check(&desk_plan);
        say(19, found.number, found.place, 0);
    } else if (asked == 20) {
        refusal found = write_plan(&desk_plan, buffer, buffer_length);
        for (size_t i = 0; i < buffer_length; i++) sum = mixed(sum, buffer[i]);
        say(20, found.number, found.place, sum);
    } else if (asked == 21) {
        answer found = test_plan(&desk_plan);
        if (found.outcome == REFUSED) say(21, found.at, found.x, 0);
        else say(21, found.outcome, found.at, 0);
        if (found.outcome == PAIR) say(21, found.x, found.y, 0);
    } else if (asked == 22) {
        for (u32 k = 0; k < times; k++) {
            if (buffer_length > 12) buffer[12] = k;
            read_plan(buffer, buffer_length, &p);
            sum = mixed(sum, p.count);
        }
        refusal found = read_plan(buffer, buffer_length, &p);
        say(22, found.number, found.place, sum);
        say(22, p.count, sum_of_plan(&p), 0);
    } else if (asked == 23) {
        refusal found = judge_list(&desk_plan, &desk_board, buffer, buffer_length);
        say(23, found.number, found.place, 0);
    } else if (asked == 24) {
        stream(first, second);
    } else say(asked, 0, 0, 0);
}

static void set_word(u32 at, u32 x) {
    for (int i = 0; i < 4; i++, x >>= 8)
        if ((u64)at + i < sizeof buffer) buffer[(u64)at + i] = x;
}

static void probe(void) {
    u8 b[RECORD];
    while (read_full(b, RECORD) == RECORD && b[0]) {
        u32 first = word_at(b + 4), second = word_at(b + 8), third = word_at(b + 12);
        switch (b[0]) {
        case 1: desk_plan.count = first, next_place = second; break;
        case 2: desk_plan.records[next_place++ % RECORDS] = (record){b[1], b[2], b[3], first, second, third}; break;
        case 3: desk_board.clock = first, desk_board.done = second; break;
        case 4: desk_board.minutes[b[1] % POINTS] = first; break;
        case 5: memset(buffer, b[1], sizeof buffer), buffer_length = first < sizeof buffer ? first : sizeof buffer; break;
        case 6: set_word(first, second), set_word(first + 4, third); break;
        case 7: times = first; break;
        case 8: desk_board.calls[b[1] % POINTS] = first; break;
        default: call(b[0], first, second);
        }
    }
    flush();
}

#ifndef RULES_ALONE
int main(int argc, char **argv) {
    if (argc == 2 && !strcmp(argv[1], "sheet")) return sheet(), 0;
    if (argc == 2 && !strcmp(argv[1], "probe")) return probe(), 0;
    fprintf(stderr, "usage: plain sheet | plain probe\n");
    return 2;
}
#endif
