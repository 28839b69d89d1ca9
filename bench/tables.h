// The plan test with two tables of 32-bit distances, as the proved one has it (document 02, §4). Beside the table of all distances stands one
// of the ways down and then up: the non-negative edges, closed, and then the negative ones before them. One round of these, each with all
// distances behind it, says whether a projection is good; where it is not, rounds until nothing falls find the pair. Included behind plain.c.

// Distances are 32-bit numbers; what is at least APART joins nothing. A sum with NOWHERE stays past APART, since no distance of a plan
// without a cycle of negative sum is further from 0 than 32 records are.
enum { NOWHERE = 1 << 30, APART = 1 << 29 };
typedef i32 distances[POINTS * POINTS];
typedef struct { u8 kind, from, to, over; i32 first, second; } strip;
typedef struct { u32 rows, points, links; strip sheet[RECORDS]; i32 lasts[POINTS]; distances all, ways; } pair_test;

// The rows of a plan without the record at one place; a place past the last leaves all.
static void lay_strips(const plan *p, u32 without, pair_test *s) {
    links l;
    links_of(p, &l);
    s->rows = 0, s->links = 0, s->points = points_of(p);
    memset(s->lasts, 0, sizeof s->lasts);
    for (u32 i = 0; i < p->count; i++) {
        const record *r = &p->records[i];
        s->links += r->kind == LINK;
        if (i != without)
            s->sheet[s->rows++] = (strip){r->kind, r->a, r->kind == WAIT ? l.from[r->b] : r->b, r->b, r->first, r->second};
    }
}

static void lower_to(i32 *t, u8 i, u8 j, i32 v) {
    if (v < t[i * POINTS + j]) t[i * POINTS + j] = v;
}

// The edges of the rows, all or only those of zero or more.
static void draw(const pair_test *s, i32 *t, bool rising) {
    for (u32 i = 0; i < POINTS * POINTS; i++) t[i] = NOWHERE;
    for (u32 i = 0; i < POINTS; i++) t[i * POINTS + i] = 0;
    for (u32 q = 0; q < s->rows; q++) {
        const strip *r = &s->sheet[q];
        i32 p = s->lasts[r->over];
        if (r->kind == ORDINARY) {
            if (!rising || r->first >= 0) lower_to(t, r->from, r->to, r->first);
        } else if (r->kind == WAIT) {
            if (!rising) lower_to(t, r->from, r->to, -(r->first < p ? r->first : p));
        } else if (r->kind == LINK) {
            lower_to(t, r->from, r->to, p);
            if (!rising) lower_to(t, r->to, r->from, -p);
        }
    }
}

// A row lowered by another that is v further on; the other is a copy, so that no store changes it.
static void lower_row(i32 *row, const i32 *by, i32 v) {
    for (u32 j = 0; j < POINTS; j++) {
        i32 way = by[j] + v;
        row[j] = way < row[j] ? way : row[j];
    }
}

// The shortest distances, or false where some cycle has a negative sum.
static bool close_table(i32 *t, u32 n) {
    for (u32 k = 0; k < n; k++) {
        if (t[k * POINTS + k] < 0) return false;
        i32 by[POINTS];
        memcpy(by, t + k * POINTS, sizeof by);
        for (u32 i = 0; i < n; i++)
            if (t[i * POINTS + k] < APART) lower_row(t + i * POINTS, by, t[i * POINTS + k]);
    }
    for (u32 i = 0; i < n; i++)
        if (t[i * POINTS + i] < 0) return false;
    return true;
}

// How far the negative edge of a row is below zero, 0 where it has none, and the points that it joins.
static i32 fall_of(const strip *r, i32 p, u8 *from, u8 *to) {
    *from = r->kind == LINK ? r->to : r->from;
    *to = r->kind == LINK ? r->from : r->to;
    if (r->kind == LINK) return p;
    if (r->kind == WAIT) return r->first < p ? r->first : p;
    return r->kind == ORDINARY && r->first < 0 ? -r->first : 0;
}

static void ease_all(const pair_test *s, i32 *t) {
    for (u32 q = 0; q < s->rows; q++) {
        u8 from, to;
        i32 drop = fall_of(&s->sheet[q], s->lasts[s->sheet[q].over], &from, &to);
        if (drop == 0) continue;
        i32 by[POINTS];
        memcpy(by, t + to * POINTS, sizeof by);
        lower_row(t + from * POINTS, by, -drop);
    }
}

static i64 total_of(const i32 *t) {
    i64 sum = 0;
    for (u32 i = 0; i < POINTS * POINTS; i++) sum += t[i];
    return sum;
}

// The first pair of points that a way joins by more than their distance, or none.
static answer first_pair(const pair_test *s, u32 number) {
    for (u32 x = 0; x < s->points; x++)
        for (u32 y = 0; y < s->points; y++) {
            i32 v = s->all[x * POINTS + y];
            if (v < APART && v < s->ways[x * POINTS + y]) return (answer){PAIR, number, x, y};
        }
    return (answer){YES, number + 1, 0, 0};
}

// Whether one round says that the projection is good: each negative edge that nothing undercuts, and behind it all distances.
static bool good_at_once(pair_test *s) {
    for (u32 q = 0; q < s->rows; q++) {
        u8 from, to;
        i32 drop = fall_of(&s->sheet[q], s->lasts[s->sheet[q].over], &from, &to);
        if (drop && s->all[from * POINTS + to] == -drop) lower_row(s->ways + from * POINTS, s->all + to * POINTS, -drop);
    }
    return first_pair(s, 0).outcome == YES;
}

static bool close_rising(pair_test *s) {
    draw(s, s->ways, true);
    return close_table(s->ways, s->points);
}

// What is found of the projection that s stands at, where its distances are there already.
static answer judge_ways(pair_test *s, u32 number) {
    if (!close_rising(s)) return (answer){CYCLE, number, 0, 0};
    if (good_at_once(s)) return (answer){YES, number + 1, 0, 0};
    close_rising(s);
    i64 before, after = total_of(s->ways);
    do {
        before = after;
        ease_all(s, s->ways);
        after = total_of(s->ways);
    } while (after < before);
    return first_pair(s, number);
}

static bool close_all(pair_test *s) {
    draw(s, s->all, false);
    return close_table(s->all, s->points);
}

// Each link's durations inside the walk of the link before it; stops at the first projection that fails.
static answer walk_pairs(pair_test *s, u32 link, u32 number) {
    if (link == s->points + s->links) return close_all(s) ? judge_ways(s, number) : (answer){CYCLE, number, 0, 0};
    const strip *r = &s->sheet[link];
    answer found = {YES, number, 0, 0};
    for (i32 p = r->first; p <= r->second && found.outcome == YES; p++) {
        s->lasts[r->over] = p;
        found = walk_pairs(s, link + 1, found.at);
    }
    return found;
}

static answer test_with_two(const plan *p) {
    static pair_test s;
    refusal found = check(p);
    if (found.number) return (answer){REFUSED, found.number, found.place, 0};
    lay_strips(p, RECORDS, &s);
    u64 projections = 1;
    for (u32 q = s.points; q < s.points + s.links && projections <= 4096; q++)
        projections *= s.sheet[q].second + 1 - s.sheet[q].first;
    if (projections > 4096) return (answer){REFUSED, 13, 0, 0};
    return walk_pairs(&s, s.points, 0);
}
