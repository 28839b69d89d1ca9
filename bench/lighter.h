// A lighter plan: document 02, §11, with two tables as the proved tool has it. Included behind tables.h.

// In the projection that s stands at the rows are good, and lead from one point of r to the other in no more than it says.
static bool enough(pair_test *s, const record *r) {
    return close_all(s) && s->all[r->a * POINTS + r->b] <= r->first && judge_ways(s, 0).outcome == YES;
}

// .. in each projection, up to the first in which they are not.
static bool enough_in_all(pair_test *s, u32 link, const record *r) {
    if (link == s->points + s->links) return enough(s, r);
    const strip *l = &s->sheet[link];
    for (i32 p = l->first; p <= l->second; p++) {
        s->lasts[l->over] = p;
        if (!enough_in_all(s, link + 1, r)) return false;
    }
    return true;
}

// Drops each ordinary record of a plan that passes, in file order, that the others make up for; answers how many went.
static u32 drop_all(plan *p, u32 *dropped) {
    static pair_test s;
    u32 count = 0, total = p->count;
    for (u32 i = 0; i < total; i++) {
        u32 at = i - count;
        record r = p->records[at];
        if (r.kind != ORDINARY) continue;
        lay_strips(p, at, &s);
        if (!enough_in_all(&s, s.points, &r)) continue;
        memmove(p->records + at, p->records + at + 1, (p->count - at - 1) * sizeof *p->records);
        p->count--;
        dropped[count++] = i;
    }
    return count;
}
