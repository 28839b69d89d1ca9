//! Shows that the comparison finds what is wrong: wrong SEED SECONDS [TEXT]
//! Started by compare/wrong from the folder above. Each wrong version is bench/plain.c with one text replaced; it is compared
//! with the independent program as our programs are, and a difference has to come up in so many seconds. Some are given
//! good sheets and near misses instead, as compare/sheets gives them, and have to forbid a good one or take another. With TEXT
//! only those are tried of which it is a part of the description, or the name of what shows them.

use compare::draw::Draw;
use compare::programs::{self, Both, Way};
use compare::{inputs, plans, requests, sheets};
use std::io;
use std::path::Path;
use std::process::{Command, ExitCode};
use std::time::{Duration, Instant};

const PLAIN: &str = "bench/plain.c";
const THEIRS: &str = "oracle/target/release/oracle-";
/// Shown by sheets of plans that pass the test, given to the printing program.
const SHEETS: &str = "sheets";

struct Wrong {
    what: &'static str,
    /// The program that has to show it, or `sheets`.
    shown_by: &'static str,
    right: &'static str,
    wrong: &'static str,
}

const fn wrong(
    shown_by: &'static str,
    what: &'static str,
    right: &'static str,
    wrong: &'static str,
) -> Wrong {
    Wrong {
        what,
        shown_by,
        right,
        wrong,
    }
}

/// How plain C counts projections.
const COUNTED: &str = "u64 projections = 1;
    for (u32 i = 0; i < p->count; i++) {
        const record *r = &p->records[i];
        s.sheet[i] = (row){r->kind, r->a, r->kind == WAIT ? l.from[r->b] : r->b, r->b, r->first, r->second};
        if (r->kind == LINK) {
            past++;
            if (projections <= 4096) projections *= r->second + 1 - r->first;
        }
    }
    if (projections > 4096) return (answer){REFUSED, 13, 0, 0};";

/// The wrong readings that document 01 names come first.
const ALL: &[Wrong] = &[
    wrong(
        "probe",
        "only the shortest and longest durations are tested",
        "if (link == past) return judge(s, number);",
        "if (link == past) {
            for (u32 k = s->points; k < past; k++) {
                i64 d = s->durations[s->sheet[k].over];
                if (d != s->sheet[k].first && d != s->sheet[k].second) return (answer){YES, number + 1, 0, 0};
            }
            return judge(s, number);
        }",
    ),
    wrong(
        "probe",
        "a wait is projected as -w where the link ends sooner",
        "-(r->first < p ? r->first : p)",
        "-r->first",
    ),
    wrong(
        "sheet",
        "windows are judged after the event's watched points",
        "    if (v != 255 && !has(w.opens, v)) return *why",
        "    board after = *b;
        after.done |= set;
        for (u32 rest = set; rest; rest &= rest - 1) after.minutes[__builtin_ctz(rest)] = minute;
        windows_of(p, &after, &l, &w);
        if (v != 255 && !has(w.opens, v)) return *why",
    ),
    wrong(
        "sheet",
        "the latest comes from one point's High",
        "if (high < w->high) w->high = high;",
        "w->high = high; break;",
    ),
    wrong(
        "sheet",
        "a watched point counts as open",
        "& ~(l->watched | b->done | w->shut)",
        "& ~(b->done | w->shut)",
    ),
    wrong("sheet", "kinds may fall", "if (r->kind < s->kind) return 5;", ""),
    wrong(
        "sheet",
        "one more of a kind is taken",
        "if (s->counts[r->kind] == most[r->kind]) return 6;",
        "if (s->counts[r->kind] > most[r->kind]) return 6;",
    ),
    wrong(
        "sheet",
        "byte 3 is not looked at",
        "bool zeros = reserved == 0;",
        "bool zeros = reserved < 256;",
    ),
    wrong(
        "sheet",
        "an A that ends another link is refused",
        "if (has(s->watched, r->b)) return 10;\n            if (r->first < 1 || r->first >= r->second",
        "if (has(s->watched, r->b) || has(s->watched, r->a)) return 10;\n            if (r->first < 1 || r->first >= r->second",
    ),
    wrong(
        "sheet",
        "two links may end at one point",
        "if (has(s->watched, r->b)) return 10;\n            if (r->first < 1 || r->first >= r->second",
        "if (r->first < 1 || r->first >= r->second",
    ),
    wrong(
        "sheet",
        "a link may end in the event that starts it",
        "|| has(b->done, c)) return 25;",
        "|| has(b->done, c)) {
            bool starts = false;
            for (u32 k = 0; k < p->count; k++)
                if (p->records[k].kind == 2 && p->records[k].b == c && has(set, p->records[k].a)) starts = true;
            if (!starts) return 25;
            continue;
        }",
    ),
    wrong(
        "sheet",
        "x may be y",
        "r->first >= r->second",
        "r->first > r->second",
    ),
    wrong(
        "sheet",
        "twins are taken",
        "if (has(s->joined[r->a], r->b)) return 15;",
        "",
    ),
    wrong(
        "sheet",
        "15 comes after 11",
        "if (has(s->joined[r->a], r->b)) return 15;
            if (r->first < -FARTHEST || r->first > FARTHEST) return 11;",
        "if (r->first < -FARTHEST || r->first > FARTHEST) return 11;
            if (has(s->joined[r->a], r->b)) return 15;",
    ),
    wrong(
        "sheet",
        "15 comes before 7",
        "if (!zeros) return 7;",
        "if (r->kind == ORDINARY && r->a < POINTS && has(s->joined[r->a], r->b)) return 15;
    if (!zeros) return 7;",
    ),
    wrong(
        "sheet",
        "the pair the other way round is a twin",
        "s->joined[r->a] |= 1u << r->b;",
        "s->joined[r->a] |= 1u << r->b, s->joined[r->b] |= 1u << r->a;",
    ),
    wrong(
        "sheet",
        "only the record before is looked at for a twin",
        "s->joined[r->a] |= 1u << r->b;",
        "memset(s->joined, 0, sizeof s->joined);
            s->joined[r->a] |= 1u << r->b;",
    ),
    wrong(
        "sheet",
        "a link has twins",
        "if (r->first < 1 || r->first >= r->second",
        "s->joined[r->a] |= 1u << r->b;
            if (r->first < 1 || r->first >= r->second",
    ),
    wrong(
        "sheet",
        "a wait is a twin of an ordinary record",
        "if (r->first < 1 || r->first > s->longest[r->b]) return 11;",
        "if (has(s->joined[r->a], r->b)) return 15;
            if (r->first < 1 || r->first > s->longest[r->b]) return 11;",
    ),
    wrong(
        "sheet",
        "the first of two twins is named",
        "if (number) return (refusal){number, i};",
        "if (number == 15)
            for (u32 k = 0; k < i; k++)
                if (p->records[k].kind == ORDINARY && p->records[k].a == p->records[i].a && p->records[k].b == p->records[i].b)
                    return (refusal){15, k};
        if (number) return (refusal){number, i};",
    ),
    wrong(
        "sheet",
        "a wait may be one longer than y",
        "r->first > s->longest[r->b]) return 11;",
        "r->first > s->longest[r->b] + 1) return 11;",
    ),
    wrong(
        "sheet",
        "a wait's V may be its A",
        " || r->a == s->from[r->b]) return 10;",
        ") return 10;",
    ),
    wrong(
        "sheet",
        "one record more than there is room for is read",
        "if (n / RECORD > RECORDS) return (refusal){3, 0};",
        "if (n / RECORD > RECORDS + 1) return (refusal){3, 0};",
    ),
    wrong(
        "probe",
        "a refused read hands back records",
        "if (found.number) memset(out, 0, sizeof *out);\n    return found;",
        "return found;",
    ),
    wrong(
        "probe",
        "a plan by value with one record too many is taken for one of another number",
        "if (p->count > RECORDS) return (refusal){3, 0};",
        "if (p->count > RECORDS) return (refusal){6, 0};",
    ),
    wrong(
        "probe",
        "a write leaves byte 3 as it was",
        "b[2] = r->b, b[3] = 0;",
        "b[2] = r->b;",
    ),
    wrong(
        "probe",
        "a write wants one byte more",
        "if (n < RECORD * (size_t)p->count)",
        "if (n <= RECORD * (size_t)p->count)",
    ),
    wrong(
        "probe",
        "a done point may be outside the plan",
        "if (b->done & ~below(points_of(p))) return false;",
        "",
    ),
    wrong(
        "probe",
        "a point not done may hold a minute",
        "if (m > b->clock || (m && !has(b->done, i))) return false;",
        "if (m > b->clock) return false;",
    ),
    wrong(
        "probe",
        "the clock may be past the largest minute",
        "if (b->clock != last) return false;",
        "if (b->clock < last) return false;",
    ),
    wrong(
        "probe",
        "an end may be done without its A",
        "if (!has(b->done, r->a) || to <",
        "if (to <",
    ),
    wrong(
        "probe",
        "a done duration may be x - 1",
        "to < from + r->first ||",
        "to + 1 < from + r->first ||",
    ),
    wrong(
        "probe",
        "a done duration may be y + 1",
        "to > from + r->second) return false;",
        "to > from + r->second + 1) return false;",
    ),
    wrong(
        "probe",
        "a running link may have run out by one",
        "b->clock > from + r->second) return false;",
        "b->clock > from + r->second + 1) return false;",
    ),
    wrong(
        "probe",
        "the clock may be any",
        "    if (b->clock > FARTHEST * (u32)__builtin_popcount(b->done)) return false;\n",
        "",
    ),
    wrong(
        "probe",
        "the clock may not be the farthest",
        "if (b->clock > FARTHEST * (u32)__builtin_popcount(b->done)) return false;",
        "if (b->clock >= FARTHEST * (u32)__builtin_popcount(b->done) && b->clock) return false;",
    ),
    wrong(
        "sheet",
        "d = 0 shuts a point",
        "} else if (r->first < 0) shut",
        "} else if (r->first <= 0) shut",
    ),
    wrong(
        "sheet",
        "a wait does not shut its point before A",
        "if (!has(b->done, a)) shuts(w, r->a, i);\n            else if",
        "if",
    ),
    wrong(
        "sheet",
        "a wait counts after its C",
        "else if (!has(b->done, r->b)) {\n                i64 low = (i64)b->minutes[a] + r->first;",
        "else {\n                i64 low = (i64)b->minutes[a] + r->first;",
    ),
    wrong(
        "sheet",
        "a Low may be before the clock",
        "w->lows[i] = b->clock, highs",
        "w->lows[i] = 0, highs",
    ),
    wrong(
        "sheet",
        "a running link unsticks a board",
        "    return true;\n}\n\n// The record for a point",
        "    return !any_running(p, b);\n}\n\n// The record for a point",
    ),
    wrong(
        "sheet",
        "a Low at H is above it",
        "<= w->high) return false;",
        "< w->high) return false;",
    ),
    wrong(
        "sheet",
        "an offer reaches one minute further",
        "i64 furthest = (i64)b->clock + FARTHEST;",
        "i64 furthest = (i64)b->clock + FARTHEST + 1;",
    ),
    wrong(
        "probe",
        "a Low at the latest is held",
        "|| w.lows[i] > latest)",
        "|| w.lows[i] >= latest)",
    ),
    wrong(
        "probe",
        "an event of 17 bytes is read",
        "if (length != RECORD ||",
        "if (length < RECORD ||",
    ),
    wrong(
        "sheet",
        "25 comes after 26",
        "|| has(b->done, c)) return 25;",
        ") return 25;",
    ),
    wrong(
        "sheet",
        "an end one minute late is taken",
        "duration > l.y[c]) return 26;",
        "duration > l.y[c] + 1) return 26;",
    ),
    wrong(
        "sheet",
        "a link that runs out at the minute gives 27",
        "&& minute > (u64)b->minutes[r->a] + r->second) return 27;",
        "&& minute >= (u64)b->minutes[r->a] + r->second) return 27;",
    ),
    wrong(
        "sheet",
        "a refused event moves the clock",
        "if (number) return (refusal){number, why};",
        "if (number) { if (number == 29) b->clock++; return (refusal){number, why}; }",
    ),
    wrong(
        "probe",
        "a wait is judged by w alone",
        "i64 least = r->first < to - from ? r->first : to - from;",
        "i64 least = r->first;",
    ),
    wrong(
        "probe",
        "a record at its bound is broken",
        "to - at > r->first) return",
        "to - at >= r->first) return",
    ),
    wrong(
        "probe",
        "a list is looked through for 8 only as far as the first broken bound",
        "return (refusal){8, i};\n    for (u32 i = 0; i < count; i++) {",
        "return (refusal){8, i};\n        else if ((i64)b->minutes[list[8 * i + 1]] - b->minutes[list[8 * i]] > (i32)word_at(list + 8 * i + 4)) break;\n    for (u32 i = 0; i < count; i++) {",
    ),
    wrong(
        "probe",
        "a list may name the point just past the plan",
        "list[8 * i + 1] >= points)",
        "list[8 * i + 1] > points)",
    ),
    wrong(
        "probe",
        "a listed bound is broken where it is just kept",
        "if (to - at > (i32)word_at(",
        "if (to - at >= (i32)word_at(",
    ),
    wrong(
        "probe",
        "a listed bound is unsigned",
        "> (i32)word_at(",
        "> word_at(",
    ),
    wrong(
        "probe",
        "one bound more than there is room for is judged",
        "length / 8 < LISTED ? length / 8 : LISTED;",
        "length / 8 <= LISTED ? length / 8 : LISTED + 1;",
    ),
    wrong(
        "probe",
        "a stream ends with its first refused event",
        "said[3] = b->done;",
        "said[3] = b->done;\n        if (said[0]) break;",
    ),
    wrong(
        "probe",
        "a stream says the board before an event",
        "        refusal one = take(p, b, events + RECORD * i, RECORD);\n",
        "        board before = *b;\n        refusal one = take(p, &before, events + RECORD * i, RECORD);\n        said[2] = b->clock, said[3] = b->done;\n        *b = before, said[0] = one.number, said[1] = one.place;\n        continue;\n",
    ),
    wrong(
        "probe",
        "a stream takes events for which there is no room",
        "SAID * (i + 1) <= numbers;",
        "SAID * i < numbers;",
    ),
    wrong(
        "probe",
        "edges of weight 0 count as negative",
        "(part == FALLING && v >= 0) || (part == RISING && v < 0)",
        "(part == FALLING && v > 0) || (part == RISING && v <= 0)",
    ),
    wrong(
        "probe",
        "the pairs are walked with Y slowest",
        "i64 v = s->all[x * POINTS + y];\n            if (v < NONE && !reaches(s, x, y, v)) return (answer){PAIR, number, x, y};",
        "i64 v = s->all[y * POINTS + x];\n            if (v < NONE && !reaches(s, y, x, v)) return (answer){PAIR, number, y, x};",
    ),
    wrong(
        "probe",
        "4,097 projections are tried",
        "if (projections > 4096) return",
        "if (projections > 4097) return",
    ),
    wrong(
        "probe",
        "projections are counted in 32 bits",
        COUNTED,
        "u64 projections = 1, all = 1;
    for (u32 i = 0; i < p->count; i++) {
        const record *r = &p->records[i];
        s.sheet[i] = (row){r->kind, r->a, r->kind == WAIT ? l.from[r->b] : r->b, r->b, r->first, r->second};
        if (r->kind == LINK) {
            past++;
            if (all <= 4096) all *= r->second + 1 - r->first;
            projections = (u32)(projections * (r->second + 1 - r->first));
        }
    }
    if (projections > 4096) return (answer){REFUSED, 13, 0, 0};
    if (all > 4096) return (answer){YES, projections, 0, 0};",
    ),
    wrong(
        "probe",
        "projections are counted in 64 bits",
        COUNTED,
        "u64 projections = 1, all = 1;
    for (u32 i = 0; i < p->count; i++) {
        const record *r = &p->records[i];
        s.sheet[i] = (row){r->kind, r->a, r->kind == WAIT ? l.from[r->b] : r->b, r->b, r->first, r->second};
        if (r->kind == LINK) {
            past++;
            if (all <= 4096) all *= r->second + 1 - r->first;
            projections = (projections * (r->second + 1 - r->first));
        }
    }
    if (projections > 4096) return (answer){REFUSED, 13, 0, 0};
    if (all > 4096) return (answer){YES, projections, 0, 0};",
    ),
    wrong(
        "sheet",
        "30 before 29",
        "if (v != 255 && minute < w.lows[v]) return 29;\n    if (w.opens && minute > latest_of(b, &w)) return 30;",
        "if (w.opens && minute > latest_of(b, &w)) return 30;\n    if (v != 255 && minute < w.lows[v]) return 29;",
    ),
    wrong(
        "sheet",
        "events are counted in 16 bits",
        "say(events++,",
        "say((unsigned short)events++,",
    ),
    wrong(
        "sheet",
        "an unfinished last record is not told",
        "if (left) put_line(\"tail\", NULL, 0);",
        "",
    ),
    // Each of the next eight forbids some good sheet.
    wrong(
        SHEETS,
        "an offer ends one minute sooner",
        "i64 furthest = (i64)b->clock + FARTHEST;",
        "i64 furthest = (i64)b->clock + FARTHEST - 1;",
    ),
    wrong(
        SHEETS,
        "a point is taken at its Low only",
        "minute < w.lows[v]) return 29;",
        "minute != w.lows[v]) return 29;",
    ),
    wrong(
        SHEETS,
        "one foreman's point a minute",
        "if (minute < b->clock) return 24;",
        "if (minute < b->clock || (v != 255 && b->done && minute == b->clock)) return 24;",
    ),
    wrong(
        SHEETS,
        "a wait counts in its C's minute",
        "else if (!has(b->done, r->b)) {\n                i64 low = (i64)b->minutes[a] + r->first;",
        "else if (!has(b->done, r->b) || b->minutes[r->b] == b->clock) {\n                i64 low = (i64)b->minutes[a] + r->first;
                if (has(b->done, r->b) && low > b->clock + 1) low = b->clock + 1;",
    ),
    wrong(
        SHEETS,
        "d = 0 shuts a point",
        "} else if (r->first < 0) shut",
        "} else if (r->first <= 0) shut",
    ),
    wrong(
        SHEETS,
        "links end one by one",
        "if (minute < b->clock) return 24;",
        "if (minute < b->clock || (set & (set - 1))) return 24;",
    ),
    wrong(
        SHEETS,
        "the first minute may not be the farthest",
        "if (b->clock > FARTHEST * (u32)__builtin_popcount(b->done)) return false;",
        "if (b->clock >= FARTHEST * (u32)__builtin_popcount(b->done) && b->clock) return false;",
    ),
    wrong(
        SHEETS,
        "the latest is one before H where a point has more room",
        "return w->high < furthest ? w->high : furthest;",
        "i64 least = FARTHEST * 64;
    for (u32 rest = w->opens; rest; rest &= rest - 1)
        if (w->lows[__builtin_ctz(rest)] < least) least = w->lows[__builtin_ctz(rest)];
    return w->high < furthest ? w->high - (least < w->high) : furthest;",
    ),
    // Each of these takes some near miss.
    wrong(
        SHEETS,
        "an offer reaches one minute further",
        "i64 furthest = (i64)b->clock + FARTHEST;",
        "i64 furthest = (i64)b->clock + FARTHEST + 1;",
    ),
    wrong(
        SHEETS,
        "a wait may be one minute short",
        "i64 low = (i64)b->minutes[a] + r->first;",
        "i64 low = (i64)b->minutes[a] + r->first - 1;",
    ),
    wrong(
        SHEETS,
        "a point at its C's minute may come before it",
        "i64 low = (i64)b->minutes[a] + r->first;",
        "i64 low = (i64)b->minutes[a] + r->first;
                if (low > (i64)b->minutes[a] + l->x[r->b]) low = (i64)b->minutes[a] + l->x[r->b];",
    ),
    wrong(
        SHEETS,
        "a step back of d may be one minute short",
        "i64 low = (i64)b->minutes[r->b] - r->first;",
        "i64 low = (i64)b->minutes[r->b] - r->first - 1;",
    ),
    wrong(
        SHEETS,
        "a point may come one minute past its High",
        "i64 high = (i64)b->minutes[r->a] + r->first;",
        "i64 high = (i64)b->minutes[r->a] + r->first + 1;",
    ),
    wrong(
        SHEETS,
        "an end one minute soon is taken",
        "if (duration < l.x[c] ||",
        "if (duration + 1 < l.x[c] ||",
    ),
    // document 02, §7
    wrong(
        "probe",
        "a gap between event numbers",
        "    if (seen != below(count)) return false;\n",
        "",
    ),
    wrong(
        "probe",
        "two foreman's points of one event number",
        "if (foremans & slot) return false;",
        "",
    ),
    wrong(
        "probe",
        "two minutes for one event number",
        "        if (seen & slot && noted[n - 1] != b->minutes[i]) return false;\n",
        "",
    ),
    wrong(
        "probe",
        "minutes fall as event numbers rise",
        "        if (noted[i] < noted[i - 1]) return false;",
        "        if (noted[i] + 1 == 0) return false;",
    ),
    wrong(
        "probe",
        "a point that is not done has an event number",
        "            if (n) return false;\n",
        "",
    ),
    wrong(
        "probe",
        "an event is numbered by how many points are done",
        "b->calls[__builtin_ctz(rest)] = call + 1;",
        "b->calls[__builtin_ctz(rest)] = (call ? __builtin_popcount(b->done) : 1);",
    ),
    // document 02, §6: what is open stays as it was, only what is told of it is wrong
    wrong(
        "probe",
        "why: the last record that shuts a point",
        "    if (w->firsts[v] == 0) w->firsts[v] = i;",
        "    w->firsts[v] = i;",
    ),
    wrong(
        "probe",
        "why: waits before ordinary records",
        "            if (!has(b->done, a)) shuts(w, r->a, i);\n",
        "            if (!has(b->done, a)) {
                u32 was = w->firsts[r->a];
                w->shut |= 1u << r->a;
                if (was == 0 || p->records[was].kind != WAIT) w->firsts[r->a] = i;
            }\n",
    ),
    wrong(
        "probe",
        "why: a wait whose A is done",
        "            if (!has(b->done, a)) shuts(w, r->a, i);\n",
        "            if (w->firsts[r->a] == 0) w->firsts[r->a] = i;
            if (!has(b->done, a)) shuts(w, r->a, i);\n",
    ),
    wrong(
        "probe",
        "why: a wait whose drive is under way",
        "            if (!has(b->done, a)) shuts(w, r->a, i);\n",
        "            if (!has(b->done, r->b) && w->firsts[r->a] == 0) w->firsts[r->a] = i;
            if (!has(b->done, a)) shuts(w, r->a, i);\n",
    ),
    wrong(
        "probe",
        "why: a record to a point that is done",
        "            if (has(b->done, r->b)) {\n                i64 low = (i64)b->minutes[r->b] - r->first;",
        "            if (r->first < 0 && w->firsts[r->a] == 0) w->firsts[r->a] = i;
            if (has(b->done, r->b)) {\n                i64 low = (i64)b->minutes[r->b] - r->first;",
    ),
    wrong(
        "probe",
        "why: a record with d = 0",
        "            } else if (r->first < 0) shuts(w, r->a, i);\n",
        "            } else if (r->first < 0) shuts(w, r->a, i);
            else if (r->first == 0 && w->firsts[r->a] == 0) w->firsts[r->a] = i;\n",
    ),
    wrong(
        "probe",
        "why: counted without points and links",
        "    w->opens = below(points_of(p)) & ~(l->watched | b->done | w->shut);",
        "    w->opens = below(points_of(p)) & ~(l->watched | b->done | w->shut);
    for (u32 v = 0; v < POINTS; v++)
        if (w->firsts[v]) w->firsts[v] -= points_of(p) + __builtin_popcount(l->watched);",
    ),
    wrong(
        "probe",
        "why: counted within its kind",
        "    w->opens = below(points_of(p)) & ~(l->watched | b->done | w->shut);",
        "    w->opens = below(points_of(p)) & ~(l->watched | b->done | w->shut);
    for (u32 v = 0; v < POINTS; v++) {
        u32 first = w->firsts[v];
        w->firsts[v] = 0;
        for (u32 i = 0; i < first; i++) w->firsts[v] += p->records[i].kind == p->records[first].kind;
    }",
    ),
    wrong(
        "probe",
        "why: counted from 1",
        "has(l->watched | b->done, v) ? 0 : w->firsts[v];",
        "has(l->watched | b->done, v) || w->firsts[v] == 0 ? 0 : w->firsts[v] + 1;",
    ),
    wrong(
        "probe",
        "why: a byte for the record",
        "has(l->watched | b->done, v) ? 0 : w->firsts[v];",
        "has(l->watched | b->done, v) ? 0 : (u8)w->firsts[v];",
    ),
    wrong(
        "probe",
        "why: none in a list",
        "*at = (place){SHUT, why_shut(b, &l, &w, i)};",
        "*at = (place){SHUT, 0};",
    ),
    wrong(
        "probe",
        "why: a waiting board's list is empty",
        "else if (w.opens == 0) out->outcome = WAITING;",
        "else if (w.opens == 0) {
        out->outcome = WAITING;
        return;
    }",
    ),
    wrong(
        "probe",
        "why: a stuck board's list is empty",
        "if (is_stuck(p, b, &w)) out->outcome = STUCK;",
        "if (is_stuck(p, b, &w)) {
        out->outcome = STUCK;
        return;
    }",
    ),
    wrong(
        "probe",
        "why: the list of a stuck board where nothing is open is empty",
        "if (is_stuck(p, b, &w)) out->outcome = STUCK;",
        "if (is_stuck(p, b, &w)) {
        out->outcome = STUCK;
        if (w.opens == 0) return;
    }",
    ),
    wrong(
        "probe",
        "why: open points of a stuck board are offered",
        "out->outcome == STUCK || w.lows[i] > latest)",
        "out->outcome != STUCK && w.lows[i] > latest)",
    ),
    wrong(
        "probe",
        "why: open points of a stuck board are shut",
        "        else if (out->outcome == STUCK || w.lows[i] > latest)",
        "        else if (out->outcome == STUCK) *at = (place){SHUT, 0};\n        else if (w.lows[i] > latest)",
    ),
    wrong(
        "probe",
        "why: a stuck board has a latest",
        "if (is_stuck(p, b, &w)) out->outcome = STUCK;",
        "if (is_stuck(p, b, &w)) out->outcome = STUCK, out->latest = w.opens ? latest : 0;",
    ),
    wrong(
        "probe",
        "why: a stuck board has a latest where that is not below zero",
        "if (is_stuck(p, b, &w)) out->outcome = STUCK;",
        "if (is_stuck(p, b, &w)) out->outcome = STUCK, out->latest = w.opens && latest > 0 ? latest : 0;",
    ),
    wrong(
        "probe",
        "why: a waiting board has a latest",
        "else if (w.opens == 0) out->outcome = WAITING;",
        "else if (w.opens == 0) out->outcome = WAITING, out->latest = latest;",
    ),
    wrong(
        "probe",
        "why: a finished board has a list",
        "    if (b->done == below(n)) return;\n",
        "    if (b->done == below(n)) {
        for (u32 i = 0; i < n; i++) out->places[i] = (place){DONE, b->minutes[i]};
        return;
    }\n",
    ),
    wrong(
        "probe",
        "why: 28 has no record",
        "return *why = why_shut(b, &l, &w, v), 28;",
        "return 28;",
    ),
    wrong(
        "probe",
        "why: 28 has a record for a watched point",
        "return has(l->watched | b->done, v) ?",
        "return has(b->done, v) ?",
    ),
    wrong(
        "probe",
        "why: 28 has a record for a done point",
        "return has(l->watched | b->done, v) ?",
        "return has(l->watched & ~b->done, v) ?",
    ),
    wrong(
        "probe",
        "why: 28 has the record of the board after the event's watched points",
        "return *why = why_shut(b, &l, &w, v), 28;",
        "{
        board after = *b;
        after.done |= set;
        for (u32 rest = set; rest; rest &= rest - 1) after.minutes[__builtin_ctz(rest)] = minute;
        windows_of(p, &after, &l, &w);
        return *why = why_shut(b, &l, &w, v), 28;
    }",
    ),
    wrong(
        "probe",
        "why: 29 has a record too",
        "minute < w.lows[v]) return 29;",
        "minute < w.lows[v]) return *why = points_of(p), 29;",
    ),
    wrong(
        "probe",
        "why: a stream says no record",
        "said[0] = one.number, said[1] = one.place;",
        "said[0] = one.number, said[1] = 0;",
    ),
    wrong(
        "probe",
        "why: a stream says the record in the last place",
        "said[0] = one.number, said[1] = one.place;\n        said[2] = b->clock;\n        said[3] = b->done;",
        "said[0] = one.number, said[3] = one.place;\n        said[1] = b->clock;\n        said[2] = b->done;",
    ),
    wrong(
        "probe",
        "why: a stream goes on where there is room for three numbers",
        "SAID * (i + 1) <= numbers;",
        "3 * (i + 1) <= numbers && SAID * (i + 1) <= STREAM_ROOM;",
    ),
];

fn main() -> ExitCode {
    let words: Vec<String> = std::env::args().collect();
    let numbers = match &words[..] {
        [_, seed, seconds] | [_, seed, seconds, _] => seed.parse().ok().zip(seconds.parse().ok()),
        _ => None,
    };
    let Some((seed, seconds)) = numbers else {
        eprintln!("usage: wrong SEED SECONDS [TEXT]");
        return ExitCode::from(2);
    };
    let text = words.get(3).map_or("", String::as_str);
    let chosen = |one: &&Wrong| one.what.contains(text) || one.shown_by == text;
    let chosen: Vec<&Wrong> = ALL.iter().filter(chosen).collect();
    programs::watch();
    match find_all(&chosen, seed, Duration::from_secs(seconds)) {
        Ok(0) => ExitCode::SUCCESS,
        Ok(_) => ExitCode::FAILURE,
        Err(error) => {
            eprintln!("wrong: {error}");
            ExitCode::from(2)
        }
    }
}

/// Tries these wrong versions; answers how many are not found.
fn find_all(chosen: &[&Wrong], seed: u64, patience: Duration) -> io::Result<usize> {
    let source = std::fs::read_to_string(PLAIN)?;
    let folder = std::env::temp_dir().join(format!("wrong-{}", std::process::id()));
    std::fs::create_dir_all(&folder)?;
    let mut missed = 0;
    for one in chosen {
        if source.matches(one.right).count() != 1 {
            let what = format!("{}: its text is not once in {PLAIN}", one.what);
            return Err(io::Error::other(what));
        }
        let program = build(&folder, &source.replace(one.right, one.wrong))?;
        let found = if one.shown_by == SHEETS {
            let words = [program, "sheet".to_string()];
            find_by_sheets(&words, seed, patience)?
        } else {
            let both = Both {
                name: one.shown_by.to_string(),
                ours: vec![program, one.shown_by.to_string()],
                theirs: format!("{THEIRS}{}", one.shown_by),
                scratch: folder.join("input"),
            };
            find(&both, seed, patience)?
        };
        match found {
            Some(after) => println!("found after {after:>5} inputs: {}", one.what),
            None => {
                println!("NOT FOUND: {}", one.what);
                missed += 1;
            }
        }
    }
    std::fs::remove_dir_all(&folder)?;
    println!("{} wrong versions, {missed} not found", chosen.len());
    Ok(missed)
}

/// Builds a version of the plain program.
fn build(folder: &Path, source: &str) -> io::Result<String> {
    let (file, program) = (folder.join("plain.c"), folder.join("plain"));
    std::fs::write(&file, source)?;
    let mut gcc = Command::new("gcc");
    gcc.args(["-O1", "-std=c11", "-w", "-o"]).arg(&program);
    if !gcc.arg(&file).status()?.success() {
        return Err(io::Error::other("gcc does not take a wrong version"));
    }
    Ok(program.to_string_lossy().into_owned())
}

/// The number of inputs after which the two differ.
fn find(both: &Both, seed: u64, patience: Duration) -> io::Result<Option<usize>> {
    let start = Instant::now();
    let mut after = 0;
    for batch in 0.. {
        let draw = &mut Draw::new(seed, batch);
        let inputs = match both.name.as_str() {
            "probe" => requests::batch(draw, batch),
            _ => inputs::batch(draw, batch),
        };
        for input in inputs {
            after += 1;
            if both.differ(&input.bytes, Way::Pipe)? {
                return Ok(Some(after));
            }
            if start.elapsed() > patience {
                return Ok(None);
            }
        }
    }
    Ok(None)
}

/// The number of sheets after which one does not go as it must.
fn find_by_sheets(words: &[String], seed: u64, patience: Duration) -> io::Result<Option<usize>> {
    let start = Instant::now();
    let mut after = 0;
    for batch in 0.. {
        let draw = &mut Draw::new(seed, batch);
        let plan = plans::of_number(draw, batch);
        for sheet in sheets::drawn(draw, &plan) {
            after += 1;
            let shown = programs::run(words, &sheet.input(&plan))?;
            if sheets::held(&sheet, &shown.bytes).is_err() {
                return Ok(Some(after));
            }
        }
        if start.elapsed() > patience {
            return Ok(None);
        }
    }
    Ok(None)
}
