// Times calls of the proved library through its C interface against the plain versions: calls KIND < INPUT. The input is what `sheet` reads,
// a plan, the mark and events, or for `import` a text. All events are taken first, but for the last one where an event is timed. It prints
// `same` where both sides answer alike, and then for each of some turns the nanoseconds of processor time that a call took on
// either side, ours first. Both sides are given a plan as its file where the C interface takes a file.
#define _POSIX_C_SOURCE 199309L
#define RULES_ALONE
#include "plain.c"
#include "kept.h"
#include "office.h"
#include "calendar.h"
#include "ponds.h"
#include <stdlib.h>
#include <time.h>

enum { TURNS = 9 };
// A turn of one side takes about so many nanoseconds.
#define TURN 20e6

static u8 *input;
static size_t input_length, file_length, event_count;
static const u8 *events;

// Ours: the rooms that the caller lends.
static u32 our_links[PONDS_LINKS], our_kept[PONDS_KEPT], our_reply[PONDS_REPLY], our_verdict[2];
static u32 our_rows[PONDS_ROWS];
static u16 our_into[PONDS_LIST], our_out[PONDS_LIST], our_ends[PONDS_LIST];
static u32 before_kept[PONDS_KEPT];
static u32 told[PONDS_BOARD];
static u8 our_text[PONDS_MOST_FILE], plain_text[PONDS_MOST_FILE];

// Plain.
static plan the_plan;
static engine the_engine;
static kept the_kept, saved_kept;
static board the_board, saved_board;
static reply the_reply;

static const stamp ORIGIN = {2026, 11, 16, 6, 0};

// What a call answers: the number, and what stands beside it.
static u64 answered(u32 number, u32 beside) { return (u64)beside << 32 | number; }
static u64 refused_with(refusal r) { return answered(r.number, r.place); }

// ---- our side

static u64 our_check(void) { return ponds_check(input, file_length); }
static u64 our_begin(void) {
    return ponds_begin(input, file_length, our_links, our_rows, our_into, our_out, our_ends, our_kept);
}
static u64 our_take(const u8 *e) { return ponds_take(our_links, our_rows, our_into, our_out, our_ends, our_kept, e, RECORD); }
static u64 our_event(void) {
    memcpy(our_kept, before_kept, sizeof our_kept);
    return our_take(events + RECORD * (event_count - 1));
}
static u64 our_replied(void) { return ponds_reply(our_links, our_rows, our_out, our_kept, our_reply); }
static u64 our_told(void) { return ponds_board(our_kept, told); }
static u64 our_judged(void) { return ponds_verdict(input, file_length, our_kept, our_verdict); }
static u64 our_calendar(void) {
    return ponds_calendar(input, file_length, our_kept, ORIGIN.year, ORIGIN.month, ORIGIN.day, ORIGIN.hour, ORIGIN.minute,
                          our_text, sizeof our_text);
}
static u64 our_import(void) { return ponds_import(input, input_length, our_text, sizeof our_text); }

// ---- the plain side

static u64 plain_check(void) {
    refusal found = read_plan(input, file_length, &the_plan);
    return answered(found.number, found.number ? found.place : the_plan.count);
}
static u64 plain_begin(void) {
    refusal found = read_plan(input, file_length, &the_plan);
    return refused_with(found.number ? found : begin(&the_plan, &the_engine, &the_kept));
}
static u64 plain_event(void) {
    the_kept = saved_kept;
    the_board = saved_board;
    return refused_with(take_kept(&the_engine, &the_kept, &the_board, events + RECORD * (event_count - 1), RECORD));
}
static u64 again_event(void) {
    the_board = saved_board;
    return refused_with(take(&the_plan, &the_board, events + RECORD * (event_count - 1), RECORD));
}
static u64 plain_replied(void) { return reply_kept(&the_engine, &the_kept, &the_board, &the_reply), 0; }
static u64 again_replied(void) { return reply_of(&the_plan, &the_board, &the_reply), 0; }
static u64 plain_told(void) {
    told[0] = the_board.clock, told[1] = the_board.done;
    memcpy(told + 2, the_board.minutes, sizeof the_board.minutes);
    memcpy(told + 2 + POINTS, the_board.calls, sizeof the_board.calls);
    return 0;
}
static u64 plain_judged(void) {
    refusal found = read_plan(input, file_length, &the_plan);
    if (found.number == 0) found = verdict_of(&the_plan, &the_board);
    return found.number == 100 ? 0 : refused_with(found);
}
static u64 plain_calendar(void) {
    refusal found = read_plan(input, file_length, &the_plan);
    if (found.number) return refused_with(found);
    written w = write_calendar(&the_plan, &the_board, &ORIGIN, plain_text, sizeof plain_text);
    return answered(w.refused.number, w.refused.number ? w.refused.place : w.length);
}
static u64 plain_import(void) {
    imported found = import(input, input_length, &the_plan);
    if (found.number) return answered(found.number, found.line);
    write_plan(&the_plan, plain_text, sizeof plain_text);
    return answered(0, the_plan.count);
}

// ---- whether both say the same beside the number

static bool same_board(void) {
    u32 board[PONDS_BOARD];
    ponds_board(our_kept, board);
    return board[0] == the_board.clock && board[1] == the_board.done && !memcmp(board + 2, the_board.minutes, sizeof the_board.minutes)
        && !memcmp(board + 2 + POINTS, the_board.calls, sizeof the_board.calls);
}

static bool same_reply(void) {
    if (our_reply[0] + FINISHED != the_reply.outcome || our_reply[1] != the_reply.latest) return false;
    for (u32 i = 0; i < POINTS; i++)
        if (our_reply[2 + 2 * i] + DONE != the_reply.places[i].state || our_reply[3 + 2 * i] != the_reply.places[i].with) return false;
    return true;
}

static bool same_text(void) { return !memcmp(our_text, plain_text, sizeof our_text); }
static bool same_number(void) { return true; }

static const struct { const char *name; u64 (*ours)(void), (*plain)(void); bool (*same)(void); } KINDS[] = {
    {"check", our_check, plain_check, same_number},
    {"begin", our_begin, plain_begin, same_board},
    {"event", our_event, plain_event, same_board},
    {"event-plain", our_event, again_event, same_board},
    {"reply", our_replied, plain_replied, same_reply},
    {"reply-plain", our_replied, again_replied, same_reply},
    {"board", our_told, plain_told, same_board},
    {"verdict", our_judged, plain_judged, same_board},
    {"calendar", our_calendar, plain_calendar, same_text},
    {"import", our_import, plain_import, same_text},
};

static double now(void) {
    struct timespec t;
    clock_gettime(CLOCK_PROCESS_CPUTIME_ID, &t);
    return t.tv_sec * 1e9 + t.tv_nsec;
}

// How many nanoseconds so many calls take. The call is by a pointer that the compiler does not know, so each is made.
static double timed(u64 (*call)(void), u64 times) {
    u64 (*volatile made)(void) = call;
    double start = now();
    for (u64 i = 0; i < times; i++) made();
    return now() - start;
}

static void read_input(void) {
    size_t room = 1 << 20, n;
    input = malloc(room);
    while (input && (n = read_full(input + input_length, room - input_length)) > 0) {
        input_length += n;
        if (input_length == room) input = realloc(input, room *= 2);
    }
    if (!input) exit(3);
    file_length = 0;
    while (file_length + RECORD <= input_length && !is_mark(input + file_length)) file_length += RECORD;
    events = input + file_length + RECORD;
    event_count = file_length + RECORD > input_length ? 0 : (input_length - file_length - RECORD) / RECORD;
}

// Both sides begun, and the events taken; before an event that is timed, all but that.
static bool play(bool all) {
    if (our_begin() != 0 || plain_begin() != 0) return false;
    bool same = same_board();
    for (size_t i = 0; i < event_count - !all; i++) {
        const u8 *e = events + RECORD * i;
        same &= our_take(e) == refused_with(take_kept(&the_engine, &the_kept, &the_board, e, RECORD)) && same_board();
    }
    memcpy(before_kept, our_kept, sizeof our_kept);
    saved_kept = the_kept;
    saved_board = the_board;
    return same;
}

int main(int argc, char **argv) {
    size_t k = 0, kinds = sizeof KINDS / sizeof *KINDS;
    while (k < kinds && (argc != 2 || strcmp(argv[1], KINDS[k].name))) k++;
    if (k == kinds) return fprintf(stderr, "usage: calls KIND < INPUT\n"), 2;
    read_input();
    bool same = !strcmp(KINDS[k].name, "import") || play(strncmp(KINDS[k].name, "event", 5));
    same = same && KINDS[k].ours() == KINDS[k].plain() && KINDS[k].same();
    puts(same ? "same" : "not the same");
    u64 times = 1;
    while (timed(KINDS[k].plain, times) < TURN && times < 1u << 30) times *= 2;
    for (int i = 0; i < TURNS; i++) {
        double ours = timed(KINDS[k].ours, times) / times;
        printf("%.2f %.2f\n", ours, timed(KINDS[k].plain, times) / times);
    }
    return 0;
}
