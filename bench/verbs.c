// The plain versions of all that bench/run times as whole programs: those of plain.c, and of document 02's later requests.
#define RULES_ALONE
#include "plain.c"
#include "tables.h"
#include "lighter.h"
#include "kept.h"
#include "worst.h"
#include "office.h"

static u8 text_room[262145];

static void write_out(const u8 *bytes, size_t n) {
    for (size_t done = 0; done < n;) {
        ssize_t k = write(1, bytes + done, n - done);
        if (k <= 0) break;
        done += k;
    }
}

static void write_file(const plan *p) {
    write_plan(p, buffer, sizeof buffer);
    write_out(buffer, RECORD * (size_t)p->count);
}

// The plan on standard input, and whether it is read; a refusal is told to a stream.
static bool plan_in(plan *p, FILE *told) {
    refusal found = read_plan(buffer, read_full(buffer, sizeof buffer), p);
    if (found.number) fprintf(told, "plan %u %u\n", found.number, found.place);
    return found.number == 0;
}

// What the test refuses: 13, or 60 where the plan does not pass.
static u32 refused_by(const plan *p) {
    answer tested = test_with_two(p);
    return tested.outcome == YES ? 0 : tested.outcome == REFUSED ? tested.at : 60;
}

// `desk lighter`.
static void lighter(void) {
    static plan p;
    static u32 dropped[RECORDS];
    if (!plan_in(&p, stderr)) return;
    u32 number = refused_by(&p);
    if (number) {
        fprintf(stderr, "lighter %u\n", number);
        return;
    }
    u32 count = drop_all(&p, dropped);
    write_file(&p);
    for (u32 i = 0; i < count; i++) fprintf(stderr, "dropped %u\n", dropped[i]);
}

// `desk worst`.
static void worst(bool counts) {
    static plan p;
    if (!plan_in(&p, stdout)) return;
    u32 number = refused_by(&p);
    if (number) {
        printf("worst %u\n", number);
        return;
    }
    worst_found found = worst_of(&p, counts);
    printf("worst %u %u\n", found.minute, found.projection);
}

// `desk test`.
static void test_alone(answer (*test)(const plan *)) {
    static plan p;
    if (!plan_in(&p, stdout)) return;
    answer found = test(&p);
    if (found.outcome == YES) printf("test yes %u\n", found.at);
    else if (found.outcome == CYCLE) printf("test cycle %u\n", found.at);
    else if (found.outcome == PAIR) printf("test pair %u %u %u\n", found.at, found.x, found.y);
    else printf("test %u\n", found.at);
}

// `desk import`.
static void import_text(void) {
    static plan p;
    size_t n = read_full(text_room, sizeof text_room);
    imported found = import(text_room, n, &p);
    if (n == sizeof text_room) fprintf(stderr, "plain import: more than 262144 bytes are not held.\n");
    else if (found.number) fprintf(stderr, "import %u %zu\n", found.number, found.line);
    else write_file(&p);
}

int main(int argc, char **argv) {
    const char *verb = argc == 2 ? argv[1] : "";
    if (!strcmp(verb, "sheet-counts")) taken_by = take_by_counts;
    if (!strncmp(verb, "sheet", 5)) return sheet(), 0;
    if (!strcmp(verb, "probe")) return probe(), 0;
    if (!strcmp(verb, "lighter")) return lighter(), 0;
    if (!strcmp(verb, "test")) return test_alone(test_with_two), 0;
    if (!strcmp(verb, "test-three")) return test_alone(test_plan), 0;
    if (!strcmp(verb, "worst")) return worst(false), 0;
    if (!strcmp(verb, "worst-counts")) return worst(true), 0;
    if (!strcmp(verb, "import")) return import_text(), 0;
    fprintf(stderr, "usage: plain sheet | sheet-counts | probe | lighter | test | test-three | worst | worst-counts | import\n");
    return 2;
}
