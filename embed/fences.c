/* Whether the archive keeps to the rooms as ponds.h gives them. Every room ends where memory ends, so that one that is shorter than
   the archive takes it to be stops the program; every room that a call may only read cannot be written while it runs; every room
   that it fills is filled to its end, whatever it held before, so that one that is longer shows; a refusal leaves every byte; and
   rooms of any content are answered. Prints what is wrong, and ends with status 1. */
#define _DEFAULT_SOURCE
#include "plans.h"
#include <signal.h>
#include <stdlib.h>
#include <sys/mman.h>
#include <unistd.h>

struct room {
  uint8_t *at, *pages;
  size_t size, whole;
};

static const char *volatile calling = "nothing";
static int faults;

static void stopped(int signal) {
  static const char says[] = ": it goes past a room, or writes to one that it may only read\n";
  (void)signal;
  if (write(STDOUT_FILENO, calling, strlen(calling)) > 0 && write(STDOUT_FILENO, says, sizeof says - 1) > 0) _exit(1);
  _exit(2);
}

static void must(int so, const char *what) {
  if (so) return;
  printf("%s: %s\n", calling, what);
  faults++;
}

/* A room of so many bytes, with nothing behind it. */
static struct room room_of(size_t size) {
  size_t page = (size_t)sysconf(_SC_PAGESIZE);
  struct room room;
  room.size = size;
  room.whole = (size + page - 1) / page * page;
  room.pages = mmap(NULL, room.whole + page, PROT_READ | PROT_WRITE, MAP_PRIVATE | MAP_ANONYMOUS, -1, 0);
  if (room.pages == MAP_FAILED || mprotect(room.pages + room.whole, page, PROT_NONE) != 0) exit(2);
  room.at = room.pages + room.whole - size;
  return room;
}

static struct room holding(const void *bytes, size_t size) {
  struct room room = room_of(size);
  memcpy(room.at, bytes, size);
  return room;
}

/* From now on only read, or written too. */
static void seal(struct room *room, int sealed) {
  if (mprotect(room->pages, room->whole, sealed ? PROT_READ : PROT_READ | PROT_WRITE) != 0) exit(2);
}

enum { LINKS, ROWS, INTO, OUT, ENDS, KEPT, REPLY, BOARD, ANSWER, VERDICT, WORST, DROPPED, BYTES, ROOMS };

static const size_t sizes[ROOMS] = {4 * PONDS_LINKS,  4 * PONDS_ROWS,    2 * PONDS_LIST,  2 * PONDS_LIST, 2 * PONDS_LIST,
                                    4 * PONDS_KEPT,   4 * PONDS_REPLY,   4 * PONDS_BOARD, 4 * PONDS_ANSWER, 4 * PONDS_VERDICT,
                                    4 * PONDS_WORST,  4 * PONDS_MOST_RECORDS, PONDS_MOST_FILE};
static struct room rooms[ROOMS];
static struct room file, text, event;
static size_t room_length; /* how much of the room BYTES is lent */

static uint32_t *u32(int k) { return (uint32_t *)(void *)rooms[k].at; }
static uint16_t *u16(int k) { return (uint16_t *)(void *)rooms[k].at; }
/* The last bytes of the room BYTES, so that what is lent ends where memory does. */
static uint8_t *bytes(void) { return rooms[BYTES].at + rooms[BYTES].size - room_length; }

static uint64_t check(void) { return ponds_check(file.at, file.size); }
static uint64_t test(void) { return ponds_test(file.at, file.size, u32(ANSWER)); }
static uint64_t worst(void) { return ponds_worst(file.at, file.size, u32(WORST)); }
static uint64_t day(void) { return ponds_day(file.at, file.size, 3, bytes(), room_length); }
static uint64_t closed(void) { return ponds_close(file.at, file.size, bytes(), room_length); }
static uint64_t lighter(void) { return ponds_lighter(file.at, file.size, bytes(), room_length, u32(DROPPED)); }
static uint64_t import(void) { return ponds_import(text.at, text.size, bytes(), room_length); }
static uint64_t begin(void) {
  return ponds_begin(file.at, file.size, u32(LINKS), u32(ROWS), u16(INTO), u16(OUT), u16(ENDS), u32(KEPT));
}
static uint64_t take(void) {
  return ponds_take(u32(LINKS), u32(ROWS), u16(INTO), u16(OUT), u16(ENDS), u32(KEPT), event.at, event.size);
}
static uint64_t reply(void) { return ponds_reply(u32(LINKS), u32(ROWS), u16(OUT), u32(KEPT), u32(REPLY)); }
static uint64_t board(void) { return ponds_board(u32(KEPT), u32(BOARD)); }
static uint64_t verdict(void) { return ponds_verdict(file.at, file.size, u32(KEPT), u32(VERDICT)); }
static uint64_t calendar(void) { return ponds_calendar(file.at, file.size, u32(KEPT), 2096, 2, 29, 23, 59, bytes(), room_length); }

/* A call, and as a set which rooms it may write. */
struct call {
  const char *name;
  uint64_t (*run)(void);
  unsigned writes;
};
#define ROOM(k) (1u << (k))

static uint64_t call(const struct call *what) {
  uint64_t answer;
  int k;
  calling = what->name;
  for (k = 0; k < ROOMS; k++) seal(&rooms[k], !(what->writes >> k & 1));
  answer = what->run();
  for (k = 0; k < ROOMS; k++) seal(&rooms[k], 0);
  return answer;
}

static void fill(unsigned set, int byte) {
  int k;
  for (k = 0; k < ROOMS; k++) {
    if (set >> k & 1) memset(rooms[k].at, byte, rooms[k].size);
  }
}

/* Is each byte of a part of a room still so? */
static int still(const uint8_t *at, size_t size, int byte) {
  size_t i;
  for (i = 0; i < size; i++) {
    if (at[i] != byte) return 0;
  }
  return 1;
}

/* A call that has to be refused with a number, and to leave every byte. */
static void refuses(const struct call *what, uint32_t number) {
  uint64_t answer;
  int k;
  fill(what->writes, 0x5a);
  answer = call(what);
  must(ponds_number(answer) == number, "it answers another number than it has to");
  for (k = 0; k < ROOMS; k++) {
    if (what->writes >> k & 1) must(still(rooms[k].at, rooms[k].size, 0x5a), "a refusal changes a room");
  }
}

/* A call that has to be answered with 0, from rooms that hold this and from rooms that hold that; what it fills has to be the
   same then, to the last byte. The room BYTES is looked at by itself: only its front is written. */
static uint64_t fills(const struct call *what) {
  static uint8_t before[4 * PONDS_ROWS];
  unsigned set = what->writes & ~ROOM(BYTES);
  uint64_t answer = 0;
  int k;
  for (k = 0; k < ROOMS; k++) {
    if (!(set >> k & 1)) continue;
    fill(what->writes, 0xa5);
    call(what);
    memcpy(before, rooms[k].at, rooms[k].size);
    fill(what->writes, 0x5a);
    answer = call(what);
    must(memcmp(before, rooms[k].at, rooms[k].size) == 0, "it does not fill a room to its end");
  }
  if (set == 0) {
    fill(what->writes, 0x5a);
    answer = call(what);
  }
  must(ponds_number(answer) == 0, "it refuses what it has to take");
  return answer;
}

/* A call that writes so many bytes for each that it counts: into as much room as it needs, and one byte less; what stands
   behind them stays. */
static void writes(const struct call *what, size_t each, uint32_t short_number) {
  size_t most = rooms[BYTES].size, need;
  room_length = most;
  need = each * ponds_place(fills(what));
  must(0 < need && need < most, "it writes another length than it has to");
  must(still(bytes() + need, most - need, 0x5a), "it writes past what it says");
  room_length = need;
  (void)fills(what);
  must(still(rooms[BYTES].at, most - need, 0x5a), "it writes before the buffer");
  room_length = need - 1;
  refuses(what, short_number);
  room_length = most;
}

static const struct call CHECK = {"ponds_check", check, 0}, TEST = {"ponds_test", test, ROOM(ANSWER)},
                         WORST_OF = {"ponds_worst", worst, ROOM(WORST)}, DAY = {"ponds_day", day, ROOM(BYTES)},
                         CLOSE = {"ponds_close", closed, ROOM(BYTES)},
                         LIGHTER = {"ponds_lighter", lighter, ROOM(BYTES) | ROOM(DROPPED)},
                         IMPORT = {"ponds_import", import, ROOM(BYTES)},
                         BEGIN = {"ponds_begin", begin, ROOM(LINKS) | ROOM(ROWS) | ROOM(INTO) | ROOM(OUT) | ROOM(ENDS) | ROOM(KEPT)},
                         TAKE = {"ponds_take", take, ROOM(KEPT)}, REPLY_TO = {"ponds_reply", reply, ROOM(REPLY)},
                         BOARD_OF = {"ponds_board", board, ROOM(BOARD)}, VERDICT_ON = {"ponds_verdict", verdict, ROOM(VERDICT)},
                         CALENDAR = {"ponds_calendar", calendar, ROOM(BYTES)};

static struct room lend(const void *content, size_t size) {
  struct room room = holding(content, size);
  seal(&room, 1);
  return room;
}

/* No bytes, at the very end of memory. */
static void nothing(void) {
  static const struct call *const of_a_file[] = {&CHECK, &TEST, &WORST_OF, &DAY, &CLOSE, &LIGHTER, &BEGIN, &VERDICT_ON, &CALENDAR};
  size_t k;
  file = text = event = lend("", 0);
  for (k = 0; k < sizeof of_a_file / sizeof *of_a_file; k++) refuses(of_a_file[k], 1);
  refuses(&IMPORT, 1);
}

/* A day of the plan that is lent: the events of a projection, each taken once and refused once, and what is said of the boards. */
static void play(void) {
  static uint8_t events[PONDS_MOST_DAY];
  static uint32_t kept[PONDS_KEPT];
  uint64_t count = ponds_day(file.at, file.size, 3, events, sizeof events);
  size_t k;
  (void)fills(&BEGIN);
  refuses(&VERDICT_ON, 31);
  for (k = 0; k < ponds_place(count); k++) {
    (void)fills(&REPLY_TO);
    (void)fills(&BOARD_OF);
    memcpy(kept, rooms[KEPT].at, sizeof kept);
    event = lend(events + RECORD * k, RECORD - 1);
    must(ponds_number(call(&TAKE)) == 23, "an event of 15 bytes is not refused");
    must(memcmp(kept, rooms[KEPT].at, sizeof kept) == 0, "a refused event changes the room");
    event = lend(events + RECORD * k, RECORD);
    must(call(&TAKE) == 0, "an event of the day is not taken");
    must(memcmp(kept, rooms[KEPT].at, sizeof kept) != 0, "an event that is taken changes nothing");
  }
  must(k > 1, "the day has no events");
  (void)fills(&REPLY_TO);
  (void)fills(&VERDICT_ON);
  writes(&CALENDAR, 1, 52);
}

/* Rooms of any content: each call is answered, and nothing else is touched. */
static void any_content(void) {
  static uint8_t record[RECORD];
  uint32_t seed = 1;
  size_t i;
  int turn, k;
  for (turn = 0; turn < 200; turn++) {
    for (k = LINKS; k <= KEPT; k++) {
      for (i = 0; i < rooms[k].size; i++) {
        seed = seed * 1664525u + 1013904223u;
        /* Anything, or numbers that are small, as true ones are. */
        rooms[k].at[i] = turn % 4 == 0 || (turn % 4 == 1 && i % 4 == 0) ? (uint8_t)(seed >> 24) : turn % 4 == 2 ? 255 : 0;
      }
    }
    ponds_event(record, seed >> 16, (uint8_t)(seed >> 24) % POINTS, turn % 2 == 0 ? 0 : seed);
    event = lend(record, RECORD);
    (void)call(&TAKE);
    must(call(&REPLY_TO) == 0 && call(&BOARD_OF) == 0, "it does not answer 0");
    must(*u32(REPLY) <= PONDS_OFFERS && ponds_state(u32(REPLY), turn % POINTS) <= PONDS_OFFERED, "a reply that is none");
  }
  fill(ROOM(KEPT), 0x5a);
  refuses(&VERDICT_ON, 20);
  refuses(&CALENDAR, 20);
}

int main(void) {
  static struct file made;
  static char typed[64 * PONDS_MOST_RECORDS];
  int k;
  signal(SIGSEGV, stopped);
  signal(SIGBUS, stopped);
  for (k = 0; k < ROOMS; k++) rooms[k] = room_of(sizes[k]);
  room_length = rooms[BYTES].size;
  nothing();

  make_largest(&made);
  file = lend(made.bytes, made.length);
  text = lend(typed, as_text(&made, typed));
  must(ponds_place(fills(&CHECK)) == made.length / RECORD, "it counts other records");
  (void)fills(&TEST);
  (void)fills(&BEGIN);
  (void)fills(&REPLY_TO);
  writes(&IMPORT, RECORD, 12);

  make_round(&made);
  file = lend(made.bytes, made.length);
  writes(&CLOSE, RECORD, 12);

  make_passing(&made, 0);
  file = lend(made.bytes, made.length);
  (void)fills(&TEST);
  (void)fills(&WORST_OF);
  writes(&DAY, RECORD, 12);
  play();
  any_content();

  make_small(&made);
  file = lend(made.bytes, made.length);
  writes(&LIGHTER, RECORD, 12);
  must(made.length > (size_t)RECORD * ponds_place(call(&LIGHTER)) && *u32(DROPPED) != 0, "nothing is dropped");
  return faults == 0 ? 0 : 1;
}
