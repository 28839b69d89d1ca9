/* The proved dispatcher as a library for C and C++: plans read and tested, days played, verdicts, and what the desk does.
   docs/EMBEDDING.md says how to build and link it, and what of it is proved.

   A plan is a plan file in memory: 16 bytes a record, at most PONDS_MOST_FILE bytes. Nothing is kept between two calls but what
   stands in the rooms, which are arrays of the lengths below that the caller lends. There is no other memory: nothing is
   allocated, nothing is global.

   What a call answers is one number of 64 bits. Its lower half is the reply number: 0 where nothing is refused, else one of
   docs/NUMBERS.md, which says in words what happened and what to do. Its upper half stands beside it: for a refusal the record or
   the line that it is about, counted from 0 (0 beside a number that is about none), and for a 0 what the function says, else 0.
   ponds_number and ponds_place take the two apart. "The plan's own number" is one of 1 to 11 or 15, with the record, as
   ponds_check answers it; it comes before every other.

   A refusal leaves every byte and every number that was lent as it was. A room may hold anything before it is filled; a room
   whose numbers were changed by hand is answered in some way, and never does harm.

   What the caller owes: no pointer is null, also where the length is 0; each points to as many elements as is said; and what a call
   may write does not overlap what else it is lent. Then calls may be made from several threads at once, on different rooms, or
   on the same where the function only reads them (const). */
#ifndef PONDS_H
#define PONDS_H

#include <stddef.h>
#include <stdint.h>

#ifdef __cplusplus
extern "C" {
#endif

#ifdef __GNUC__
#define PONDS_LENT __attribute__((nonnull)) /* no pointer is null */
#else
#define PONDS_LENT
#endif

/* ---- how large things are */

enum {
  PONDS_MOST_POINTS = 32,
  PONDS_MOST_RECORDS = 1128,
  PONDS_RECORD_BYTES = 16, /* of a plan file, and of an event */
  PONDS_MOST_FILE = 18048, /* bytes of the longest plan file: enough for every plan that is written */
  PONDS_MOST_DAY = 512,    /* bytes: enough for the events of every day that is written */
  PONDS_MOST_CALENDAR = 4278, /* bytes: enough for every calendar */

  /* The rooms of a day, in elements. */
  PONDS_LINKS = 98,
  PONDS_ROWS = 6768,
  PONDS_LIST = 1161,
  PONDS_KEPT = 195,

  /* What is answered in numbers, in elements. */
  PONDS_ANSWER = 4,
  PONDS_REPLY = 66,
  PONDS_BOARD = 66,
  PONDS_VERDICT = 2,
  PONDS_WORST = 2
};

/* What the numbers that are answered mean. */
enum { PONDS_YES = 0, PONDS_CYCLE = 1, PONDS_PAIR = 2 };                                                /* answer[0] */
enum { PONDS_FINISHED = 0, PONDS_STUCK = 1, PONDS_WAITING = 2, PONDS_OFFERS = 3 };                      /* reply[0] */
enum { PONDS_DONE = 0, PONDS_WATCHED = 1, PONDS_SHUT = 2, PONDS_HELD = 3, PONDS_OFFERED = 4 };          /* a point's state */
enum { PONDS_PLAN_KEPT = 0, PONDS_PLAN_BROKEN = 1 };                                                    /* verdict[0] */
enum { PONDS_NO_POINT = 255 };                                                                          /* in an event */

/* ---- a plan */

/* Whether a file is a plan. Its own number with the record; or 0, and beside it how many records it has. */
uint64_t ponds_check(const uint8_t *file, size_t length) PONDS_LENT;

/* The plan test: is every time that the links may take provided for? The plan's own number; 13; or 0, and in `answer`
   PONDS_YES, how many projections were tried, 0, 0;
   PONDS_CYCLE, the first failing projection, 0, 0;
   PONDS_PAIR, the first failing projection, and the two points of the pair. */
uint64_t ponds_test(const uint8_t *file, size_t length, uint32_t answer[PONDS_ANSWER]) PONDS_LENT;

/* The worst finishing minute. The plan's own number; 13; 60; or 0, and in `worst` the minute and the first projection that
   reaches it. */
uint64_t ponds_worst(const uint8_t *file, size_t length, uint32_t worst[PONDS_WORST]) PONDS_LENT;

/* The run of a projection as a day, written to the front of `out`: events of 16 bytes. The plan's own number; 13; 60; 12 where
   `room` is too short (PONDS_MOST_DAY is always enough); or 0, and beside it how many events, none for a projection past the
   last. Bytes behind them stay as they were. */
uint64_t ponds_day(const uint8_t *file, size_t length, uint32_t projection, uint8_t *out, size_t room) PONDS_LENT;

/* Of a plan without links and waits, the plan with every distance as a record, written to the front of `out`. The plan's own
   number; 61; 62; 63; 12 where `room` is too short (PONDS_MOST_FILE is always enough); or 0, and beside it how many records. Bytes
   behind them stay as they were. */
uint64_t ponds_close(const uint8_t *file, size_t length, uint8_t *out, size_t room) PONDS_LENT;

/* The plan without the records that it does not need, written to the front of `out`. The plan's own number; 13; 60; 12 where
   `room` is too short (`length` is always enough); or 0, beside it how many records are left, and in `dropped` the numbers of those that
   went, in order, then zeros (record 0 is a point's and never goes). Bytes behind the plan stay as they were. On a large plan of
   many projections this takes minutes. */
uint64_t ponds_lighter(const uint8_t *file, size_t length, uint8_t *out, size_t room, uint32_t dropped[PONDS_MOST_RECORDS]) PONDS_LENT;

/* The plan file of comma-separated text from the growers' office, written to the front of `out`. With the line, counted from 0:
   40 to 43, and the reader's own numbers, for which the record is the line; 12 where `room` is too short (PONDS_MOST_FILE is
   always enough); or 0, and beside it how many records. Bytes behind them stay as they were. (A line past 4,294,967,295 is told as
   that one.) */
uint64_t ponds_import(const uint8_t *text, size_t length, uint8_t *out, size_t room) PONDS_LENT;

/* ---- a day: its rooms are filled by ponds_begin, and then only `kept` changes, by ponds_take */

/* Begins the day of a plan: fills all rooms for the fresh board. The plan's own number, or 0. The file is not looked at again. */
uint64_t ponds_begin(const uint8_t *file, size_t length, uint32_t links[PONDS_LINKS], uint32_t rows[PONDS_ROWS],
                     uint16_t into[PONDS_LIST], uint16_t out[PONDS_LIST], uint16_t ends[PONDS_LIST],
                     uint32_t kept[PONDS_KEPT]) PONDS_LENT;

/* Takes an event, which has 16 bytes (of any other length it is refused): 21 to 30, with the record beside 28 where it names one,
   else 0 there; or 0, and then `kept` is that of the board after the event. */
uint64_t ponds_take(const uint32_t links[PONDS_LINKS], const uint32_t rows[PONDS_ROWS], const uint16_t into[PONDS_LIST],
                    const uint16_t out[PONDS_LIST], const uint16_t ends[PONDS_LIST], uint32_t kept[PONDS_KEPT],
                    const uint8_t *event, size_t length) PONDS_LENT;

/* The reply to the board: reply[0] is PONDS_FINISHED, PONDS_STUCK, PONDS_WAITING or PONDS_OFFERS, and reply[1] the latest minute of
   an offer, else 0. Of point p, reply[2 + 2 * p] is its state and reply[3 + 2 * p] what belongs to it:
   PONDS_DONE, at that minute; PONDS_WATCHED, 0; PONDS_SHUT, the first record that keeps it so (0: none, as past the last point);
   PONDS_HELD, 0; PONDS_OFFERED, from that minute on.
   The reply to a finished board has no list: every place is PONDS_SHUT, 0. ponds_board has its minutes. Always answers 0. */
uint64_t ponds_reply(const uint32_t links[PONDS_LINKS], const uint32_t rows[PONDS_ROWS], const uint16_t out[PONDS_LIST],
                     const uint32_t kept[PONDS_KEPT], uint32_t reply[PONDS_REPLY]) PONDS_LENT;

/* The board: board[0] the clock, board[1] the set of done points (point i is bit i), board[2 + p] the minute of point p, and
   board[34 + p] the number of the event that did it, from 1; 0 of a point that is not done. Always answers 0. */
uint64_t ponds_board(const uint32_t kept[PONDS_KEPT], uint32_t board[PONDS_BOARD]) PONDS_LENT;

/* The verdict on a finished board, by the plan file. The plan's own number; 20 where the board is none of that plan; 31 where not
   everything is done; or 0, and in `verdict` PONDS_PLAN_KEPT, 0, or PONDS_PLAN_BROKEN, the first broken record. */
uint64_t ponds_verdict(const uint8_t *file, size_t length, const uint32_t kept[PONDS_KEPT], uint32_t verdict[PONDS_VERDICT]) PONDS_LENT;

/* A finished board as iCalendar text, written to the front of `out`; minute 0 is the one given, in UTC. The plan's own number; 20;
   31; 51 where that is no minute of 1970 to 2099; 52 where `room` is too short (PONDS_MOST_CALENDAR is always enough); or 0, and
   beside it how many bytes. Bytes behind them stay as they were. There is no zero byte at the end. */
uint64_t ponds_calendar(const uint8_t *file, size_t length, const uint32_t kept[PONDS_KEPT], uint32_t year, uint32_t month,
                        uint32_t day, uint32_t hour, uint32_t minute, uint8_t *out, size_t room) PONDS_LENT;

/* ---- for convenience: none of what follows is in the archive */

/* The number of an answer: 0, or that of a refusal. */
static inline uint32_t ponds_number(uint64_t answer) { return (uint32_t)(answer & 0xffffffffu); }

/* What stands beside the number: a record or a line of a refusal; else a count. */
static inline uint32_t ponds_place(uint64_t answer) { return (uint32_t)(answer >> 32); }

/* The state of a point in a reply, and what belongs to it; points are 0 to 31. */
static inline uint32_t ponds_state(const uint32_t reply[PONDS_REPLY], unsigned point) { return reply[2 + 2 * point]; }
static inline uint32_t ponds_value(const uint32_t reply[PONDS_REPLY], unsigned point) { return reply[3 + 2 * point]; }

/* The minute of a point on a board. */
static inline uint32_t ponds_minute(const uint32_t board[PONDS_BOARD], unsigned point) { return board[2 + point]; }

/* The bytes of an event: its minute, the point that was done or PONDS_NO_POINT, and the set of watched points that were seen to
   happen at that minute. */
static inline void ponds_event(uint8_t event[PONDS_RECORD_BYTES], uint32_t minute, uint8_t point, uint32_t happened) {
  int i;
  for (i = 0; i < 4; i++) {
    event[i] = (uint8_t)(minute >> 8 * i);
    event[4 + i] = (uint8_t)(i == 0 ? point : 0);
    event[8 + i] = (uint8_t)(happened >> 8 * i);
    event[12 + i] = 0;
  }
}

/* All rooms of a day. It is large (some 35 KB): let it be static, or allocate it. */
struct ponds_day_rooms {
  uint32_t rows[PONDS_ROWS];
  uint32_t links[PONDS_LINKS];
  uint32_t kept[PONDS_KEPT];
  uint16_t into[PONDS_LIST];
  uint16_t out[PONDS_LIST];
  uint16_t ends[PONDS_LIST];
};

/* The calls above with the rooms of a day. */
static inline uint64_t ponds_day_begin(struct ponds_day_rooms *day, const uint8_t *file, size_t length) {
  return ponds_begin(file, length, day->links, day->rows, day->into, day->out, day->ends, day->kept);
}
static inline uint64_t ponds_day_take(struct ponds_day_rooms *day, const uint8_t *event, size_t length) {
  return ponds_take(day->links, day->rows, day->into, day->out, day->ends, day->kept, event, length);
}
static inline void ponds_day_reply(const struct ponds_day_rooms *day, uint32_t reply[PONDS_REPLY]) {
  (void)ponds_reply(day->links, day->rows, day->out, day->kept, reply);
}
static inline void ponds_day_board(const struct ponds_day_rooms *day, uint32_t board[PONDS_BOARD]) {
  (void)ponds_board(day->kept, board);
}
static inline uint64_t ponds_day_verdict(const struct ponds_day_rooms *day, const uint8_t *file, size_t length,
                                         uint32_t verdict[PONDS_VERDICT]) {
  return ponds_verdict(file, length, day->kept, verdict);
}
static inline uint64_t ponds_day_calendar(const struct ponds_day_rooms *day, const uint8_t *file, size_t length, uint32_t year,
                                          uint32_t month, uint32_t day_of_month, uint32_t hour, uint32_t minute, uint8_t *out,
                                          size_t room) {
  return ponds_calendar(file, length, day->kept, year, month, day_of_month, hour, minute, out, room);
}

#ifdef __cplusplus
}
#endif

#endif
