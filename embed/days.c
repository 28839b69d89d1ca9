/* The program `offers` once more, by the C interface alone: it reads a plan part, the mark and events, and prints the same lines.
   embed/check compares the two on drawn days. */
#include "streams.h"

static struct part part;
static struct ponds_day_rooms day;

/* The record that keeps a point shut, as a listing has it. */
static void print_record(uint32_t number) {
  const uint8_t *record = part.bytes + (size_t)RECORD * number;
  long first = signed_at(record + 4);
  if (record[0] == 3) printf(" ordinary %u %ld %u", record[1], first, record[2]);
  if (record[0] == 4) printf(" wait %u %u %ld", record[1], record[2], first);
}

static void print_point(const uint32_t reply[PONDS_REPLY], unsigned point) {
  uint32_t value = ponds_value(reply, point);
  printf("point %u %lu ", point, (unsigned long)word_at(part.bytes + RECORD * point + 12));
  switch (ponds_state(reply, point)) {
    case PONDS_DONE: printf("done %lu", (unsigned long)value); break;
    case PONDS_WATCHED: printf("watched"); break;
    case PONDS_SHUT:
      printf("shut");
      if (value != 0) {
        printf(" %lu", (unsigned long)value);
        print_record(value);
      }
      break;
    case PONDS_HELD: printf("held"); break;
    case PONDS_OFFERED: printf("offered %lu", (unsigned long)value); break;
    default: printf("state %lu", (unsigned long)ponds_state(reply, point));
  }
  printf("\n");
}

/* The points are the plan's first records. */
static unsigned points(void) {
  unsigned n = 0;
  while (n < PONDS_MOST_POINTS && (size_t)RECORD * n < part.length && part.bytes[RECORD * n] == 1) n++;
  return n;
}

static unsigned ones(uint32_t set) {
  unsigned n = 0;
  for (; set != 0; set &= set - 1) n++;
  return n;
}

/* What the board is; answers the outcome. */
static uint32_t print_board(void) {
  static const char *const words[] = {"finished", "stuck", "waiting", "offers"};
  uint32_t board[PONDS_BOARD], reply[PONDS_REPLY];
  unsigned p;
  ponds_day_board(&day, board);
  ponds_day_reply(&day, reply);
  printf("board %lu %u %s", (unsigned long)board[0], ones(board[1]), reply[0] <= PONDS_OFFERS ? words[reply[0]] : "?");
  if (reply[0] == PONDS_OFFERS) printf(" %lu", (unsigned long)reply[1]);
  printf("\n");
  for (p = 0; reply[0] != PONDS_FINISHED && p < points(); p++) print_point(reply, p);
  return reply[0];
}

static void print_test(void) {
  uint32_t answer[PONDS_ANSWER];
  uint32_t number = ponds_number(ponds_test(part.bytes, part.length, answer));
  if (number != 0) printf("test %lu\n", (unsigned long)number);
  else if (answer[0] == PONDS_PAIR)
    printf("test pair %lu %lu %lu\n", (unsigned long)answer[1], (unsigned long)answer[2], (unsigned long)answer[3]);
  else printf("test %s %lu\n", answer[0] == PONDS_YES ? "yes" : "cycle", (unsigned long)answer[1]);
}

static void print_end(uint32_t outcome) {
  uint32_t verdict[PONDS_VERDICT];
  uint32_t number = ponds_number(ponds_day_verdict(&day, part.bytes, part.length, verdict));
  if (number == 31) printf("end %s\n", outcome == PONDS_STUCK ? "stuck" : "open");
  else if (number != 0) printf("end refused %lu\n", (unsigned long)number);
  else if (verdict[0] == PONDS_PLAN_KEPT) printf("end kept\n");
  else printf("end broken %lu\n", (unsigned long)verdict[1]);
}

int main(void) {
  uint8_t event[RECORD];
  uint64_t answer;
  uint32_t outcome;
  size_t got;
  unsigned long k = 0;
  read_part(&part);
  answer = ponds_day_begin(&day, part.bytes, part.length);
  if (ponds_check(part.bytes, part.length) != (answer == 0 ? (uint64_t)(part.length / RECORD) << 32 : answer)) {
    printf("ponds_check says something else than ponds_begin\n");
  }
  if (ponds_number(answer) != 0) {
    printf("plan %lu %lu\n", (unsigned long)ponds_number(answer), (unsigned long)ponds_place(answer));
    return 0;
  }
  print_test();
  outcome = print_board();
  while ((got = next_record(event)) == RECORD) {
    answer = ponds_day_take(&day, event, got);
    printf("event %lu %lu", k++, (unsigned long)ponds_number(answer));
    if (ponds_place(answer) != 0) printf(" %lu", (unsigned long)ponds_place(answer));
    printf("\n");
    outcome = print_board();
  }
  if (got != 0) printf("tail\n");
  print_end(outcome);
  return fflush(stdout) == 0 ? 0 : 1;
}
