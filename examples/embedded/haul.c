/* A foreman's day of the haul, by the C interface: haul examples/haul/plan.run
   It tests the plan, tells what happens as it happens, and says after each event what may be done next. */
#include "ponds.h"
#include <stdio.h>

static const char *const steps[] = {"the crew is called", "the truck leaves", "the truck arrives", "the fish are loaded"};
enum { STEPS = 4 };

static uint8_t file[PONDS_MOST_FILE];
static struct ponds_day_rooms day;

/* What may be done now, a line for each step. */
static void show(void) {
  uint32_t reply[PONDS_REPLY];
  unsigned p;
  ponds_day_reply(&day, reply);
  if (reply[0] == PONDS_FINISHED) printf("Everything is done.\n");
  if (reply[0] == PONDS_OFFERS) printf("The next step has to come by minute %u.\n", (unsigned)reply[1]);
  if (reply[0] == PONDS_STUCK) printf("Nothing can come in time any more.\n");
  for (p = 0; p < STEPS && reply[0] != PONDS_FINISHED; p++) {
    unsigned value = (unsigned)ponds_value(reply, p);
    printf("  %-20s", steps[p]);
    switch (ponds_state(reply, p)) {
      case PONDS_DONE: printf("done at %u\n", value); break;
      case PONDS_WATCHED: printf("comes when it comes\n"); break;
      case PONDS_SHUT: printf("not yet: record %u of the plan\n", value); break;
      case PONDS_HELD: printf("too late for now\n"); break;
      case PONDS_OFFERED: printf("from minute %u on\n", value); break;
    }
  }
}

/* A point that was done, or was seen to happen, at a minute. */
static void tell(uint32_t minute, unsigned point, int watched) {
  uint8_t event[PONDS_RECORD_BYTES];
  uint64_t answer;
  if (watched) ponds_event(event, minute, PONDS_NO_POINT, 1u << point);
  else ponds_event(event, minute, (uint8_t)point, 0);
  answer = ponds_day_take(&day, event, sizeof event);
  printf("\nMinute %u, %s: ", (unsigned)minute, steps[point]);
  if (ponds_number(answer) == 0) printf("taken.\n");
  else printf("refused with %u, and nothing has changed.\n", (unsigned)ponds_number(answer));
  show();
}

int main(int count, char **words) {
  uint32_t test[PONDS_ANSWER], worst[PONDS_WORST], verdict[PONDS_VERDICT];
  FILE *plan = count == 2 ? fopen(words[1], "rb") : NULL;
  size_t length = plan == NULL ? 0 : fread(file, 1, sizeof file, plan);
  uint64_t answer = ponds_day_begin(&day, file, length);
  if (ponds_number(answer) != 0) {
    printf("The plan is refused with %u at record %u.\n", (unsigned)ponds_number(answer), (unsigned)ponds_place(answer));
    return 1;
  }
  if (ponds_test(file, length, test) != 0 || test[0] != PONDS_YES || ponds_worst(file, length, worst) != 0) {
    printf("The plan does not provide for everything.\n");
    return 1;
  }
  printf("All %u drive times are provided for. At worst it is over at minute %u.\n", (unsigned)test[1], (unsigned)worst[0]);
  show();
  tell(0, 0, 0);
  tell(12, 1, 0);
  tell(40, 2, 1);
  tell(46, 3, 0); /* too late: it has to be within 5 minutes */
  tell(43, 3, 0);
  if (ponds_day_verdict(&day, file, length, verdict) == 0)
    printf("\nThe verdict: %s.\n", verdict[0] == PONDS_PLAN_KEPT ? "every record of the plan was kept" : "broken");
  return fclose(plan) == 0 ? 0 : 1;
}
