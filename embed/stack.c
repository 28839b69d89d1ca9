/* How much stack each function of the archive takes: a line for each, its name and the most bytes that it took on any of the
   largest plans. Each call runs on a thread of its own, whose stack was painted before; what is no longer painted was used. What a
   thread takes that calls nothing is taken off. */
#define _DEFAULT_SOURCE
#include "plans.h"
#include <pthread.h>
#include <stdlib.h>
#include <sys/mman.h>

enum { STACK = 8 * 1024 * 1024, PAINT = 0xa5, LIGHT = 3, FILES = 4 };

static struct file files[FILES];
static const struct file *file;
static char text[64 * PONDS_MOST_RECORDS];
static size_t text_length;
static struct ponds_day_rooms day;
static uint8_t out[PONDS_MOST_FILE], event[RECORD];
static uint32_t numbers[PONDS_MOST_RECORDS];

static void none(void) {}
static void check(void) { (void)ponds_check(file->bytes, file->length); }
static void test(void) { (void)ponds_test(file->bytes, file->length, numbers); }
static void worst(void) { (void)ponds_worst(file->bytes, file->length, numbers); }
static void a_day(void) { (void)ponds_day(file->bytes, file->length, 0, out, sizeof out); }
static void closed(void) { (void)ponds_close(file->bytes, file->length, out, sizeof out); }
static void lighter(void) {
  /* Of the others it would take minutes, and no frame grows with the records. */
  if (file == &files[LIGHT]) (void)ponds_lighter(file->bytes, file->length, out, sizeof out, numbers);
}
static void import(void) { (void)ponds_import((const uint8_t *)text, text_length, out, sizeof out); }
static void begin(void) { (void)ponds_day_begin(&day, file->bytes, file->length); }
static void take(void) { (void)ponds_day_take(&day, event, sizeof event); }
static void reply(void) { ponds_day_reply(&day, numbers); }
static void board(void) { ponds_day_board(&day, numbers); }
static void verdict(void) { (void)ponds_day_verdict(&day, file->bytes, file->length, numbers); }
static void calendar(void) { (void)ponds_day_calendar(&day, file->bytes, file->length, 2026, 11, 16, 6, 0, out, sizeof out); }

static const struct {
  const char *name;
  void (*run)(void);
} calls[] = {{"ponds_check", check}, {"ponds_test", test},       {"ponds_worst", worst},   {"ponds_day", a_day},  {"ponds_close", closed},
             {"ponds_lighter", lighter}, {"ponds_import", import}, {"ponds_begin", begin}, {"ponds_take", take},  {"ponds_reply", reply},
             {"ponds_board", board}, {"ponds_verdict", verdict}, {"ponds_calendar", calendar}};

static void *started(void *run) {
  (*(void (*const *)(void))run)();
  return NULL;
}

/* The bytes of its stack that a thread uses for this call. */
static size_t used(void (*const *run)(void), uint8_t *stack) {
  pthread_attr_t attributes;
  pthread_t thread;
  size_t clean = 0;
  memset(stack, PAINT, STACK);
  if (pthread_attr_init(&attributes) != 0 || pthread_attr_setstack(&attributes, stack, STACK) != 0 ||
      pthread_create(&thread, &attributes, started, (void *)(size_t)run) != 0 || pthread_join(thread, NULL) != 0)
    exit(2);
  pthread_attr_destroy(&attributes);
  while (clean < STACK && stack[clean] == PAINT) clean++;
  return STACK - clean;
}

/* What a call is given: the fresh board and an event that is taken; for the verdict and the calendar the board after a whole day,
   if the plan passes the test. */
static void ready(void (*run)(void)) {
  uint8_t events[PONDS_MOST_DAY];
  uint64_t count = 0;
  size_t k;
  begin();
  ponds_event(event, 0, 0, 0);
  if (run == verdict || run == calendar) count = ponds_day(file->bytes, file->length, 0, events, sizeof events);
  for (k = 0; ponds_number(count) == 0 && k < ponds_place(count); k++) {
    memcpy(event, events + RECORD * k, RECORD);
    take();
  }
}

int main(void) {
  static size_t most[sizeof calls / sizeof *calls];
  void (*const nothing)(void) = none;
  uint8_t *stack = mmap(NULL, STACK, PROT_READ | PROT_WRITE, MAP_PRIVATE | MAP_ANONYMOUS, -1, 0);
  size_t base, k, f;
  if (stack == MAP_FAILED) return 2;
  make_largest(&files[0]);
  make_passing(&files[1], 4);
  make_round(&files[2]);
  make_light(&files[LIGHT]);
  text_length = as_text(&files[0], text);
  base = used(&nothing, stack);
  for (f = 0; f < FILES; f++) {
    file = &files[f];
    for (k = 0; k < sizeof calls / sizeof *calls; k++) {
      size_t bytes;
      ready(calls[k].run);
      bytes = used(&calls[k].run, stack) - base;
      if (most[k] < bytes) most[k] = bytes;
    }
  }
  for (k = 0; k < sizeof calls / sizeof *calls; k++) printf("%s %lu\n", calls[k].name, (unsigned long)most[k]);
  return 0;
}
