/* The program `desk` once more, by the C interface alone, with the verbs that it has: a verb and its words, standard input to
   standard output, with its lines and its status. embed/check compares the two on drawn inputs. */
#include "streams.h"

static struct part part;
static struct ponds_day_rooms day;
static uint8_t out[PONDS_MOST_FILE];

/* A refusal as a line: of a plan `plan NUMBER RECORD`, else the verb and the number. Ends with status 1. */
static int refused(FILE *to, const char *verb, uint64_t answer) {
  unsigned long number = ponds_number(answer), place = ponds_place(answer);
  int of_import = strcmp(verb, "import") == 0;
  if (of_import) fprintf(to, "import %lu %lu\n", number, place);
  else if (number <= 11 || number == 15) fprintf(to, "plan %lu %lu\n", number, place);
  else fprintf(to, "%s %lu\n", verb, number);
  return 1;
}

static int put(const uint8_t *bytes, size_t length) {
  return fwrite(bytes, 1, length, stdout) == length && fflush(stdout) == 0 ? 0 : 1;
}

static int test(const uint8_t *file, size_t length) {
  uint32_t said[PONDS_ANSWER];
  uint64_t answer = ponds_test(file, length, said);
  if (ponds_number(answer) != 0) return refused(stdout, "test", answer);
  if (said[0] == PONDS_PAIR) printf("test pair %lu %lu %lu\n", (unsigned long)said[1], (unsigned long)said[2], (unsigned long)said[3]);
  else printf("test %s %lu\n", said[0] == PONDS_YES ? "yes" : "cycle", (unsigned long)said[1]);
  return 0;
}

static int worst(const uint8_t *file, size_t length) {
  uint32_t said[PONDS_WORST];
  uint64_t answer = ponds_worst(file, length, said);
  if (ponds_number(answer) != 0) return refused(stdout, "worst", answer);
  printf("worst %lu %lu\n", (unsigned long)said[0], (unsigned long)said[1]);
  return 0;
}

static int day_of(const uint8_t *file, size_t length, uint32_t projection) {
  uint8_t mark[RECORD];
  uint64_t answer = ponds_day(file, length, projection, out, PONDS_MOST_DAY);
  if (ponds_number(answer) != 0) return refused(stderr, "day", answer);
  memset(mark, 255, sizeof mark);
  return put(file, length) | put(mark, sizeof mark) | put(out, (size_t)RECORD * ponds_place(answer));
}

static int import(const uint8_t *text, size_t length) {
  uint64_t answer = ponds_import(text, length, out, sizeof out);
  if (ponds_number(answer) != 0) return refused(stderr, "import", answer);
  return put(out, (size_t)RECORD * ponds_place(answer));
}

static int close_plan(const uint8_t *file, size_t length) {
  uint64_t answer = ponds_close(file, length, out, sizeof out);
  if (ponds_number(answer) != 0) return refused(stderr, "close", answer);
  return put(out, (size_t)RECORD * ponds_place(answer));
}

static int lighter(const uint8_t *file, size_t length) {
  static uint32_t dropped[PONDS_MOST_RECORDS];
  uint64_t answer = ponds_lighter(file, length, out, length < sizeof out ? length : sizeof out, dropped);
  size_t k;
  if (ponds_number(answer) != 0) return refused(stderr, "lighter", answer);
  for (k = 0; k < PONDS_MOST_RECORDS && dropped[k] != 0; k++) fprintf(stderr, "dropped %lu\n", (unsigned long)dropped[k]);
  return put(out, (size_t)RECORD * ponds_place(answer));
}

/* The board after all events, refused ones and an unfinished last record left aside. */
static int calendar(const uint32_t origin[5]) {
  uint8_t event[RECORD];
  uint64_t answer;
  read_part(&part);
  answer = ponds_day_begin(&day, part.bytes, part.length);
  if (ponds_number(answer) != 0) return refused(stderr, "calendar", answer);
  while (next_record(event) == RECORD) (void)ponds_day_take(&day, event, RECORD);
  answer = ponds_day_calendar(&day, part.bytes, part.length, origin[0], origin[1], origin[2], origin[3], origin[4], out,
                              PONDS_MOST_CALENDAR);
  if (ponds_number(answer) != 0) return refused(stderr, "calendar", answer);
  return put(out, ponds_place(answer));
}

/* Decimal digits that fit 32 bits. */
static int number(const char *word, uint32_t *value) {
  uint64_t n = 0;
  if (*word == 0) return 0;
  for (; *word != 0; word++) {
    if (*word < '0' || '9' < *word) return 0;
    n = 10 * n + (uint64_t)(*word - '0');
    if (n > 0xffffffffu) return 0;
  }
  *value = (uint32_t)n;
  return 1;
}

static int usage(void) {
  fprintf(stderr, "usage: desk test | worst | day PROJECTION | import | close | lighter | calendar YEAR MONTH DAY HOUR MINUTE\n");
  return 2;
}

/* A verb on all of standard input. */
static int on_file(const char *verb, uint32_t projection) {
  size_t length;
  int status = 2;
  uint8_t *file = read_all(&length);
  if (strcmp(verb, "test") == 0) status = test(file, length);
  else if (strcmp(verb, "worst") == 0) status = worst(file, length);
  else if (strcmp(verb, "day") == 0) status = day_of(file, length, projection);
  else if (strcmp(verb, "import") == 0) status = import(file, length);
  else if (strcmp(verb, "close") == 0) status = close_plan(file, length);
  else if (strcmp(verb, "lighter") == 0) status = lighter(file, length);
  else status = usage();
  free(file);
  return status;
}

int main(int count, char **words) {
  uint32_t numbers[5] = {0};
  int k;
  for (k = 2; k < count && k < 7; k++) {
    if (!number(words[k], &numbers[k - 2])) return usage();
  }
  if (count == 7 && strcmp(words[1], "calendar") == 0) return calendar(numbers);
  if (count < 2 || count != (strcmp(words[1], "day") == 0 ? 3 : 2)) return usage();
  return on_file(words[1], numbers[0]);
}
