/* The library as C meets it: includes the header, links the library, and ends at the first difference. */
#include <stdbool.h>
#include <stdio.h>
#include <stdlib.h>
#include <string.h>

#include "zestanchor.h"

#define FILLER 0xa5

typedef struct {
  const uint8_t *bytes;
  size_t length;
} Bytes;

/* One byte more than any answer needs, so that a byte past the room is seen too. */
static uint8_t output[ZESTANCHOR_ROOM + 1];
static int calls;

static Bytes text(const char *s) { return (Bytes){(const uint8_t *)s, strlen(s)}; }

static void require(bool holds, const char *what, int task, Bytes input) {
  if (holds) return;
  fprintf(stderr, "different: %s; task %d, input of %zu bytes: %.*s\n", what, task, input.length, (int)input.length,
          input.length ? (const char *)input.bytes : "");
  exit(1);
}

/* Calls with so much room; every byte from the given one on must be as it was. */
static size_t call(int task, Bytes input, size_t room, size_t untouched) {
  memset(output, FILLER, sizeof output);
  size_t length = zestanchor((uint8_t)task, input.bytes, input.length, output, room);
  for (size_t i = untouched; i < sizeof output; i++) require(output[i] == FILLER, "a byte was written past the answer", task, input);
  calls++;
  return length;
}

/* The task must give exactly these bytes: with room for every answer, with just enough, and nothing with less. */
static void gives(int task, Bytes input, Bytes wanted) {
  const size_t enough[] = {ZESTANCHOR_ROOM, wanted.length + 1, wanted.length};
  for (size_t i = 0; i < sizeof enough / sizeof *enough; i++) {
    size_t length = call(task, input, enough[i], wanted.length);
    require(length == wanted.length, "another length", task, input);
    require(memcmp(output, wanted.bytes, length) == 0, "other bytes", task, input);
  }
  for (size_t room = 0; room < wanted.length; room++) require(call(task, input, room, 0) == 0, "no room, but a length", task, input);
}

static void has_length(Bytes input, size_t wanted) {
  require(call(ZESTANCHOR_LENGTH, input, ZESTANCHOR_ROOM, 0) == wanted, "another length", ZESTANCHOR_LENGTH, input);
  require(call(ZESTANCHOR_LENGTH, input, 0, 0) == wanted, "another length without room", ZESTANCHOR_LENGTH, input);
}

/* A text with a verdict: its report, a sheet of so many bytes, and the line of that sheet; a damaged sheet is refused. */
static void settled(const char *formula, const char *report, size_t size, const char *line) {
  static uint8_t kept[ZESTANCHOR_ROOM];
  Bytes input = text(formula);
  gives(ZESTANCHOR_SETTLE, input, text(report));
  require(call(ZESTANCHOR_CERTIFY, input, ZESTANCHOR_ROOM, size) == size, "a sheet of another length", ZESTANCHOR_CERTIFY, input);
  require(size >= ZESTANCHOR_SHORTEST_SHEET && output[0] == 4, "no sheet", ZESTANCHOR_CERTIFY, input);
  memcpy(kept, output, size);
  gives(ZESTANCHOR_CERTIFY, input, (Bytes){kept, size});
  has_length(input, size);
  gives(ZESTANCHOR_CHECK, (Bytes){kept, size}, text(line));
  gives(ZESTANCHOR_CHECK, (Bytes){kept, size - 1}, text("refused 13\n"));
  kept[37] = 65; /* the number of atoms */
  gives(ZESTANCHOR_CHECK, (Bytes){kept, size}, text("refused 14\n"));
}

static void refused(Bytes input, const char *line) {
  require(strlen(line) < ZESTANCHOR_SHORTEST_SHEET, "a line as long as a sheet", ZESTANCHOR_SETTLE, input);
  gives(ZESTANCHOR_SETTLE, input, text(line));
  gives(ZESTANCHOR_CERTIFY, input, text(line));
  gives(ZESTANCHOR_SCREEN, input, text(line));
  has_length(input, strlen(line));
}

static void screened(const char *formula, const char *line) { gives(ZESTANCHOR_SCREEN, text(formula), text(line)); }

/* The sheet that docs/FORMAT.md shows. */
static void example(void) {
  static const uint8_t sheet[] = {
      4,                                                /* entries */
      1, 37, 0, 0, 0, 33, 0, 0, 0,                      /* flat clauses */
      2, 70, 0, 0, 0, 3, 0, 0, 0,                       /* implications */
      3, 73, 0, 0, 0, 1, 0, 0, 0,                       /* the goal */
      4, 74, 0, 0, 0, 9, 0, 0, 0,                       /* steps */
      2,                                                /* atoms */
      3, 0, 0, 0, 0, 0, 0, 0, 1, 0, 0, 0, 0, 0, 0, 0,   /* {0, 1} to {0} */
      1, 0, 0, 0, 0, 0, 0, 0, 2, 0, 0, 0, 0, 0, 0, 0,   /* {0} to {1} */
      0, 0, 1,                                          /* (0 to 0) to 1 */
      1,                                                /* atom 1 */
      0, 1, 0, 0, 0, 0, 0, 0, 0,                        /* implication 0, {0} */
  };
  gives(ZESTANCHOR_CERTIFY, text("p>p"), (Bytes){sheet, sizeof sheet});
  gives(ZESTANCHOR_CHECK, (Bytes){sheet, sizeof sheet}, text("accepted valid\n"));
  uint8_t wrong[sizeof sheet];
  memcpy(wrong, sheet, sizeof sheet);
  wrong[75] = 0; /* nothing assumed in the step */
  gives(ZESTANCHOR_CHECK, (Bytes){wrong, sizeof wrong}, text("refused 16 at 0\n"));
}

static void no_such_task(int task) {
  require(call(task, text("p>p"), ZESTANCHOR_ROOM, 0) == ZESTANCHOR_NO_TASK, "an unknown task was done", task, text("p>p"));
  require(zestanchor((uint8_t)task, NULL, 0, NULL, 0) == ZESTANCHOR_NO_TASK, "an unknown task was done", task, text("p>p"));
}

/* Null pointers, each with length 0. */
static void null_pointers(void) {
  const Bytes nothing = {NULL, 0}, formula = text("p>p");
  refused(nothing, "refused 1\n");
  gives(ZESTANCHOR_CHECK, nothing, text("refused 13\n"));
  for (int task = ZESTANCHOR_SETTLE; task <= ZESTANCHOR_SCREEN; task++) {
    if (task == ZESTANCHOR_LENGTH) continue;
    require(zestanchor((uint8_t)task, formula.bytes, formula.length, NULL, 0) == 0, "no output, but a length", task, formula);
    require(zestanchor((uint8_t)task, NULL, 0, NULL, 0) == 0, "no output, but a length", task, nothing);
  }
  require(zestanchor(ZESTANCHOR_LENGTH, formula.bytes, formula.length, NULL, 0) == 83, "another length", ZESTANCHOR_LENGTH, formula);
  require(zestanchor(ZESTANCHOR_LENGTH, NULL, 0, NULL, 0) == 10, "another length", ZESTANCHOR_LENGTH, nothing);
  calls += 10;
}

int main(void) {
  example();
  settled("p>p", "valid\natoms 2 questions 3 learned 1\nstep 0 1\n", 83, "accepted valid\n");
  settled("0>0", "valid\natoms 1 questions 1 learned 0\n", 55, "accepted valid\n");
  settled("0", "refuted\natoms 1 questions 1 learned 0\nworld 0\n", 47, "accepted refuted\n");
  settled("p|~p", "refuted\natoms 3 questions 2 learned 0\nworld 0\nworld 5\n", 122, "accepted refuted\n");
  settled("((p>q)>p)>p", "refuted\natoms 5 questions 9 learned 1\nworld 0\nworld 25\nworld 20\nworld 8\n", 176, "accepted refuted\n");
  refused(text(""), "refused 1\n");
  refused(text("p q"), "refused 3 at 2\n");
  refused(text("(p"), "refused 3 at 2\n");
  refused(text("p>p\n"), "refused 3 at 3\n");
  refused((Bytes){(const uint8_t *)"p\0q", 3}, "refused 3 at 1\n");
  static uint8_t many[4097];
  memset(many, '~', sizeof many);
  many[64] = 'p';
  refused((Bytes){many, 65}, "refused 4\n");
  many[64] = '~';
  refused((Bytes){many, 4096}, "refused 3 at 4096\n");
  refused((Bytes){many, 4097}, "refused 1\n");
  memset(many, '(', sizeof many);
  refused((Bytes){many, 65}, "refused 2\n");
  screened("p>p", "passes\n");
  screened("~0", "passes\n");
  screened("p|(p>q|~q)", "passes\n");
  screened("0", "falls\n");
  screened("p|~p", "falls 1\n");
  screened("((p>q)>p)>p", "falls 15 0\n");
  screened("(p>q|r)>(p>q)|(p>r)", "falls 3 1 2\n");
  screened("p>q>r|~r", "falls 16 16 1\n");
  screened("a>b>c>d>a", "refused 22\n");
  no_such_task(5);
  no_such_task(255);
  null_pointers();
  printf("library from C: no difference in %d calls\n", calls);
  return 0;
}
