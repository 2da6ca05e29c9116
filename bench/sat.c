/* Times the proved classical question beside a plain copy of the same algorithm in C, in one run, on three kinds of questions:
   random three-literal clauses over 40 atoms, all questions of random formulas of the usual size, and those of hard patterns.
   Prints one line a kind: questions, microseconds a question for each, and the ratio.
   With the argument `hostile` it reads clause tables instead, each a line `name atoms rows` and then a line `left right` for each
   row, and asks whether they prove false. Prints one line a table: atoms, clauses, seconds for each, and the ratio. */
#include <inttypes.h>
#include <stdbool.h>
#include <stdint.h>
#include <stdio.h>
#include <stdlib.h>
#include <string.h>
#include <time.h>

typedef uint64_t u64;

bool zestanchor_ask(const u64 *left, size_t left_len, const u64 *right, size_t right_len, size_t count, uint8_t n,
                    const u64 *given, size_t given_len, uint8_t asked, u64 *model, size_t model_len);

/* ---- the copy in C: the search */

typedef struct { const u64 *left, *right; size_t count; } Table;
typedef struct { u64 has, lacks; } Partial;

static u64 single(int x) { return x < 64 ? (u64)1 << x : 0; }
static int highest(u64 s) { return 63 - __builtin_clzll(s); }
static int lowest(u64 s) { return __builtin_ctzll(s); }
static u64 without_lowest(u64 s) { return s & (s - 1); }

static bool unit(u64 l, u64 r, Partial *p) {
  u64 a = l & ~p->has, b = r & ~p->lacks, open = a | b;
  if ((l & p->lacks) | (r & p->has) | without_lowest(open)) return true;
  if (!a) {
    if (!b) return false;
    p->has |= b;
  } else if (!b) {
    p->lacks |= a;
  }
  return true;
}

typedef enum { CONFLICT, MODEL, OPEN } Propagated;

/* A clause that fails at m, from a row on and then before it; the count where none does. */
static size_t failing(const Table *t, size_t from, u64 m) {
  for (size_t i = from; i < t->count; i++)
    if (!((t->left[i] & ~m) | (t->right[i] & m))) return i;
  for (size_t i = 0; i < from; i++)
    if (!((t->left[i] & ~m) | (t->right[i] & m))) return i;
  return t->count;
}

static Propagated raise_failing(const Table *t, Partial *p) {
  for (size_t i = failing(t, 0, p->has); i < t->count; i = failing(t, i + 1, p->has)) {
    u64 b = t->right[i] & ~p->lacks;
    if (!b) return CONFLICT;
    if (without_lowest(b)) return OPEN;
    p->has |= b;
  }
  return MODEL;
}

static Propagated propagate(const Table *t, Partial *p) {
  for (;;) {
    Propagated raised = raise_failing(t, p);
    if (raised != OPEN) return raised;
    Partial q = *p;
    for (size_t i = 0; i < t->count; i++)
      if (!unit(t->left[i], t->right[i], p)) return CONFLICT;
    if (q.has == p->has && q.lacks == p->lacks) return OPEN;
  }
}

typedef enum { LEAST, BLOCKED, GAVE_UP } Found;
static const u64 PATIENCE = 8, NO_LIMIT = ~(u64)0;

static Found spent(u64 *conflicts) {
  if (*conflicts == NO_LIMIT) return BLOCKED;
  if (!*conflicts) return GAVE_UP;
  --*conflicts;
  return BLOCKED;
}

/* The smallest model of what is known, given up where more than so many conflicts are met. */
static Found least(const Table *t, Partial known, u64 *conflicts, u64 *model) {
  Propagated end = propagate(t, &known);
  if (end == CONFLICT) return spent(conflicts);
  if (end == MODEL) return *model = known.has, LEAST;
  u64 open = ~(known.has | known.lacks);
  if (!open) return spent(conflicts);
  u64 x = single(highest(open));
  Found f = least(t, (Partial){known.has, known.lacks | x}, conflicts, model);
  return f == BLOCKED ? least(t, (Partial){known.has | x, known.lacks}, conflicts, model) : f;
}

/* ---- the copy in C: rows learned */

/* Rows of the longer table; no place; where the lists of literals begin, that of the rows looked at first, and a list's end. */
enum { LONG = 1024 + 4096, NONE = 65535, LISTS = 4 * LONG, FIRST = LISTS + 128, PAST, LINKS, STARTS = 1 << 20 };

/* A clause, and the atoms that it and those that it was made of have. */
typedef struct { u64 left, right, met; } Clause;

/* A table with room for rows that follow from its `own`; the atom from which on all are decided in falling order; the rows that forced
   atoms. In `links` each row has two places of two numbers: the next place in the list of a literal that it watches, and that literal,
   which is 2x for atom x on the left and 2x + 1 on the right. */
typedef struct {
  u64 left[LONG], right[LONG];
  size_t own, total;
  Partial base;
  int ordered;
  uint16_t activity[64], reasons[64], links[LINKS];
} Learning;

/* Where the search stands: what is known, the atoms known before the last decision, those whose lists are to be looked at, where the next
   place of a list stands, the atom assigned last, 64 for none, and the row that forced it, LONG for none. */
typedef struct { Partial known; u64 before, waiting; size_t at, row; int atom; } Walk;

/* How exploring ends: with a clause that fails; with a row that was learned; with a model; or for want of room. */
typedef enum { FAILS, LEARNED, STANDS, FULL } Kind;
typedef struct { Kind kind; Clause clause; size_t row; u64 model; } End;

static u64 atoms_of(Clause k) { return k.left | k.right; }
static u64 open_atoms(Clause k, Partial p) { return (k.left & ~p.has) | (k.right & ~p.lacks); }
static size_t list_of(int x, bool on_left) { return LISTS + 2 * x + !on_left; }
static Clause clause_of(const Learning *s, size_t row) {
  u64 l = s->left[row], r = s->right[row];
  return (Clause){l, r, l | r};
}

static void link_first(Learning *s, size_t place, size_t list) {
  s->links[place] = s->links[list];
  s->links[list] = place;
}
static void watch(Learning *s, size_t place, int x, u64 left) {
  size_t list = list_of(x, left & single(x));
  s->links[place + 1] = list - LISTS;
  link_first(s, place, list);
}
static void watch_two(Learning *s, size_t row, int x, int y, u64 left) {
  watch(s, 4 * row, x, left);
  watch(s, 4 * row + 2, y, left);
}

/* Enters a row into the lists: two open atoms of it are watched; where it has not two, it is looked at first. */
static void enter(Learning *s, size_t row) {
  u64 l = s->left[row], r = s->right[row], has = s->base.has, lacks = s->base.lacks;
  if ((l & (r | lacks)) | (r & has)) return;
  u64 a = l & ~has, open = a | (r & ~lacks), rest = without_lowest(open);
  if (rest) watch_two(s, row, highest(rest), lowest(open), a);
  else link_first(s, 4 * row, FIRST);
}
static void enter_all(Learning *s) {
  memset(&s->links[LISTS], 0xff, (LINKS - LISTS) * sizeof s->links[0]);
  memset(s->reasons, 0xff, sizeof s->reasons);
  for (size_t row = 0; row < s->total; row++) enter(s, row);
}

/* Looks at the row at a place: it is true, it tells something, or another open atom of it is watched. */
static void visit(Learning *s, Walk *w, size_t place) {
  size_t row = place / 4, other = place ^ 2;
  u64 l = s->left[row], r = s->right[row];
  if ((l & w->known.lacks) | (r & w->known.has)) {
    w->at = place;
    return;
  }
  u64 a = l & ~w->known.has, open = a | (r & ~w->known.lacks);
  if (!without_lowest(open)) {
    w->at = place, w->row = row;
    return;
  }
  u64 rest = open & ~single(s->links[other + 1] / 2);
  s->links[w->at] = s->links[place];
  watch(s, place, highest(rest), a);
}

/* Looks at the rows of the lists, until one tells something or all were looked at. */
static void advance(Learning *s, Walk *w) {
  for (w->row = LONG; w->row == LONG;) {
    size_t place = s->links[w->at];
    if (place != NONE) {
      visit(s, w, place);
    } else {
      if (!w->waiting) return;
      int x = highest(w->waiting);
      w->at = list_of(x, w->known.has & single(x));
      w->waiting &= ~single(x);
    }
  }
}

static void assign(Learning *s, Walk *w, int x, bool had) {
  s->reasons[x] = w->row;
  *(had ? &w->known.has : &w->known.lacks) |= single(x);
  w->waiting |= single(x), w->atom = x;
}

/* Assigns the open atom of a clause, or none where it fails. */
static void force(Learning *s, Walk *w, Clause k) {
  u64 open = open_atoms(k, w->known);
  w->atom = 64;
  if (open) assign(s, w, highest(open), !(k.left & single(highest(open))));
}

static int busiest(const Learning *s, u64 atoms) {
  int best = lowest(atoms);
  for (; atoms; atoms = without_lowest(atoms))
    if (s->activity[lowest(atoms)] > s->activity[best]) best = lowest(atoms);
  return best;
}

/* The next atom is assigned: a row forces it, or it is decided; none where a row fails or all are known. */
static Walk next_of(Learning *s, Walk w) {
  advance(s, &w);
  if (w.row < LONG) return force(s, &w, clause_of(s, w.row)), w;
  w.before = w.known.has | w.known.lacks, w.atom = 64;
  u64 open = ~w.before;
  if (open) assign(s, &w, s->ordered <= highest(open) ? highest(open) : busiest(s, open), false);
  return w;
}

static Clause resolve(const Learning *s, Clause k, size_t row, int atom) {
  u64 x = single(atom), l = s->left[row], r = s->right[row];
  bool on_right = k.right & x;
  return (Clause){on_right ? k.left | (l & ~x) : (k.left & ~x) | l, on_right ? (k.right & ~x) | r : k.right | (r & ~x), k.met | l | r};
}

/* Without those atoms that the rows which forced them make redundant. */
static Clause shorter(const Learning *s, Clause k) {
  for (u64 rest = atoms_of(k); rest; rest &= ~single(highest(rest))) {
    int x = highest(rest);
    size_t row = s->reasons[x];
    if (row < s->total && !(atoms_of(clause_of(s, row)) & ~(single(x) | atoms_of(k)))) k = resolve(s, k, row, x);
  }
  return k;
}

static void raise_activity(Learning *s, u64 met) {
  for (; met; met = without_lowest(met))
    if (s->activity[lowest(met)] < 32768) s->activity[lowest(met)] += 256;
  if (s->total % 16 == 0)
    for (int x = 0; x < 64; x++) s->activity[x] /= 2;
}

static End learn(Learning *s, Clause k) {
  k = shorter(s, k);
  raise_activity(s, k.met);
  if (s->total == LONG) return (End){.kind = FULL};
  s->left[s->total] = k.left, s->right[s->total] = k.right;
  return (End){.kind = LEARNED, .row = s->total++};
}

/* Goes back over an assignment: a conflict is learned where it has one atom of the last level, else resolved with the row that forced the
   atom. */
static End go_back(Learning *s, Walk v, End e) {
  if (e.kind != FAILS) return e;
  u64 level = atoms_of(e.clause) & ~v.before;
  if (level && !without_lowest(level)) return learn(s, e.clause);
  if (v.row < s->total && atoms_of(e.clause) & single(v.atom)) e.clause = resolve(s, e.clause, v.row, v.atom);
  return e;
}

/* What a row just learned forces from w on. */
static Walk follow(Learning *s, Walk w, size_t row) {
  Clause k = clause_of(s, row);
  u64 late = atoms_of(k) & ~open_atoms(k, w.known) & ~w.before;
  w.atom = 64;
  if (!late) return w;
  w.waiting = 0, w.at = PAST, w.row = row;
  force(s, &w, k);
  if (w.atom < 64) watch_two(s, row, w.atom, highest(late), k.left);
  return w;
}

/* Explores what is known, each assignment in a call of its own. */
static End explore(Learning *s, Walk w) {
  Walk v = next_of(s, w);
  if (v.atom == 64)
    return v.row < s->total ? (End){.kind = FAILS, .clause = clause_of(s, v.row)} : (End){.kind = STANDS, .model = v.known.has};
  End e = go_back(s, v, explore(s, v));
  if (e.kind != LEARNED) return e;
  Walk u = follow(s, w, e.row);
  return u.atom == 64 ? e : go_back(s, u, explore(s, u));
}

static size_t literals(const Learning *s, size_t row) {
  return __builtin_popcountll(s->left[row]) + __builtin_popcountll(s->right[row]);
}

/* Whether one of the 127 rows after a row is part of it. */
static bool includes_later(const Learning *s, size_t row) {
  for (size_t later = row + 1; later < s->total && later < row + 128; later++)
    if (!((s->left[later] & ~s->left[row]) | (s->right[later] & ~s->right[row]))) return true;
  return false;
}

/* Of the learned rows go those longer than the average, and those that include a later one. */
static void shorten(Learning *s) {
  size_t sum = 0, to = s->own;
  for (size_t row = s->own; row < s->total; row++) sum += literals(s, row);
  size_t most = sum / (s->total - s->own);
  for (size_t row = s->own; row < s->total; row++) {
    if (literals(s, row) > most || includes_later(s, row)) continue;
    s->left[to] = s->left[row], s->right[to++] = s->right[row];
  }
  s->total = to;
}

/* Explores from the start, and does what its end asks for. Whether it is not over. */
static bool start(Learning *s) {
  End e = explore(s, (Walk){s->base, ~(u64)0, 0, FIRST, LONG, 64});
  if (e.kind == FULL) return shorten(s), enter_all(s), s->total < LONG;
  if (e.kind == LEARNED) return enter(s, e.row), true;
  if (e.kind == FAILS) {
    if (s->total < LONG) s->left[s->total] = e.clause.left, s->right[s->total++] = e.clause.right;
    return false;
  }
  u64 ordered = s->ordered < 64 ? ~(single(s->ordered) - 1) : 0, below = e.model & ~(ordered | s->base.has);
  if (below) s->ordered = highest(below);
  return below;
}

static Found least_of_longer(const Table *t, Partial base, u64 *model) {
  static Learning s;
  memcpy(s.left, t->left, t->count * sizeof(u64));
  memcpy(s.right, t->right, t->count * sizeof(u64));
  memset(s.activity, 0, sizeof s.activity);
  s.own = s.total = t->count, s.base = base, s.ordered = 64;
  enter_all(&s);
  for (int starts = STARTS; starts && start(&s); starts--);
  u64 conflicts = NO_LIMIT;
  return least(&(Table){s.left, s.right, s.total}, base, &conflicts, model);
}

static bool ask_c(const Table *t, int n, u64 given, int asked, u64 *model) {
  Partial base = {given, (n < 64 ? ~(((u64)1 << n) - 1) : 0) | single(asked)};
  if (base.has & base.lacks) return true;
  u64 conflicts = PATIENCE;
  Found f = least(t, base, &conflicts, model);
  return (f == GAVE_UP ? least_of_longer(t, base, model) : f) == BLOCKED;
}

/* ---- questions, recorded */

enum { ROWS = 1024 };
typedef struct { u64 left[ROWS], right[ROWS]; size_t count; int n; u64 given; int asked; } Question;
static Question *questions;
static size_t question_count, question_room;

static bool record(const Table *t, int n, u64 given, int asked, u64 *model) {
  if (question_count == question_room) {
    question_room = question_room ? 2 * question_room : 64;
    questions = realloc(questions, question_room * sizeof *questions);
  }
  Question *q = &questions[question_count++];
  memcpy(q->left, t->left, t->count * sizeof(u64));
  memcpy(q->right, t->right, t->count * sizeof(u64));
  q->count = t->count, q->n = n, q->given = given, q->asked = asked;
  return ask_c(t, n, given, asked, model);
}

static u64 seed = 88172645463325252u;
static u64 rnd(u64 below) {
  seed ^= seed << 13, seed ^= seed >> 7, seed ^= seed << 17;
  return seed % below;
}

static void random_clauses(int n, int clauses) {
  u64 left[ROWS], right[ROWS], model;
  for (int i = 0; i < clauses; i++) {
    left[i] = right[i] = 0;
    for (int k = 0; k < 3;) {
      u64 x = single((int)rnd(n));
      if ((left[i] | right[i]) & x) continue;
      *(rnd(2) ? &left[i] : &right[i]) |= x;
      k++;
    }
  }
  record(&(Table){left, right, clauses}, n, 0, 255, &model);
}

/* A formula as clauses, with a name for each connective. */
static u64 L[ROWS], R[ROWS];
static int implication[128][3];
static int rows, implications, atoms;
static const char *text;

static void flat(u64 l, u64 r) { L[rows] = l, R[rows++] = r; }
static int connect(char op, int y, int z) {
  int x = atoms++;
  u64 X = single(x), Y = single(y), Z = single(z);
  if (op == '&') {
    flat(X, Y), flat(X, Z);
    if (Y && Z) flat(Y | Z, X);
  } else if (op == '|') {
    flat(X, Y | Z);
    if (Y) flat(Y, X);
    if (Z) flat(Z, X);
  } else if (!Y) {
    flat(0, X);
  } else {
    flat(X | Y, Z);
    implication[implications][0] = y, implication[implications][1] = z, implication[implications++][2] = x;
    if (Z) flat(Z, X);
  }
  return x;
}
static int letters[26];
static int reads(int level) {
  if (level == 3) {
    char c = *text++;
    if (c == '~') return connect('>', reads(3), 255);
    if (c == '0') return 255;
    if (c != '(') return letters[c - 'a'];
    int x = reads(0);
    text++;
    return x;
  }
  int x = reads(level + 1);
  if (level == 0) {
    if (*text != '>' && *text != '=') return x;
    char op = *text++;
    int y = reads(0);
    if (op == '>') return connect('>', x, y);
    int forth = connect('>', x, y), back = connect('>', y, x);
    return connect('&', forth, back);
  }
  while (*text == (level == 1 ? '|' : '&')) text++, x = connect(level == 1 ? '|' : '&', x, reads(level + 1));
  return x;
}

static bool realized(const u64 *worlds, int count, u64 w, const int *i) {
  if (w & (single(i[0]) | single(i[1]) | single(i[2]))) return true;
  for (int k = 0; k < count; k++)
    if (!(w & ~worlds[k]) && w != worlds[k] && worlds[k] & single(i[0]) && !(worlds[k] & single(i[1]))) return true;
  return false;
}

/* Runs the search on a formula and records its classical questions. */
static void settle(const char *formula) {
  rows = implications = atoms = 0;
  memset(letters, -1, sizeof letters);
  for (const char *c = formula; *c; c++)
    if (*c >= 'a' && *c <= 'z' && letters[*c - 'a'] < 0) letters[*c - 'a'] = atoms++;
  text = formula;
  int goal = reads(0), steps = 0;
  u64 worlds[256], m;
  for (;;) {
    Table t = {L, R, rows};
    if (record(&t, atoms, 0, goal, &m)) return;
    int count = 1, w = 0, i = 0;
    worlds[0] = m;
    for (;;) {
      while (w < count && (i == implications || realized(worlds, count, worlds[w], implication[i])))
        if (i == implications) w++, i = 0;
        else i++;
      if (w == count) return;
      u64 A = worlds[w] | single(implication[i][0]);
      int b = implication[i][1];
      if (!record(&t, atoms, A, b, &m)) {
        if (count == 256) return;
        worlds[count++] = m;
        continue;
      }
      for (int k = 0; k < atoms; k++)
        if (A & single(k) && record(&t, atoms, A & ~single(k), b, &m)) A &= ~single(k);
      if (++steps > 512) return;
      flat(A & ~single(implication[i][0]), single(implication[i][2]));
      break;
    }
  }
}

static int random_formula(char *out, int letters_used, int connectives) {
  if (!connectives) return out[0] = 'p' + rnd(letters_used), 1;
  const char *ops = "&|>>=~&|";
  char op = ops[rnd(8)];
  int at = 0, inner = op == '~' ? connectives - 1 : (int)rnd(connectives);
  if (op == '~') out[at++] = '~';
  out[at++] = '(', at += random_formula(out + at, letters_used, inner), out[at++] = ')';
  if (op == '~') return at;
  out[at++] = op;
  out[at++] = '(', at += random_formula(out + at, letters_used, connectives - 1 - inner), out[at++] = ')';
  return at;
}
static void random_formulas(int wanted) {
  while (wanted) {
    char f[4096];
    int used = 3 + rnd(4), names = 0, length = random_formula(f, used, 20 + rnd(21));
    f[length] = 0;
    for (char *c = f; *c; c++) names += *c == '=' ? 3 : strchr("&|>~", *c) != NULL;
    if (names + used > 64) continue;
    settle(f), wanted--;
  }
}
static void copies(const char *part, int times) {
  char f[4096] = "(p|q)&(p=q)&(";
  for (int i = 0; i < times; i++) strcat(f, i ? "|" : ""), strcat(f, part);
  settle(strcat(f, ")>p&q"));
}

/* ---- timing */

static double seconds(void) {
  struct timespec t;
  clock_gettime(CLOCK_MONOTONIC, &t);
  return t.tv_sec + t.tv_nsec * 1e-9;
}
static bool ask(bool proved, const Question *q, u64 *model) {
  if (proved) return zestanchor_ask(q->left, ROWS, q->right, ROWS, q->count, q->n, &q->given, 1, q->asked, model, 1);
  return ask_c(&(Table){q->left, q->right, q->count}, q->n, q->given, q->asked, model);
}
static double run(bool proved, size_t *yes) {
  double start = seconds();
  *yes = 0;
  for (size_t k = 0; k < question_count; k++) {
    u64 m = 0;
    *yes += ask(proved, &questions[k], &m);
    *yes += m * 2;
  }
  return seconds() - start;
}
static void compare(const char *kind) {
  double best[2] = {1e9, 1e9};
  size_t answers[2];
  for (int turn = 0; turn < 5; turn++)
    for (int side = 0; side < 2; side++) {
      double t = run(side == 0, &answers[side]);
      if (t < best[side]) best[side] = t;
    }
  double each = 1e6 / question_count;
  printf("%-34s %9zu %12.2f %12.2f %8.2f %s\n", kind, question_count, best[0] * each, best[1] * each, best[0] / best[1],
         answers[0] == answers[1] ? "" : "ANSWERS DIFFER");
  question_count = 0;
}

static void compare_kinds(void) {
  printf("%-34s %9s %12s %12s %8s\n", "kind", "questions", "proved (us)", "C (us)", "ratio");
  for (int i = 0; i < 300; i++) random_clauses(40, 170);
  compare("random clauses, 40 atoms");
  random_formulas(40);
  compare("40 formulas of the usual size");
  copies("(t=u)", 13);
  compare("pattern with 13 copies of (t=u)");
  for (int k = 5; k < 13; k++) copies("(t=u)", k), copies("(t|u)", 2 * k), copies("(~t|u)", k);
  compare("patterns of the same kind");
}

/* ---- hostile tables */

/* The next table, and the question whether it proves false. */
static bool read_question(char name[64], Question *q) {
  if (scanf("%63s %d %zu", name, &q->n, &q->count) != 3) return false;
  for (size_t i = 0; i < q->count; i++)
    if (i == ROWS || scanf("%" SCNu64 " %" SCNu64, &q->left[i], &q->right[i]) != 2) {
      fprintf(stderr, "%s has too many rows or too few\n", name);
      exit(2);
    }
  q->given = 0, q->asked = 255;
  return true;
}

typedef struct { double time; bool proved; u64 model; } Timed;

static Timed timed(bool proved, const Question *q) {
  Timed r = {0, false, 0};
  double begin = seconds();
  r.proved = ask(proved, q, &r.model);
  r.time = seconds() - begin;
  return r;
}
/* The better of two times where it is quick. */
static Timed timed_well(bool proved, const Question *q) {
  Timed once = timed(proved, q);
  if (once.time >= 0.1) return once;
  Timed again = timed(proved, q);
  return again.time < once.time ? again : once;
}

static void compare_hostile(void) {
  static Question q;
  char name[64];
  printf("%-24s %9s %9s %12s %12s %8s\n", "hostile table", "atoms", "clauses", "proved (s)", "C (s)", "ratio");
  while (read_question(name, &q)) {
    Timed proved = timed_well(true, &q), copy = timed_well(false, &q);
    bool agree = proved.proved == copy.proved && proved.model == copy.model;
    printf("%-24s %9d %9zu %12.4f %12.4f %8.2f %s\n", name, q.n, q.count, proved.time, copy.time, proved.time / copy.time,
           agree ? "" : "ANSWERS DIFFER");
  }
}

int main(int count, char **arguments) {
  if (count > 1 && !strcmp(arguments[1], "hostile")) compare_hostile();
  else compare_kinds();
  return 0;
}
