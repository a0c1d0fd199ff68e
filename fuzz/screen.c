/* Fuzzes the C layer: any bytes as table, texts and output. Each call must answer a number that it may answer, leave
   every byte equal where it refuses, never write outside what is lent, and leave a sound table where it accepts. A
   completion that says what is certain must reply and write what the completion does; one of a kind must keep the lines
   of that kind. Each line must be what a look-up of its candidate finds, and what a look-up finds must be listed.

   libFuzzer sees the branches of this file and none of the archive's. What it is led by besides is what the calls answer: a
   counter for each call and answer, for each number of lines and for each power of two of records used. At the end the answers
   that were met are printed. fuzz/seeds.py writes inputs to begin with, and a dictionary, in the format that is read here. */
#include "name_console.h"
#include <stdio.h>
#include <stdlib.h>
#include <string.h>

enum { GUARD = 64, MOST = 64, NAME = 544 };

/* The calls that an input can ask for; the first six are registrations, by the number of the command. */
enum { INSERT_ITEM, INCLUDE, OPEN_NAMESPACE, OPEN_MODULE, ALIAS, MODULE, FIND_ITEM, FIND_MODULE, COMPLETE_NAMES, COMPLETE_MODULES, CALLS };
static const char *const call_names[CALLS] = {"insert_item", "include",     "open_namespace", "open_module",   "alias",
                                              "module",      "find_item",   "find_module",    "complete_names", "complete_modules"};

/* Answers 0 to 10, then none. */
enum { ANSWERS = NAME_CONSOLE_NO_ROOM + 2, LINES = 20, POWERS = 12 };

/* All that were met, and what libFuzzer is led by: it reads these counters after each input and sets them to 0. */
static uint64_t met[CALLS][ANSWERS], inputs, commands;
static struct {
  uint8_t answers[CALLS][ANSWERS], lines[2][LINES], records[POWERS];
} led __attribute__((section("__libfuzzer_extra_counters")));

static void add(uint8_t *counter) { *counter += *counter < 255; }

static void answered(int call, uint32_t answer) {
  uint32_t a = answer == NAME_CONSOLE_NONE ? ANSWERS - 1 : answer;
  met[call][a]++, add(&led.answers[call][a]);
}

static void print_met(void) {
  int pairs = 0;
  printf("%-16s %9s", "answers", "0");
  for (int a = 1; a < ANSWERS - 1; a++) printf(" %9d", a);
  printf(" %9s\n", "none");
  for (int c = 0; c < CALLS; c++) {
    printf("%-16s", call_names[c]);
    for (int a = 0; a < ANSWERS; a++) printf(" %9llu", (unsigned long long)met[c][a]), pairs += met[c][a] != 0;
    printf("\n");
  }
  printf("%llu inputs, %llu commands, %d of the pairs of call and answer\n", (unsigned long long)inputs, (unsigned long long)commands, pairs);
}

int LLVMFuzzerInitialize(int *argc, char ***argv);
int LLVMFuzzerInitialize(int *argc, char ***argv) {
  (void)argc, (void)argv;
  return atexit(print_met);
}

static const uint8_t *data;
static size_t left;

static uint32_t byte(void) {
  if (!left) return 0;
  left--;
  return *data++;
}

/* A number of so many bytes, lowest first. */
static uint32_t number(int bytes) {
  uint32_t n = 0;
  for (int i = 0; i < bytes; i++) n |= byte() << 8 * i;
  return n;
}

/* Stops here if it does not hold. */
static void must(int holds) {
  if (!holds) abort();
}

/* A lent buffer with guard bytes around it, and what it held before a call. */
struct lent {
  uint8_t *all, *bytes, *before;
  size_t len;
};

static struct lent lend(size_t len) {
  struct lent b = {malloc(len + 2 * GUARD), NULL, malloc(len + 1), len};
  must(b.all && b.before);
  memset(b.all, 0xA5, len + 2 * GUARD);
  b.bytes = b.all + GUARD;
  memset(b.bytes, 0, len);
  return b;
}

static void keep(struct lent *b) { memcpy(b->before, b->bytes, b->len); }

static void guards(const struct lent *b) {
  for (size_t i = 0; i < GUARD; i++) must(b->all[i] == 0xA5 && b->bytes[b->len + i] == 0xA5);
}

static void same(const struct lent *b, size_t from) { must(from > b->len || !memcmp(b->bytes + from, b->before + from, b->len - from)); }

/* What it held before the call stands in it again, and what it holds now counts as before. */
static void exchange(struct lent *b) {
  for (size_t i = 0; i < b->len; i++) {
    uint8_t now = b->bytes[i];
    b->bytes[i] = b->before[i];
    b->before[i] = now;
  }
}

static void done(struct lent *b) {
  guards(b);
  free(b->all);
  free(b->before);
}

/* A text: a few of the names that collide, or bytes of the input. */
static size_t text_of(uint8_t *out) {
  static const char *const texts[] = {"",   "a",    "b",     "a.",   "b.",      "a.b.",   "a.b.c.", ".",
                                      "..", "ab.",  "a..",   "c",    "io/bus",  "a.a.a.", "b.a.",   "longer.name.",
                                      "z",  "z.z.", "a.b.d.", "offs", "Saved.", "Live.",  "x",      "x.y."};
  uint32_t kind = byte();
  if (kind < 200) {
    const char *s = texts[kind % (sizeof texts / sizeof *texts)];
    memcpy(out, s, strlen(s));
    return strlen(s);
  }
  size_t n = byte() % MOST;
  for (size_t i = 0; i < n; i++) out[i] = (uint8_t)byte();
  return n;
}

static struct lent state, words, table_text, lines, out;

#define TABLE state.bytes, state.len, words.bytes, words.len, table_text.bytes, table_text.len
#define OUTPUT lines.bytes, lines.len, out.bytes, out.len

static int is_kind(uint32_t n) { return NAME_CONSOLE_TIMER <= n && n <= NAME_CONSOLE_REGISTER; }

static void registration(uint32_t call) {
  uint8_t a[MOST], b[MOST], c[MOST];
  size_t an = text_of(a), bn = text_of(b), cn = text_of(c);
  uint32_t n = number(4);
  keep(&state), keep(&words), keep(&table_text);
  uint32_t answer = 0, kind = n % 5;
  switch (call) {
  case 0:
    answer = name_console_insert_item(TABLE, a, an, b, bn, kind, n);
    must(answer || is_kind(kind));
    break;
  case 1: answer = name_console_include(TABLE, a, an, b, bn); break;
  case 2: answer = name_console_open_namespace(TABLE, a, an, b, bn); break;
  case 3: answer = name_console_open_module(TABLE, a, an, b, bn); break;
  case 4: answer = name_console_alias(TABLE, c, cn, a, an, b, bn); break;
  default: answer = name_console_module(TABLE, n % 3, a, an, b, bn); break;
  }
  must(answer <= NAME_CONSOLE_TEXT_FULL);
  answered((int)call, answer);
  if (answer) {
    same(&state, 0), same(&words, 0), same(&table_text, 0);
  } else {
    must(name_console_find_item(TABLE, a, 0).answer == NAME_CONSOLE_EMPTY);
    int power = 0;
    for (uint32_t used = name_console_word(state.bytes, 2); used >> power && power < POWERS - 1;) power++;
    add(&led.records[power]);
  }
}

/* Bytes that the candidates of the first n lines begin with alike. */
static uint32_t beginning(uint32_t n) {
  if (!n) return 0;
  struct name_console_line first = name_console_line_at(lines.bytes, 0);
  for (uint32_t k = 0; k < first.candidate_len; k++)
    for (uint32_t i = 1; i < n; i++) {
      struct name_console_line l = name_console_line_at(lines.bytes, i);
      if (l.candidate_len <= k || out.bytes[l.candidate + k] != out.bytes[first.candidate + k]) return k;
    }
  return first.candidate_len;
}

/* What a completion may reply and leave. */
static void holds(struct name_console_listing r, uint32_t budget) {
  must(r.answer <= NAME_CONSOLE_NO_ROOM);
  if (r.answer) {
    must(!r.lines && !r.entered);
    same(&lines, 0), same(&out, 0);
    return;
  }
  must((uint64_t)r.lines * NAME_CONSOLE_LINE <= lines.len && 0 < r.entered && r.entered <= budget);
  same(&lines, (size_t)r.lines * NAME_CONSOLE_LINE);
  size_t at = 0;
  for (uint32_t k = 0; k < r.lines; k++) {
    const uint8_t *line = lines.bytes + (size_t)k * NAME_CONSOLE_LINE;
    must(name_console_word(line, 1) == at), at += name_console_word(line, 2);
    must(name_console_word(line, 3) == at), at += name_console_word(line, 4);
  }
  must(at <= out.len);
  same(&out, at);
}

/* A completion of modules under a filter or of names of a kind, and on the same output the one that says what is shared. */
static struct name_console_listing complete(int modules, uint32_t choice, const uint8_t *q, size_t qn, uint32_t budget) {
  keep(&lines), keep(&out);
  struct name_console_listing r = modules ? name_console_complete_modules(TABLE, choice, q, qn, budget, OUTPUT)
                                          : name_console_complete_names(TABLE, choice, q, qn, budget, OUTPUT);
  holds(r, budget);
  must(r.answer || choice < 4);
  exchange(&lines), exchange(&out);
  struct name_console_shared s = modules ? name_console_complete_modules_shared(TABLE, choice, q, qn, budget, OUTPUT)
                                         : name_console_complete_names_shared(TABLE, choice, q, qn, budget, OUTPUT);
  same(&lines, 0), same(&out, 0);
  must(s.answer == r.answer && s.lines == r.lines && s.entered == r.entered && s.shared == beginning(r.lines));
  return r;
}

/* How many of the first n lines are of a kind. */
static uint32_t of_kind(uint32_t n, uint32_t kind) {
  uint32_t all = 0;
  for (uint32_t i = 0; i < n; i++) all += name_console_line_at(lines.bytes, i).kind == kind;
  return all;
}

/* After a listing of names: every line has a kind, and of one kind are those that all kinds have of it. */
static void of_kinds(struct name_console_listing r, uint32_t kind, const uint8_t *q, size_t qn, uint32_t budget) {
  if (kind) must(of_kind(r.lines, kind) == r.lines);
  struct name_console_listing all = complete(0, NAME_CONSOLE_ALL_KINDS, q, qn, budget);
  must(all.answer == NAME_CONSOLE_OK || (all.answer == NAME_CONSOLE_NO_ROOM && kind));
  if (all.answer) return;
  must(all.entered == r.entered && (kind ? of_kind(all.lines, kind) : all.lines) == r.lines);
  must(of_kind(all.lines, NAME_CONSOLE_TIMER) + of_kind(all.lines, NAME_CONSOLE_PORT) + of_kind(all.lines, NAME_CONSOLE_REGISTER) == all.lines);
}

/* Whether a line has the item that a look-up of its text finds. */
static int is_item(struct name_console_line l, struct name_console_item f) { return !f.answer && f.kind == l.kind && f.number == l.number; }

static int is_symbol(struct name_console_line l, struct name_console_symbol m) {
  int path = l.sort ? !m.path_start && !m.path_len : m.path_start == l.path && m.path_len == l.path_len;
  return !m.answer && m.sort == l.sort && m.name_start == l.name && m.name_len == l.name_len && m.loaded == l.loaded && path;
}

/* After a listing: each of its lines is what a look-up finds. */
static void found(int modules, uint32_t n) {
  for (uint32_t i = 0; i < n; i++) {
    struct name_console_line l = name_console_line_at(lines.bytes, i);
    uint8_t q[NAME];
    must(l.candidate_len < NAME);
    memcpy(q, out.bytes + l.candidate, l.candidate_len);
    q[l.candidate_len] = '.';
    must(modules ? is_symbol(l, name_console_find_module(TABLE, q, l.candidate_len + 1)) : is_item(l, name_console_find_item(TABLE, q, l.candidate_len + 1)));
  }
}

/* A full name that is looked up: asked for in full it has one line if it is found, and none if it is not, unless the listing is refused. */
static void in_full(int modules, int there, const uint8_t *q, size_t qn) {
  struct name_console_listing r = complete(modules, 0, q, qn, 4096);
  must(!r.answer || r.answer == NAME_CONSOLE_SPENT || r.answer == NAME_CONSOLE_NO_ROOM);
  int its = 0;
  for (uint32_t i = 0; i < r.lines; i++) {
    struct name_console_line l = name_console_line_at(lines.bytes, i);
    its += l.candidate_len == qn - 1 && !memcmp(out.bytes + l.candidate, q, qn - 1);
  }
  must(r.answer || its == there);
  found(modules, r.lines);
}

static void look_up(void) {
  uint8_t a[MOST];
  size_t an = text_of(a);
  struct name_console_item f = name_console_find_item(TABLE, a, an);
  must(f.answer <= NAME_CONSOLE_TOO_LONG || f.answer == NAME_CONSOLE_NONE);
  answered(FIND_ITEM, f.answer);
  must(f.answer ? !f.kind && !f.number : is_kind(f.kind));
  if (!f.answer || f.answer == NAME_CONSOLE_NONE) in_full(0, !f.answer, a, an);
  struct name_console_symbol m = name_console_find_module(TABLE, a, an);
  must(m.answer <= NAME_CONSOLE_TOO_LONG || m.answer == NAME_CONSOLE_NONE);
  answered(FIND_MODULE, m.answer);
  if (!m.answer) must((uint64_t)m.name_start + m.name_len <= table_text.len && (uint64_t)m.path_start + m.path_len <= table_text.len);
  if (!m.answer || m.answer == NAME_CONSOLE_NONE) in_full(1, !m.answer, a, an);
}

static void completion(int modules) {
  uint8_t q[MOST];
  size_t qn = text_of(q);
  uint32_t choice = byte() % 5, budget = byte() < 128 ? number(4) : byte();
  struct name_console_listing r = complete(modules, choice, q, qn, budget);
  answered(modules ? COMPLETE_MODULES : COMPLETE_NAMES, r.answer);
  if (!r.answer) {
    add(&led.lines[modules][r.lines < LINES ? r.lines : LINES - 1]);
    found(modules, r.lines);
    if (!modules) of_kinds(r, choice, q, qn, budget);
    must(complete(modules, choice, q, qn, r.entered).answer == NAME_CONSOLE_OK);
    must(complete(modules, choice, q, qn, r.entered - 1).answer == NAME_CONSOLE_SPENT);
  }
}

int LLVMFuzzerTestOneInput(const uint8_t *bytes, size_t size) {
  data = bytes, left = size, inputs++;
  uint32_t shape = byte(), records = byte(), more = byte() % 50, text = byte(), rows = byte() % LINES, over = byte() % 3, pane = byte();
  state = lend(shape < 250 ? NAME_CONSOLE_STATE : shape - 240);
  words = lend(records * (size_t)NAME_CONSOLE_RECORD + more);
  table_text = lend(text * (size_t)4);
  lines = lend(rows * (size_t)NAME_CONSOLE_LINE + over);
  out = lend(pane * (size_t)2);
  while (left) {
    uint32_t op = byte() % 13;
    commands++;
    if (op < 6) registration(op);
    else if (op < 8) look_up();
    else if (op < 10) completion(0);
    else if (op < 12) completion(1);
    else {
      struct lent *b = byte() % 2 ? &words : &state;
      size_t at = number(2);
      uint8_t value = (uint8_t)byte();
      if (b->len) b->bytes[at % b->len] = value;
    }
    guards(&state), guards(&words), guards(&table_text), guards(&lines), guards(&out);
  }
  done(&state), done(&words), done(&table_text), done(&lines), done(&out);
  return 0;
}
