/* The C calls from C: sizes and places of the header's structs, the cases of docs/REQUIREMENTS.md, each refusal by name, and what each call
   leaves of the bytes. One line a check: ok or FAILED. */
#include <stddef.h>
#include <stdio.h>
#include <stdlib.h>
#include <string.h>

#include "name_console.h"

static uint8_t state[NAME_CONSOLE_STATE], words[NAME_CONSOLE_RECORDS * NAME_CONSOLE_RECORD], text[32768];
static uint8_t lines[600 * NAME_CONSOLE_LINE], out[65536];
static uint8_t lines_before[sizeof lines], out_before[sizeof out];
static uint8_t lines_left[sizeof lines], out_left[sizeof out];
static uint8_t state_before[sizeof state], words_before[sizeof words], text_before[sizeof text];
static size_t state_len = sizeof state, lines_len = sizeof lines, out_len = sizeof out;
static uint32_t budget = 4096;
static int failures;

#define TABLE state, state_len, words, sizeof words, text, sizeof text
#define OUTPUT lines, lines_len, out, out_len
#define S(s) (const uint8_t *)(s), strlen(s)

static void check(const char *what, int good) {
  printf("%s %s\n", good ? "ok" : "FAILED", what);
  failures += !good;
}

/* ---- The structs: fields of 32 bits one after another */

#define SIZE(s, n) check("size of " #s, sizeof(struct name_console_##s) == (n))
#define PLACE(s, f, n) check("place of " #s "." #f, offsetof(struct name_console_##s, f) == (n) && sizeof(((struct name_console_##s *)0)->f) == 4)

static void structs(void) {
  SIZE(item, 12);
  PLACE(item, answer, 0);
  PLACE(item, kind, 4);
  PLACE(item, number, 8);
  SIZE(symbol, 28);
  PLACE(symbol, answer, 0);
  PLACE(symbol, sort, 4);
  PLACE(symbol, name_start, 8);
  PLACE(symbol, name_len, 12);
  PLACE(symbol, path_start, 16);
  PLACE(symbol, path_len, 20);
  PLACE(symbol, loaded, 24);
  SIZE(listing, 12);
  PLACE(listing, answer, 0);
  PLACE(listing, lines, 4);
  PLACE(listing, entered, 8);
  SIZE(shared, 16);
  PLACE(shared, answer, 0);
  PLACE(shared, lines, 4);
  PLACE(shared, entered, 8);
  PLACE(shared, shared, 12);
  SIZE(line, 52);
  PLACE(line, match_length, 0);
  PLACE(line, candidate, 4);
  PLACE(line, candidate_len, 8);
  PLACE(line, annotation, 12);
  PLACE(line, annotation_len, 16);
  PLACE(line, kind, 20);
  PLACE(line, number, 24);
  PLACE(line, sort, 28);
  PLACE(line, name, 32);
  PLACE(line, name_len, 36);
  PLACE(line, path, 40);
  PLACE(line, path_len, 44);
  PLACE(line, loaded, 48);
  check("sizes", NAME_CONSOLE_STATE == 16 && NAME_CONSOLE_RECORD == 48 && NAME_CONSOLE_RECORDS == 1024 && NAME_CONSOLE_LINE == 48);
  check("kinds", NAME_CONSOLE_ALL_KINDS == 0 && NAME_CONSOLE_TIMER == 1 && NAME_CONSOLE_PORT == 2 && NAME_CONSOLE_REGISTER == 3);
  check("filters", NAME_CONSOLE_ALL == 0 && NAME_CONSOLE_LOADED == 1 && NAME_CONSOLE_MODULES_ONLY == 2 && NAME_CONSOLE_NAMESPACES_ONLY == 3);
}

/* Line record words 0 to 11 are read in the header's order. */
static void words_of_a_line(void) {
  uint8_t record[2 * NAME_CONSOLE_LINE];
  for (uint32_t k = 0; k < 24; k++)
    for (uint32_t b = 0; b < 4; b++) record[k * 4 + b] = (uint8_t)(b ? 16 * b : 100 + k);
  const uint32_t high = 0x30201000u + 100;
  struct name_console_line l = name_console_line_at(record, 1);
  check("a line's words", (uint32_t)l.match_length == high + 12 && l.candidate == high + 13 && l.candidate_len == high + 14 && l.annotation == high + 15 &&
                              l.annotation_len == high + 16 && l.number == high + 17 && l.kind == high + 18 && l.sort == high + 17 && l.name == high + 18 &&
                              l.name_len == high + 19 && l.path == high + 20 && l.path_len == high + 21 && l.loaded == high + 22);
  memset(record, 0xFF, 4);
  check("a match length of -1", name_console_line_at(record, 0).match_length == -1);
}

/* ---- Completions */

static void fill(void) {
  for (size_t i = 0; i < sizeof lines; i++) lines[i] = (uint8_t)(i * 7 + 3);
  for (size_t i = 0; i < sizeof out; i++) out[i] = (uint8_t)(i * 5 + 1);
  memcpy(lines_before, lines, sizeof lines);
  memcpy(out_before, out, sizeof out);
}

/* Keeps what a completion has left, and lends the same output anew. */
static void again(void) {
  memcpy(lines_left, lines, sizeof lines);
  memcpy(out_left, out, sizeof out);
  fill();
}

/* The bytes that the candidates of the last completion share, and whether the call that says so replied and left what the completion did. */
static uint32_t shared;
static int alike;

static struct name_console_listing both(struct name_console_listing r, struct name_console_shared s) {
  shared = s.shared;
  alike = s.answer == r.answer && s.lines == r.lines && s.entered == r.entered && memcmp(lines, lines_left, sizeof lines) == 0 &&
          memcmp(out, out_left, sizeof out) == 0;
  return r;
}

static struct name_console_listing names(uint32_t kind, const char *q) {
  fill();
  struct name_console_listing r = name_console_complete_names(TABLE, kind, S(q), budget, OUTPUT);
  again();
  return both(r, name_console_complete_names_shared(TABLE, kind, S(q), budget, OUTPUT));
}

static struct name_console_listing complete(const char *q) { return names(NAME_CONSOLE_ALL_KINDS, q); }

static struct name_console_listing modules(uint32_t filter, const char *q) {
  fill();
  struct name_console_listing r = name_console_complete_modules(TABLE, filter, S(q), budget, OUTPUT);
  again();
  return both(r, name_console_complete_modules_shared(TABLE, filter, S(q), budget, OUTPUT));
}

/* Both are refused with n, and no byte has changed. */
static int refused(struct name_console_listing r, uint32_t n) {
  return r.answer == n && r.lines == 0 && r.entered == 0 && alike && shared == 0 && memcmp(lines, lines_before, sizeof lines) == 0 &&
         memcmp(out, out_before, sizeof out) == 0;
}

/* Both have listed, and nothing past the lines and their texts has changed. */
static int listed(struct name_console_listing r, uint32_t count, uint32_t entered) {
  size_t end = (size_t)count * NAME_CONSOLE_LINE, used = 0;
  if (r.answer != 0 || r.lines != count || r.entered != entered || !alike) return 0;
  for (uint32_t i = 0; i < count; i++) {
    struct name_console_line l = name_console_line_at(lines, i);
    if (l.candidate != used || l.annotation != used + l.candidate_len) return 0;
    used += l.candidate_len + l.annotation_len;
  }
  return memcmp(lines + end, lines_before + end, sizeof lines - end) == 0 && memcmp(out + used, out_before + used, sizeof out - used) == 0;
}

static int texts(struct name_console_line l, const char *candidate, const char *annotation, int32_t match) {
  return l.candidate_len == strlen(candidate) && memcmp(out + l.candidate, candidate, l.candidate_len) == 0 &&
         l.annotation_len == strlen(annotation) && memcmp(out + l.annotation, annotation, l.annotation_len) == 0 && l.match_length == match;
}

static int item_line(uint32_t i, const char *candidate, const char *annotation, uint32_t kind, uint32_t number, int32_t match) {
  struct name_console_line l = name_console_line_at(lines, i);
  return texts(l, candidate, annotation, match) && l.kind == kind && l.number == number;
}

/* The line of a register. */
static int line(uint32_t i, const char *candidate, const char *annotation, uint32_t number, int32_t match) {
  return item_line(i, candidate, annotation, NAME_CONSOLE_REGISTER, number, match);
}

/* The line of a module or namespace. */
static int symbol(uint32_t i, const char *candidate, const char *annotation, uint32_t sort, int32_t match) {
  struct name_console_line l = name_console_line_at(lines, i);
  return texts(l, candidate, annotation, match) && l.sort == sort;
}

static uint32_t item(const char *host, const char *id, uint32_t kind, uint32_t number) {
  return name_console_insert_item(TABLE, S(host), S(id), kind, number);
}

/* A name with a register. */
static uint32_t name(const char *host, const char *id, uint32_t number) { return item(host, id, NAME_CONSOLE_REGISTER, number); }

static void fresh(void) { memset(state, 0, sizeof state); }

static void table_t(void) {
  fresh();
  check("T: name", name("Saved.", "offset", 1) == 0);
  check("T: include", name_console_include(TABLE, S("Live."), S("Saved.")) == 0);
  check("T: late", name("Saved.", "late", 2) == 0);
  check("T: offset", name("Live.", "offset", 3) == 0);
  check("T: 26 records, 44 bytes", name_console_word(state, 2) == 26 && name_console_word(state, 3) == 44);
}

static void cases(void) {
  table_t();
  check("case 5", listed(complete("Live.off."), 1, 2) && line(0, "Live.offset", "", 3, 8));
  check("case 6", listed(complete(""), 3, 3) && line(0, "Live.offset", "", 3, -1) && line(1, "Saved.late", "", 2, -1) && line(2, "Saved.offset", "", 1, -1));
  check("case 7", listed(complete("."), 3, 3) && line(0, "Live.offset", "", 3, 0) && line(2, "Saved.offset", "", 1, 0));
  budget = 1;
  check("case 13: budget 1", refused(complete("Live.off."), NAME_CONSOLE_SPENT));
  budget = 2;
  check("case 13: budget 2", listed(complete("Live.off."), 1, 2));
  budget = 4096;
  lines_len = NAME_CONSOLE_LINE - 1;
  check("case 13: no line record", refused(complete("Live.off."), NAME_CONSOLE_NO_ROOM));
  lines_len = NAME_CONSOLE_LINE;
  check("one line record", listed(complete("Live.off."), 1, 2));
  lines_len = sizeof lines;
  out_len = strlen("Live.offset") - 1;
  check("a byte too few", refused(complete("Live.off."), NAME_CONSOLE_NO_ROOM));
  out_len++;
  check("bytes enough", listed(complete("Live.off."), 1, 2));
  out_len = sizeof out;
  check("malformed", refused(complete("Live.off"), NAME_CONSOLE_MALFORMED));
  check("too long", refused(complete("................. ."), NAME_CONSOLE_MALFORMED) && refused(complete(".................."), NAME_CONSOLE_TOO_LONG));
  check("include at the root", name_console_include(TABLE, S(""), S("Saved.")) == 0);
  check("case 9", listed(complete("off."), 1, 1) && line(0, "offset", "Saved", 1, 3));
}

static void filters(void) {
  fresh();
  check("a module", name_console_module(TABLE, 0, S("IO.Bus."), S("io/bus")) == 0);
  check("case 10", listed(modules(NAME_CONSOLE_ALL, "I."), 2, 3) && symbol(0, "IO", "(ns)", 1, 1) && symbol(1, "IO.Bus", "(mod)", 0, 1));
  struct name_console_line l = name_console_line_at(lines, 1);
  check("its path", l.path_len == 6 && memcmp(text + l.path, "io/bus", 6) == 0 && l.loaded == 0);
  check("none loaded", listed(modules(NAME_CONSOLE_LOADED, "I."), 0, 3));
  check("modules only", listed(modules(NAME_CONSOLE_MODULES_ONLY, "I."), 1, 3) && symbol(0, "IO.Bus", "(mod)", 0, 1));
  check("namespaces only", listed(modules(NAME_CONSOLE_NAMESPACES_ONLY, "I."), 1, 3) && symbol(0, "IO", "(ns)", 1, 1));
  check("no filter", refused(modules(4, "I."), NAME_CONSOLE_MALFORMED) && refused(modules(UINT32_MAX, "I."), NAME_CONSOLE_MALFORMED));
}

static void beginnings(void) {
  table_t();
  check("no name", listed(complete("None."), 0, 1) && shared == 0);
  check("one name", listed(complete("Live.off."), 1, 2) && shared == strlen("Live.offset"));
  check("names that part at once", listed(complete(""), 3, 3) && shared == 0);
  check("names that part later", listed(complete("S."), 2, 2) && line(0, "Saved.late", "", 2, 1) && shared == strlen("Saved."));
  check("names in and below the root", name("", "ab", 4) == 0 && name("", "abc", 5) == 0 && name("", "ac", 6) == 0 && name("ab.", "x", 7) == 0);
  check("the third shortens it", listed(complete("a."), 4, 2) && line(2, "ac", "", 6, 1) && line(3, "ab.x", "", 7, 1) && shared == 1);
  check("names with an annotation", name("g.", "t", 8) == 0 && name("g.", "tg", 9) == 0 && name_console_include(TABLE, S(""), S("g.")) == 0);
  check("it is no part", listed(complete("t."), 2, 1) && line(0, "t", "g", 8, 1) && line(1, "tg", "g", 9, 1) && shared == 1);
  check("modules", name_console_module(TABLE, 0, S("IO.Bus."), S("io/bus")) == 0 && name_console_module(TABLE, 1, S("IO.Bit."), S("")) == 0);
  check("one begins the others", listed(modules(NAME_CONSOLE_ALL, "I."), 3, 4) && shared == strlen("IO"));
  check("what is loaded", listed(modules(NAME_CONSOLE_LOADED, "I."), 2, 4) && shared == strlen("IO"));
  check("what is a module", listed(modules(NAME_CONSOLE_MODULES_ONLY, "I."), 2, 4) && shared == strlen("IO.B"));
  check("what is a namespace", listed(modules(NAME_CONSOLE_NAMESPACES_ONLY, "I."), 1, 4) && shared == strlen("IO"));
}

/* ---- Registrations and look-ups */

static void keep(void) {
  memcpy(state_before, state, sizeof state);
  memcpy(words_before, words, sizeof words);
  memcpy(text_before, text, sizeof text);
}

static int kept(void) {
  return memcmp(state, state_before, sizeof state) == 0 && memcmp(words, words_before, sizeof words) == 0 && memcmp(text, text_before, sizeof text) == 0;
}

/* The call answers n, and no byte has changed. */
#define REFUSES(what, call, n) (keep(), check(what, (call) == (n) && kept()))
/* The call is accepted, and so many records and bytes are used then. */
#define ACCEPTS(what, call, records, bytes) check(what, (call) == NAME_CONSOLE_OK && name_console_word(state, 2) == (records) && name_console_word(state, 3) == (bytes))

static int finds_item(const char *q, uint32_t answer, uint32_t kind, uint32_t number) {
  struct name_console_item r = name_console_find_item(TABLE, S(q));
  return r.answer == answer && r.kind == kind && r.number == number;
}

/* A register, or with a number of 0 another answer. */
static int finds(const char *q, uint32_t answer, uint32_t number) {
  return finds_item(q, answer, answer == NAME_CONSOLE_OK ? NAME_CONSOLE_REGISTER : 0, number);
}

static int span(uint32_t start, uint32_t len, const char *s) { return len == strlen(s) && start + len <= sizeof text && memcmp(text + start, s, len) == 0; }

static int finds_symbol(const char *q, uint32_t sort, const char *full, const char *path, uint32_t loaded) {
  struct name_console_symbol r = name_console_find_module(TABLE, S(q));
  return r.answer == NAME_CONSOLE_OK && r.sort == sort && span(r.name_start, r.name_len, full) && span(r.path_start, r.path_len, path) && r.loaded == loaded;
}

static int finds_no_symbol(const char *q, uint32_t answer) {
  struct name_console_symbol r = name_console_find_module(TABLE, S(q)), none = {.answer = answer};
  return memcmp(&r, &none, sizeof r) == 0;
}

static void registrations(void) {
  fresh();
  ACCEPTS("case 1", name("", "tick", 5), 3, 4);
  table_t();
  check("case 3", finds("Live.late.", NAME_CONSOLE_NONE, 0) && finds("Saved.late.", NAME_CONSOLE_OK, 2));
  check("case 4", finds("Live.offset.", NAME_CONSOLE_OK, 3));
  ACCEPTS("case 8", name_console_alias(TABLE, S("K"), S("Live."), S("Saved.")), 35, 56);
  check("case 8: the alias", finds("Live.K.late.", NAME_CONSOLE_OK, 2));
  fresh();
  ACCEPTS("case 10", name_console_module(TABLE, 0, S("IO.Bus."), S("io/bus")), 10, 13);
  check("a module", finds_symbol("IO.Bus.", 0, "IO.Bus", "io/bus", 0));
  check("a namespace", finds_symbol("IO.", 1, "IO", "", 0));
  check("no module", finds_no_symbol("Bus.", NAME_CONSOLE_NONE) && finds_no_symbol("IO.Bus", NAME_CONSOLE_MALFORMED));
  check("a loaded module", name_console_module(TABLE, 1, S("IO.Bus."), S("x")) == 0 && finds_symbol("IO.Bus.", 0, "IO.Bus", "x", 1));
  check("its namespace", finds_symbol("IO.", 1, "IO", "", 1));
  fresh();
  check("names to open", name("m.", "x", 1) == 0 && name("m.s.", "y", 2) == 0);
  check("open of a module", name_console_open_module(TABLE, S("o."), S("m.")) == 0);
  check("carries bindings", finds("o.x.", NAME_CONSOLE_OK, 1) && finds("o.s.y.", NAME_CONSOLE_NONE, 0));
  check("open of a namespace", name_console_open_namespace(TABLE, S("n."), S("m.")) == 0);
  check("carries namespaces", finds("n.x.", NAME_CONSOLE_NONE, 0) && finds("n.s.y.", NAME_CONSOLE_OK, 2));
  check("include", name_console_include(TABLE, S("i."), S("m.")) == 0 && finds("i.x.", NAME_CONSOLE_OK, 1) && finds("i.s.y.", NAME_CONSOLE_NONE, 0));
}

/* Case 1 with so much lent. */
static uint32_t tick(size_t words_len, size_t text_len) {
  return name_console_insert_item(state, sizeof state, words, words_len, text, text_len, S(""), S("tick"), NAME_CONSOLE_REGISTER, 5);
}

/* Items of each kind: found, listed with all and alone, and numbers that are no kind. */
static void kinds(void) {
  fresh();
  check("a timer", item("", "a", NAME_CONSOLE_TIMER, 5) == 0 && finds_item("a.", NAME_CONSOLE_OK, NAME_CONSOLE_TIMER, 5));
  check("a port", item("io.", "bb", NAME_CONSOLE_PORT, 5) == 0 && finds_item("io.bb.", NAME_CONSOLE_OK, NAME_CONSOLE_PORT, 5));
  check("a register", item("io.", "ccc", NAME_CONSOLE_REGISTER, UINT32_MAX) == 0 && finds_item("io.ccc.", NAME_CONSOLE_OK, NAME_CONSOLE_REGISTER, UINT32_MAX));
  check("no item", finds_item("io.", NAME_CONSOLE_NONE, 0, 0) && finds_item("io", NAME_CONSOLE_MALFORMED, 0, 0));
  check("all kinds", listed(complete(""), 3, 2) && item_line(0, "a", "", NAME_CONSOLE_TIMER, 5, -1) && item_line(1, "io.bb", "", NAME_CONSOLE_PORT, 5, -1) &&
                         item_line(2, "io.ccc", "", NAME_CONSOLE_REGISTER, UINT32_MAX, -1) && shared == 0);
  check("timers", listed(names(NAME_CONSOLE_TIMER, ""), 1, 2) && item_line(0, "a", "", NAME_CONSOLE_TIMER, 5, -1) && shared == 1);
  check("ports", listed(names(NAME_CONSOLE_PORT, ""), 1, 2) && item_line(0, "io.bb", "", NAME_CONSOLE_PORT, 5, -1) && shared == strlen("io.bb"));
  check("registers", listed(names(NAME_CONSOLE_REGISTER, "i."), 1, 2) && item_line(0, "io.ccc", "", NAME_CONSOLE_REGISTER, UINT32_MAX, 1));
  check("none of a kind", listed(names(NAME_CONSOLE_TIMER, "i."), 0, 2) && shared == 0);
  /* What is left out takes no output. */
  lines_len = NAME_CONSOLE_LINE, out_len = strlen("io.bb");
  check("room for a port", listed(names(NAME_CONSOLE_PORT, ""), 1, 2) && refused(complete(""), NAME_CONSOLE_NO_ROOM));
  check("and for no more", refused(names(NAME_CONSOLE_REGISTER, ""), NAME_CONSOLE_NO_ROOM));
  out_len--;
  check("a byte too few for a port", refused(names(NAME_CONSOLE_PORT, ""), NAME_CONSOLE_NO_ROOM));
  lines_len = sizeof lines, out_len = sizeof out;
  budget = 1;
  check("tries of all kinds", refused(names(NAME_CONSOLE_TIMER, ""), NAME_CONSOLE_SPENT));
  budget = 4096;
  const uint32_t none[] = {0, 4, 257, UINT32_MAX};
  for (size_t i = 0; i < sizeof none / sizeof *none; i++) {
    REFUSES("Malformed, no kind to register", item("", "z", none[i], 1), NAME_CONSOLE_MALFORMED);
    REFUSES("Malformed, no kind and no id", item("", "", none[i], 1), NAME_CONSOLE_MALFORMED);
    if (none[i]) check("Malformed, no kind to list", refused(names(none[i], ""), NAME_CONSOLE_MALFORMED));
  }
  check("another kind, the same number", item("", "a", NAME_CONSOLE_PORT, 5) == 0 && finds_item("a.", NAME_CONSOLE_OK, NAME_CONSOLE_PORT, 5));
  check("no timer any more", listed(names(NAME_CONSOLE_TIMER, ""), 0, 2) && listed(names(NAME_CONSOLE_PORT, ""), 2, 2));
}

/* Each line of a completion of everything has the item that a look-up of its candidate finds. */
static int lines_are_found(uint32_t count) {
  struct name_console_listing r = complete("");
  int good = r.answer == NAME_CONSOLE_OK && r.lines == count;
  for (uint32_t i = 0; good && i < count; i++) {
    char q[600] = "";
    struct name_console_line l = name_console_line_at(lines, i);
    memcpy(q, out + l.candidate, l.candidate_len);
    q[l.candidate_len] = '.';
    good = finds_item(q, NAME_CONSOLE_OK, l.kind, l.number);
  }
  return good;
}

/* Names that two trees hold: the first holder gives the item, the annotation and what is below, whatever kind is asked for. */
static void holders(void) {
  table_t();
  check("each line of T is found", lines_are_found(3));
  fresh();
  check("a name in two namespaces", item("old.", "x", NAME_CONSOLE_REGISTER, 1) == 0 && item("new.", "x", NAME_CONSOLE_PORT, 2) == 0);
  check("included", name_console_include(TABLE, S(""), S("old.")) == 0 && listed(complete("x."), 1, 1) && line(0, "x", "old", 1, 1));
  check("a second include", name_console_include(TABLE, S(""), S("new.")) == 0 && listed(complete("x."), 1, 1));
  check("is listed", item_line(0, "x", "new", NAME_CONSOLE_PORT, 2, 1) && finds_item("x.", NAME_CONSOLE_OK, NAME_CONSOLE_PORT, 2));
  check("a name of the root", item("", "x", NAME_CONSOLE_TIMER, 3) == 0 && listed(complete("x."), 1, 1));
  check("is listed then", item_line(0, "x", "", NAME_CONSOLE_TIMER, 3, 1) && finds_item("x.", NAME_CONSOLE_OK, NAME_CONSOLE_TIMER, 3));
  check("among timers", listed(names(NAME_CONSOLE_TIMER, "x."), 1, 1) && item_line(0, "x", "", NAME_CONSOLE_TIMER, 3, 1));
  check("and no other kind", listed(names(NAME_CONSOLE_PORT, "x."), 0, 1) && listed(names(NAME_CONSOLE_REGISTER, "x."), 0, 1));
  check("each line is found", lines_are_found(3));
  fresh();
  check("a namespace to open", name("m.s.", "y", 1) == 0 && name_console_open_namespace(TABLE, S("n."), S("m.")) == 0);
  check("a name below it", name("n.s.", "w", 2) == 0 && name("n.s.t.", "v", 3) == 0);
  check("the copy is listed", listed(complete("n."), 3, 4) && line(0, "n.s.w", "", 2, 1) && line(1, "n.s.y", "", 1, 1) && line(2, "n.s.t.v", "", 3, 1));
  check("the origin is as it was", listed(complete("m."), 1, 3) && line(0, "m.s.y", "", 1, 1));
  check("each line is found, below too", lines_are_found(4));
}

static void refusals(void) {
  const char *n32 = "nnnnnnnnnnnnnnnnnnnnnnnnnnnnnnnn", *s17 = "s.s.s.s.s.s.s.s.s.s.s.s.s.s.s.s.s.";
  check("numbers", NAME_CONSOLE_OK == 0 && NAME_CONSOLE_UNSOUND == 1 && NAME_CONSOLE_MALFORMED == 2 && NAME_CONSOLE_EMPTY == 3 && NAME_CONSOLE_TOO_LONG == 4 &&
                       NAME_CONSOLE_CROWDED == 5 && NAME_CONSOLE_DEEP == 6 && NAME_CONSOLE_FULL == 7 && NAME_CONSOLE_TEXT_FULL == 8 && NAME_CONSOLE_SPENT == 9 &&
                       NAME_CONSOLE_NO_ROOM == 10 && NAME_CONSOLE_NONE == 4294967295u);
  fresh();
  REFUSES("Malformed, name", name("", "a.b", 1), NAME_CONSOLE_MALFORMED);
  REFUSES("Malformed, include", name_console_include(TABLE, S("a"), S("")), NAME_CONSOLE_MALFORMED);
  REFUSES("Malformed, open of a namespace", name_console_open_namespace(TABLE, S("a"), S("")), NAME_CONSOLE_MALFORMED);
  REFUSES("Malformed, open of a module", name_console_open_module(TABLE, S(""), S("a")), NAME_CONSOLE_MALFORMED);
  REFUSES("Malformed, alias", name_console_alias(TABLE, S("k"), S(""), S("[.")), NAME_CONSOLE_MALFORMED);
  REFUSES("Malformed, module", name_console_module(TABLE, 0, S("A."), S("\n")), NAME_CONSOLE_MALFORMED);
  REFUSES("Empty, name", name("", "", 1), NAME_CONSOLE_EMPTY);
  REFUSES("Malformed, no choice", name_console_module(TABLE, 2, S("A."), S("")), NAME_CONSOLE_MALFORMED);
  REFUSES("Empty, open of a namespace", name_console_open_namespace(TABLE, S(""), S(".")), NAME_CONSOLE_EMPTY);
  REFUSES("Empty, open of a module", name_console_open_module(TABLE, S("."), S("")), NAME_CONSOLE_EMPTY);
  check("Empty, find", finds("", NAME_CONSOLE_EMPTY, 0) && finds_no_symbol("a..", NAME_CONSOLE_EMPTY));
  REFUSES("TooLong, alias", name_console_alias(TABLE, S(n32), S(""), S("")), NAME_CONSOLE_TOO_LONG);
  check("a name of 31 bytes", name("", n32 + 1, 1) == 0 && finds("s.s.s.s.s.s.s.s.s.s.s.s.s.s.s.s.s.s.", NAME_CONSOLE_TOO_LONG, 0));
  REFUSES("Deep", name(s17, "n", 1), NAME_CONSOLE_DEEP);
  check("a host of 16 segments", name(s17 + 2, "n", 1) == 0);
  fresh();
  int good = 1;
  for (int i = 0; i < 96; i++) good &= name_console_include(TABLE, S(""), S("x.")) == 0;
  check("a list of 96", good);
  REFUSES("Crowded", name_console_include(TABLE, S(""), S("x.")), NAME_CONSOLE_CROWDED);
  fresh();
  REFUSES("Full", tick(3 * NAME_CONSOLE_RECORD - 1, sizeof text), NAME_CONSOLE_FULL);
  REFUSES("TextFull", tick(3 * NAME_CONSOLE_RECORD, 3), NAME_CONSOLE_TEXT_FULL);
  check("room enough", tick(3 * NAME_CONSOLE_RECORD, 4) == 0);
}

static void unsound(void) {
  table_t();
  words[0] ^= 64;
  check("unsound", refused(complete(""), NAME_CONSOLE_UNSOUND) && refused(modules(0, ""), NAME_CONSOLE_UNSOUND));
  check("unsound before no filter", refused(modules(4, ""), NAME_CONSOLE_UNSOUND));
  check("unsound before no kind", refused(names(4, ""), NAME_CONSOLE_UNSOUND) && refused(names(UINT32_MAX, ""), NAME_CONSOLE_UNSOUND));
  REFUSES("Unsound before no kind to register", item("", "z", 0, 1), NAME_CONSOLE_UNSOUND);
  REFUSES("Unsound, name", name("", "tick", 5), NAME_CONSOLE_UNSOUND);
  REFUSES("Unsound, include", name_console_include(TABLE, S(""), S("")), NAME_CONSOLE_UNSOUND);
  REFUSES("Unsound, open of a namespace", name_console_open_namespace(TABLE, S(""), S("")), NAME_CONSOLE_UNSOUND);
  REFUSES("Unsound, open of a module", name_console_open_module(TABLE, S(""), S("")), NAME_CONSOLE_UNSOUND);
  REFUSES("Unsound, alias", name_console_alias(TABLE, S("k"), S(""), S("")), NAME_CONSOLE_UNSOUND);
  REFUSES("Unsound, module", name_console_module(TABLE, 0, S(""), S("")), NAME_CONSOLE_UNSOUND);
  REFUSES("Unsound before no choice", name_console_module(TABLE, 2, S(""), S("")), NAME_CONSOLE_UNSOUND);
  check("Unsound, look-ups", finds("Saved.late.", NAME_CONSOLE_UNSOUND, 0) && finds_no_symbol("IO.", NAME_CONSOLE_UNSOUND));
  words[0] ^= 64;
  /* The kind of an item, word 6 of its branch. */
  uint8_t *kind = NULL;
  for (uint32_t k = 0; k < name_console_word(state, 2) && !kind; k++)
    if (name_console_word(words + k * NAME_CONSOLE_RECORD, 0) == 1) kind = words + k * NAME_CONSOLE_RECORD + 24;
  check("an item stands in the words", kind && *kind == NAME_CONSOLE_REGISTER);
  for (uint32_t k = 0; kind && k <= 257; k += k < 5 ? 1 : 252) {
    kind[0] = (uint8_t)k, kind[1] = (uint8_t)(k >> 8);
    if (1 <= k && k <= 3) {
      check("sound with a kind", listed(complete(""), 3, 3));
      continue;
    }
    check("unsound without", refused(complete(""), NAME_CONSOLE_UNSOUND) && finds("Saved.late.", NAME_CONSOLE_UNSOUND, 0));
    REFUSES("Unsound, name", name("", "tick", 5), NAME_CONSOLE_UNSOUND);
  }
  if (kind) kind[0] = NAME_CONSOLE_REGISTER, kind[1] = 0;
  state_len = 15;
  check("a short state", refused(complete(""), NAME_CONSOLE_UNSOUND) && refused(modules(0, ""), NAME_CONSOLE_UNSOUND));
  state_len = sizeof state;
  check("sound again", listed(complete(""), 3, 3));
}

/* As many lines as line records are lent. */
static void many(void) {
  char id[2] = "";
  fresh();
  int good = 1;
  for (const char *p = "HDLBFJNACEGIKMOP"; *p; p++) {
    id[0] = *p;
    good &= name("N.", id, (uint32_t)*p) == 0;
  }
  for (const char *p = "hdlbfjnacegikmorptvqsuwxyzHDLB"; *p; p++) {
    id[0] = *p;
    good &= name_console_alias(TABLE, S(id), S(""), S("N.")) == 0;
  }
  check("31 namespaces of 16 names", good && listed(complete(""), 496, 32));
  for (const char *p = "FJA"; *p; p++) {
    id[0] = *p;
    good &= name_console_alias(TABLE, S(id), S(""), S("N.")) == 0;
  }
  for (const char *p = "dbface"; *p; p++) {
    id[0] = *p;
    good &= name("", id, (uint32_t)*p) == 0;
  }
  check("550 lines into 600", good && listed(complete(""), 550, 35) && line(0, "a", "", 'a', -1) && line(549, "z.P", "", 'P', -1));
  lines_len = 550 * NAME_CONSOLE_LINE;
  check("550 lines into 550", listed(complete(""), 550, 35));
  lines_len--;
  check("550 lines into 549", refused(complete(""), NAME_CONSOLE_NO_ROOM));
  lines_len = sizeof lines;
}

int main(void) {
  structs();
  words_of_a_line();
  registrations();
  refusals();
  cases();
  filters();
  kinds();
  holders();
  beginnings();
  unsound();
  many();
  return failures != 0;
}
