/* session: registers a few names and modules, looks them up and completes them. */
#include <stdio.h>
#include <string.h>

#include "name_console.h"

/* The table: zero bytes are the fresh one. */
static uint8_t state[NAME_CONSOLE_STATE], words[200 * NAME_CONSOLE_RECORD], text[4000];
#define TABLE state, sizeof state, words, sizeof words, text, sizeof text
#define S(s) (const uint8_t *)(s), strlen(s)

/* What a completion writes. */
static uint8_t lines[20 * NAME_CONSOLE_LINE], out[1000];
#define OUTPUT 4096, lines, sizeof lines, out, sizeof out

/* The letters of the kinds, by their numbers from 1 on. */
static const char letters[] = " tpr";

static void find(const char *query) {
  struct name_console_item r = name_console_find_item(TABLE, S(query));
  if (r.answer == NAME_CONSOLE_OK)
    printf("%s is %c%u\n", query, letters[r.kind], r.number);
  else if (r.answer == NAME_CONSOLE_NONE)
    printf("%s is not there\n", query);
  else
    printf("%s is refused with %u\n", query, r.answer);
}

/* Lists the names of a kind; its answer. */
static uint32_t list(const char *what, uint32_t kind) {
  struct name_console_listing r = name_console_complete_names(TABLE, kind, S(""), OUTPUT);
  printf("%s:\n", what);
  for (uint32_t k = 0; k < r.lines; k++) {
    struct name_console_line l = name_console_line_at(lines, k);
    printf("%.*s %c%u [%.*s]\n", (int)l.candidate_len, (char *)out + l.candidate, letters[l.kind], l.number, (int)l.annotation_len,
           (char *)out + l.annotation);
  }
  return r.answer;
}

int main(void) {
  if (name_console_insert_item(TABLE, S("Saved."), S("offset"), NAME_CONSOLE_REGISTER, 1) || name_console_include(TABLE, S("Live."), S("Saved.")) ||
      name_console_insert_item(TABLE, S("Saved."), S("late"), NAME_CONSOLE_REGISTER, 2) ||
      name_console_insert_item(TABLE, S("Live."), S("offset"), NAME_CONSOLE_REGISTER, 3) ||
      name_console_insert_item(TABLE, S(""), S("tick"), NAME_CONSOLE_TIMER, 5) || name_console_module(TABLE, 0, S("IO.Bus."), S("io/bus")))
    return 1;
  printf("%u records, %u bytes of text\n", name_console_word(state, 2), name_console_word(state, 3));
  find("Live.offset.");
  find("Live.late.");
  find("Live.offset");
  if (list("all kinds", NAME_CONSOLE_ALL_KINDS) || list("timers", NAME_CONSOLE_TIMER)) return 1;
  struct name_console_listing r = name_console_complete_modules(TABLE, NAME_CONSOLE_ALL, S("I."), OUTPUT);
  if (r.answer) return 1;
  for (uint32_t k = 0; k < r.lines; k++) {
    struct name_console_line l = name_console_line_at(lines, k);
    printf("%.*s %.*s\n", (int)l.candidate_len, (char *)out + l.candidate, (int)l.annotation_len, (char *)out + l.annotation);
  }
  return 0;
}
