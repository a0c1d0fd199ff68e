/* prompt: a prompt over the name console's C calls. Tab fills in what is certain of a command or of the dotted name under
   the cursor, a second Tab lists. */
#include <ctype.h>
#include <errno.h>
#include <stdbool.h>
#include <stdio.h>
#include <stdlib.h>
#include <string.h>

#include <readline/readline.h>
#include <readline/history.h>

#include "name_console.h"

enum { TEXT = 32768, LINES = 512, OUT = 32768, BUDGET = 4096, LONGEST = 2048, PARTS = 3 };

/* The table: zero bytes are the fresh one. */
static uint8_t state[NAME_CONSOLE_STATE];
static uint8_t words[NAME_CONSOLE_RECORDS * NAME_CONSOLE_RECORD];
static uint8_t text[TEXT];
#define TABLE state, sizeof state, words, sizeof words, text, sizeof text

/* What a completion writes. */
static uint8_t lines[LINES * NAME_CONSOLE_LINE];
static uint8_t out[OUT];
#define OUTPUT BUDGET, lines, sizeof lines, out, sizeof out

static const char *const refusals[] = {"", "Unsound", "Malformed", "Empty", "TooLong", "Crowded", "Deep", "Full", "TextFull", "Spent", "Lines"};

/* The kinds by number. The first letter of one stands before the number of an item. */
static const char *const kinds[] = {"", "timer", "port", "register"};

static void say_refused(uint32_t n) { printf("refused: %u %s\n", n, refusals[n]); }

static void say_registered(uint32_t answer) {
  if (answer)
    say_refused(answer);
  else
    printf("ok, %u records used\n", name_console_word(state, 2));
}

/* ---- Arguments */

/* A query as the calls want it: each segment ends with a dot. */
typedef struct {
  uint8_t at[LONGEST + 2];
  size_t size;
} Query;

#define BYTES(s) (const uint8_t *)(s), strlen(s)
#define QUERY(q) (q).at, (q).size

/* The dotted name as a query: `-` is the query of no segment, and a last dot may be left out. */
static Query query_of(const char *name) {
  Query q = {.size = strlen(name)};
  memcpy(q.at, name, q.size);
  if (strcmp(name, "-") == 0)
    q.size = 0;
  else if (q.size && q.at[q.size - 1] != '.')
    q.at[q.size++] = '.';
  return q;
}

/* A decimal number of 32 bits without leading zeros. */
static bool number_of(const char *s, uint32_t *n) {
  char *end;
  errno = 0;
  unsigned long long v = strtoull(s, &end, 10);
  *n = (uint32_t)v;
  return isdigit((unsigned char)*s) && (*s != '0' || end == s + 1) && *end == 0 && errno == 0 && v <= UINT32_MAX;
}

/* An item: the letter of its kind and its number. Without a letter it is a register. */
static bool item_of(const char *s, uint32_t *kind, uint32_t *number) {
  for (*kind = NAME_CONSOLE_TIMER; *kind <= NAME_CONSOLE_REGISTER; ++*kind)
    if (*s == *kinds[*kind]) return number_of(s + 1, number);
  *kind = NAME_CONSOLE_REGISTER;
  return number_of(s, number);
}

/* ---- Commands: each says whether its arguments have its form */

static bool run_name(char **part) {
  Query host = query_of(part[0]);
  uint32_t kind, number;
  if (!item_of(part[2], &kind, &number)) return false;
  say_registered(name_console_insert_item(TABLE, QUERY(host), BYTES(part[1]), kind, number));
  return true;
}

static bool run_include(char **part) {
  Query host = query_of(part[0]), q = query_of(part[1]);
  say_registered(name_console_include(TABLE, QUERY(host), QUERY(q)));
  return true;
}

static bool run_open(char **part) {
  Query host = query_of(part[1]), q = query_of(part[2]);
  if (strcmp(part[0], "n") == 0)
    say_registered(name_console_open_namespace(TABLE, QUERY(host), QUERY(q)));
  else if (strcmp(part[0], "m") == 0)
    say_registered(name_console_open_module(TABLE, QUERY(host), QUERY(q)));
  else
    return false;
  return true;
}

static bool run_alias(char **part) {
  Query host = query_of(part[1]), q = query_of(part[2]);
  say_registered(name_console_alias(TABLE, BYTES(part[0]), QUERY(host), QUERY(q)));
  return true;
}

static bool run_module(char **part) {
  Query q = query_of(part[1]);
  bool loaded = strcmp(part[0], "l") == 0;
  if (!loaded && strcmp(part[0], "u") != 0) return false;
  say_registered(name_console_module(TABLE, loaded, QUERY(q), BYTES(part[2])));
  return true;
}

static bool run_find(char **part) {
  Query q = query_of(part[0]);
  struct name_console_item r = name_console_find_item(TABLE, QUERY(q));
  if (r.answer == NAME_CONSOLE_OK)
    printf("found %c%u\n", *kinds[r.kind], r.number);
  else if (r.answer == NAME_CONSOLE_NONE)
    puts("none");
  else
    say_refused(r.answer);
  return true;
}

/* What may be listed: names of all kinds or of one, or modules. */
enum { NAMES = NAME_CONSOLE_ALL_KINDS, TIMERS = NAME_CONSOLE_TIMER, PORTS = NAME_CONSOLE_PORT, REGISTERS = NAME_CONSOLE_REGISTER, MODULES };

static bool list(uint32_t what, char **part) {
  Query q = query_of(part[0]);
  struct name_console_listing r = what == MODULES ? name_console_complete_modules(TABLE, NAME_CONSOLE_ALL, QUERY(q), OUTPUT)
                                                  : name_console_complete_names(TABLE, what, QUERY(q), OUTPUT);
  if (r.answer) {
    say_refused(r.answer);
    return true;
  }
  for (uint32_t i = 0; i < r.lines; i++) {
    struct name_console_line l = name_console_line_at(lines, i);
    printf("%.*s", (int)l.candidate_len, (char *)out + l.candidate);
    if (l.annotation_len) printf("  [%.*s]", (int)l.annotation_len, (char *)out + l.annotation);
    if (what != MODULES)
      printf("  %s %u", kinds[l.kind], l.number);
    else if (l.sort == 0 && l.path <= sizeof text && l.path_len <= sizeof text - l.path)
      printf("  path %.*s", (int)l.path_len, (char *)text + l.path);
    printf("  match %d\n", l.match_length);
  }
  printf("%u %s, %u entered\n", r.lines, r.lines == 1 ? "line" : "lines", r.entered);
  return true;
}

static bool run_help(char **part);
static bool run_quit(char **part);

static const struct command {
  const char *name, *form, *says;
  int parts;                /* parts that must be there; the last one runs to the end of the line */
  uint32_t what;            /* what Tab offers in it */
  bool (*run)(char **part); /* none: it lists what Tab offers */
} commands[] = {
    {"name", "host id N", "register a name with its item", 3, NAMES, run_name},
    {"include", "host q", "include the bindings of q", 2, NAMES, run_include},
    {"open", "m|n host q", "open q, a module or a namespace", 3, NAMES, run_open},
    {"alias", "key host q", "put an alias of q at the key", 3, NAMES, run_alias},
    {"module", "l|u q path", "register a module, loaded or unloaded", 3, MODULES, run_module},
    {"find", "q", "look a name up", 1, NAMES, run_find},
    {"complete", "q", "list the names that begin so", 1, NAMES, NULL},
    {"timers", "q", "list the timers that begin so", 1, TIMERS, NULL},
    {"ports", "q", "list the ports that begin so", 1, PORTS, NULL},
    {"registers", "q", "list the registers that begin so", 1, REGISTERS, NULL},
    {"modules", "q", "list the modules and namespaces that begin so", 1, MODULES, NULL},
    {"help", "", "say this", 0, NAMES, run_help},
    {"quit", "", "leave", 0, NAMES, run_quit},
};
enum { COMMANDS = sizeof commands / sizeof *commands };

static bool done;

static bool run_quit(char **part) {
  (void)part;
  return done = true;
}

static bool run_help(char **part) {
  (void)part;
  for (int i = 0; i < COMMANDS; i++) printf("  %-9s %-10s  %s\n", commands[i].name, commands[i].form, commands[i].says);
  puts("host and q are dotted names, such as Live.offset; - is the root. Tab fills in what is certain, a second Tab lists.");
  puts("N is t5 for timer 5, p5 for port 5, r5 or 5 for register 5.");
  return true;
}

static const struct command *command_of(const char *name, size_t len) {
  for (int i = 0; i < COMMANDS; i++)
    if (strlen(commands[i].name) == len && memcmp(commands[i].name, name, len) == 0) return &commands[i];
  return NULL;
}

/* Cuts the line at spaces into a command and its parts, and runs it. */
static void run(char *line) {
  size_t len = strlen(line);
  while (len && line[len - 1] == ' ') line[--len] = 0;
  if (len == 0) return;
  char *rest = line + strcspn(line, " ");
  const struct command *c = command_of(line, (size_t)(rest - line));
  if (!c || len > LONGEST) {
    puts(c ? "too long" : "no such command: help says which there are");
    return;
  }
  char *part[PARTS];
  int n = 0;
  for (; *rest && n < c->parts; n++) {
    *rest++ = 0;
    part[n] = rest;
    rest += n + 1 < c->parts ? strcspn(rest, " ") : strlen(rest);
  }
  if (n < c->parts || *rest || !(c->run ? c->run(part) : list(c->what, part))) printf("%s %s\n", c->name, c->form);
}

/* ---- Tab */

/* What is shown beside each one on offer, in their order: annotations, a name's after its kind; beside a command nothing. */
static char *notes[LINES];
static int noted;

static void drop_notes(void) {
  while (noted) free(notes[--noted]);
}

static char *copy_of(const uint8_t *bytes, size_t len) {
  char *s = malloc(len + 1);
  if (!s) abort();
  memcpy(s, bytes, len);
  s[len] = 0;
  return s;
}

/* The commands that begin with the text, one a call. */
static char *next_command(const char *typed, int again) {
  static int at;
  if (!again) at = 0;
  while (at < COMMANDS) {
    const char *name = commands[at++].name;
    if (strncmp(name, typed, strlen(typed)) == 0) {
      notes[noted++] = copy_of(BYTES(""));
      return copy_of(BYTES(name));
    }
  }
  return NULL;
}

/* Ten columns have the longest word of a kind and two spaces. */
static char *note_of(struct name_console_line l, uint32_t what) {
  if (what == MODULES) return copy_of(out + l.annotation, l.annotation_len);
  char note[LONGEST];
  snprintf(note, sizeof note, "%-*s%.*s", l.annotation_len ? 10 : 0, kinds[l.kind], (int)l.annotation_len, (char *)out + l.annotation);
  return copy_of(BYTES(note));
}

static size_t dots_in(const uint8_t *bytes, size_t len) {
  size_t dots = 0;
  while (len) dots += bytes[--len] == '.';
  return dots;
}

/* What readline puts in the typed text's place, then the candidates. The names need not begin with what was typed (L.o
   gives Live.offset): the beginning that they share is put there if it has as many dots, so that no typed segment is lost. */
static char **offer(const char *typed, struct name_console_shared r, uint32_t what) {
  char **offered = calloc(r.lines + 2, sizeof *offered);
  if (!offered) abort();
  const uint8_t *shared = out + name_console_line_at(lines, 0).candidate;
  offered[0] = dots_in(shared, r.shared) >= dots_in(BYTES(typed)) ? copy_of(shared, r.shared) : copy_of(BYTES(typed));
  for (uint32_t i = 0; i < r.lines; i++) {
    struct name_console_line l = name_console_line_at(lines, i);
    if (r.lines > 1) offered[i + 1] = copy_of(out + l.candidate, l.candidate_len);
    notes[noted++] = note_of(l, what);
  }
  return offered;
}

/* Readline asks what to offer for the text from start to end. */
static char **on_tab(const char *typed, int start, int end) {
  (void)end;
  rl_attempted_completion_over = 1;
  drop_notes();
  size_t first = strspn(rl_line_buffer, " "), len = strcspn(rl_line_buffer + first, " ");
  if ((size_t)start <= first) return rl_completion_matches(typed, next_command);
  if (strlen(typed) > LONGEST) return NULL;
  /* What was typed may go on: A.b asks for A.b. and A. for A.. */
  Query q = {.size = strlen(typed) + 1};
  memcpy(q.at, typed, q.size - 1);
  q.at[q.size - 1] = '.';
  const struct command *c = command_of(rl_line_buffer + first, len);
  uint32_t what = c ? c->what : NAMES;
  struct name_console_shared r = what == MODULES ? name_console_complete_modules_shared(TABLE, NAME_CONSOLE_ALL, QUERY(q), OUTPUT)
                                                 : name_console_complete_names_shared(TABLE, what, QUERY(q), OUTPUT);
  if (r.answer) {
    putchar('\n');
    say_refused(r.answer);
    rl_on_new_line();
    return NULL;
  }
  return r.lines ? offer(typed, r, what) : NULL;
}

/* The key: a second Tab lists, if the first had more than one to offer. (Readline's own waits for a Tab that changed nothing.) */
static int fill_or_list(int count, int key) {
  return rl_last_func == fill_or_list && noted > 1 ? rl_possible_completions(count, key) : rl_complete(count, key);
}

/* Readline asks to list what is on offer: the pane, each name with its kind and annotation. */
static void on_list(char **offered, int count, int longest) {
  putchar('\n');
  for (int i = 1; i <= count; i++) {
    if (*notes[i - 1])
      printf("  %-*s  %s\n", longest, offered[i], notes[i - 1]);
    else
      printf("  %s\n", offered[i]);
  }
  rl_on_new_line();
}

int main(void) {
  rl_readline_name = "prompt";
  rl_attempted_completion_function = on_tab;
  rl_completion_display_matches_hook = on_list;
  rl_completer_word_break_characters = " ";
  rl_completer_quote_characters = "";
  rl_sort_completion_matches = 0;
  rl_ignore_completion_duplicates = 0;
  rl_variable_bind("enable-bracketed-paste", "off");
  rl_bind_key_in_map('\t', fill_or_list, emacs_standard_keymap);
  rl_bind_key_in_map('\t', fill_or_list, vi_insertion_keymap);
  char *line;
  while (!done && (line = readline("> "))) {
    if (*line) add_history(line);
    run(line);
    free(line);
  }
  drop_notes();
  clear_history();
  return 0;
}
