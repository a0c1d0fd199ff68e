/* The name console's calls for C: numbers and bytes in, numbers and bytes out.

   A table is three lent buffers: a state of 16 bytes, words (48 bytes to a record) and text. Sixteen zero bytes are the
   fresh table, whatever the other two hold. Words of 32 bits stand lowest byte first. Every call answers for whatever
   bytes are lent; what each promises is proved (crates/screen, docs/PROMISES.md).

   A slice passes as a pointer and a length. A pointer is not null, also where its length is 0. Buffers that a call writes
   overlap no other buffer of that call. The caller owns every buffer: a call keeps no pointer, takes no memory from the
   heap and has no state of its own, so that different tables can be used in different threads. Its stack is bounded whatever
   is lent: NAME_CONSOLE_STACK and NAME_CONSOLE_STACK_COMPLETE below.

   A query is a text in which each segment ends with a dot ("Live.offset."); the empty text is the query of no segment. */
#ifndef NAME_CONSOLE_H
#define NAME_CONSOLE_H

#include <stddef.h>
#include <stdint.h>

#ifdef __cplusplus
extern "C" {
#endif

#define NAME_CONSOLE_STATE 16     /* bytes of a state: names root, modules root, records used, text used */
#define NAME_CONSOLE_RECORD 48    /* bytes of a record in the words */
#define NAME_CONSOLE_RECORDS 1024 /* records past these count as not lent */
#define NAME_CONSOLE_LINE 48      /* bytes of a line record */

/* Bytes of stack that are enough for a call on x86-64, measured on the tables that need most (tests/layer/tests/stack.rs). */
#define NAME_CONSOLE_STACK 131072          /* for a registration or look-up */
#define NAME_CONSOLE_STACK_COMPLETE 212992 /* for a completion */

/* What a call answers. Where several refusals apply, the first in this order is given. A refusal changes no byte that is lent. */
enum name_console_answer {
  NAME_CONSOLE_OK = 0,        /* accepted, found, listed */
  NAME_CONSOLE_UNSOUND = 1,   /* state, words and text are not a sound table */
  NAME_CONSOLE_MALFORMED = 2, /* a query does not end in a dot, a byte is not allowed at its place, a number is no choice */
  NAME_CONSOLE_EMPTY = 3,     /* an empty id, key or segment; a look-up with no segment */
  NAME_CONSOLE_TOO_LONG = 4,  /* a name over 31 bytes, over 17 segments, a path over 120 bytes */
  NAME_CONSOLE_CROWDED = 5,   /* some list would weigh over 96 */
  NAME_CONSOLE_DEEP = 6,      /* a root would have depth over 16 */
  NAME_CONSOLE_FULL = 7,      /* more records needed than are free */
  NAME_CONSOLE_TEXT_FULL = 8, /* more text needed than is free */
  NAME_CONSOLE_SPENT = 9,     /* more tries to enter than the budget */
  NAME_CONSOLE_NO_ROOM = 10   /* the lines, or their texts, do not fit the lent output (row 10, Lines) */
};

/* The answer of a look-up that finds nothing: no refusal has this number. */
#define NAME_CONSOLE_NONE UINT32_MAX

/* What an item of a name is. A table with names from before version 0.4.0 has none of these, and is Unsound. */
enum name_console_kind {
  NAME_CONSOLE_TIMER = 1,
  NAME_CONSOLE_PORT = 2,
  NAME_CONSOLE_REGISTER = 3
};

/* Which lines a completion of names keeps: all, or with an enum name_console_kind those of that kind. */
#define NAME_CONSOLE_ALL_KINDS 0

/* Which lines a completion of modules keeps. */
enum name_console_filter {
  NAME_CONSOLE_ALL = 0,
  NAME_CONSOLE_LOADED = 1,
  NAME_CONSOLE_MODULES_ONLY = 2,
  NAME_CONSOLE_NAMESPACES_ONLY = 3
};

/* ---- Registrations

   Each answers 0 or a refusal. Accepted, the state is the new table's, and of words and text only the free part that the
   call takes has changed: records are taken in order, and texts are copied whole, one after another: host or module
   query; id, included query or path; an alias's key. */

/* Registers a name with its item, a kind and a number, in the host. A kind that is no enum name_console_kind is Malformed. */
uint32_t name_console_insert_item(uint8_t *state, size_t state_len, uint8_t *words, size_t words_len, uint8_t *text, size_t text_len,
                                  const uint8_t *host, size_t host_len, const uint8_t *id, size_t id_len, uint32_t kind, uint32_t number);

/* Includes the query's bindings in the host. */
uint32_t name_console_include(uint8_t *state, size_t state_len, uint8_t *words, size_t words_len, uint8_t *text, size_t text_len,
                              const uint8_t *host, size_t host_len, const uint8_t *query, size_t query_len);

/* Opens a namespace in the host: the query's namespaces are carried over, and no bindings. */
uint32_t name_console_open_namespace(uint8_t *state, size_t state_len, uint8_t *words, size_t words_len, uint8_t *text, size_t text_len,
                                     const uint8_t *host, size_t host_len, const uint8_t *query, size_t query_len);

/* Opens a module in the host: what name_console_include does. */
uint32_t name_console_open_module(uint8_t *state, size_t state_len, uint8_t *words, size_t words_len, uint8_t *text, size_t text_len,
                                  const uint8_t *host, size_t host_len, const uint8_t *query, size_t query_len);

/* Puts an alias of the query at the key, in the host. */
uint32_t name_console_alias(uint8_t *state, size_t state_len, uint8_t *words, size_t words_len, uint8_t *text, size_t text_len,
                            const uint8_t *key, size_t key_len, const uint8_t *host, size_t host_len, const uint8_t *query, size_t query_len);

/* Registers a module with its file path: loaded if loaded is 1, not loaded if it is 0. Another number is Malformed.
   A module that is loaded stays loaded when it is registered again with 0, and takes the new path. */
uint32_t name_console_module(uint8_t *state, size_t state_len, uint8_t *words, size_t words_len, uint8_t *text, size_t text_len,
                             uint32_t loaded, const uint8_t *query, size_t query_len, const uint8_t *path, size_t path_len);

/* ---- Look-ups, which change nothing */

struct name_console_item {
  uint32_t answer; /* 0 found, NAME_CONSOLE_NONE, else the refusal */
  uint32_t kind;   /* an enum name_console_kind; 0 unless found */
  uint32_t number; /* 0 unless found */
};

struct name_console_symbol {
  uint32_t answer;               /* 0 found, NAME_CONSOLE_NONE, else the refusal; what does not apply is 0 */
  uint32_t sort;                 /* 0 a module, 1 a namespace */
  uint32_t name_start, name_len; /* full name, in the used text */
  uint32_t path_start, path_len; /* a module's file path, in the used text */
  uint32_t loaded;               /* 1 if loaded */
};

/* Looks a name up. */
struct name_console_item name_console_find_item(const uint8_t *state, size_t state_len, const uint8_t *words, size_t words_len,
                                                const uint8_t *text, size_t text_len, const uint8_t *query, size_t query_len);

/* Looks a module or namespace up. */
struct name_console_symbol name_console_find_module(const uint8_t *state, size_t state_len, const uint8_t *words, size_t words_len,
                                                    const uint8_t *text, size_t text_len, const uint8_t *query, size_t query_len);

/* ---- Completions, which change only the output

   Lines are whole records of 48 bytes in `lines`, as many as are lent; their texts stand one after another in `out` from its start, candidate
   then annotation. Listed, the first `lines` records and the bytes of their texts are written, and every other byte of
   both is as it was. `entered` is the number of tries entered; more than `budget` is refused.

   Of equal names the first holder is listed, so that the line of a name carries the item that a look-up of that name finds,
   and a name that is found is listed when it is asked for in full. A kind or a filter looks at that item.

   bytes of a line   word
    0                match length: 4294967295 for -1
    4,  8            candidate: start, length in out
   12, 16            annotation: start, length in out
   20                number of a name's item; or 0 for a module, 1 for a namespace
   24                kind of a name's item, an enum name_console_kind
   24, 28            module or namespace: full name: start, length in the table's text
   32, 36            module: file path: start, length in the table's text
   40                module or namespace: 1 if loaded, else 0
   44                0

   A full name and a path lie in the used part of the table's text, where no later call writes. Words above that do not
   apply are of no account. */

struct name_console_listing {
  uint32_t answer;  /* 0 listed, else the refusal */
  uint32_t lines;   /* 0 if refused */
  uint32_t entered; /* 0 if refused */
};

/* Completes a name: of all kinds (NAME_CONSOLE_ALL_KINDS), or of one. Another number is Malformed. The lines of other kinds are
   left out and take no output; all else is as of all kinds, `entered` too. */
struct name_console_listing name_console_complete_names(const uint8_t *state, size_t state_len, const uint8_t *words, size_t words_len,
                                                        const uint8_t *text, size_t text_len, uint32_t kind, const uint8_t *query,
                                                        size_t query_len, uint32_t budget, uint8_t *lines, size_t lines_len, uint8_t *out,
                                                        size_t out_len);

/* Completes a module or namespace. A filter that is no enum name_console_filter is Malformed. */
struct name_console_listing name_console_complete_modules(const uint8_t *state, size_t state_len, const uint8_t *words, size_t words_len,
                                                          const uint8_t *text, size_t text_len, uint32_t filter, const uint8_t *query,
                                                          size_t query_len, uint32_t budget, uint8_t *lines, size_t lines_len, uint8_t *out,
                                                          size_t out_len);

/* ---- Completions that say what is certain

   Each takes, writes and replies what the completion above does, and says besides how many bytes the longest beginning has
   that all candidates share: what Tab may fill in. With one line it is its whole candidate, with none it is 0. The
   beginning itself stands at the candidate of line 0. */

struct name_console_shared {
  uint32_t answer;  /* 0 listed, else the refusal, as that of the completion */
  uint32_t lines;   /* 0 if refused */
  uint32_t entered; /* 0 if refused */
  uint32_t shared;  /* bytes that all candidates begin with; 0 with no line, or if refused */
};

/* Completes a name, of all kinds or of one. */
struct name_console_shared name_console_complete_names_shared(const uint8_t *state, size_t state_len, const uint8_t *words, size_t words_len,
                                                              const uint8_t *text, size_t text_len, uint32_t kind, const uint8_t *query,
                                                              size_t query_len, uint32_t budget, uint8_t *lines, size_t lines_len, uint8_t *out,
                                                              size_t out_len);

/* Completes a module or namespace. A filter that is no enum name_console_filter is Malformed. */
struct name_console_shared name_console_complete_modules_shared(const uint8_t *state, size_t state_len, const uint8_t *words, size_t words_len,
                                                                const uint8_t *text, size_t text_len, uint32_t filter, const uint8_t *query,
                                                                size_t query_len, uint32_t budget, uint8_t *lines, size_t lines_len,
                                                                uint8_t *out, size_t out_len);

/* ---- Reading lines */

struct name_console_line {
  int32_t match_length;
  uint32_t candidate, candidate_len;
  uint32_t annotation, annotation_len;
  uint32_t kind, number; /* of a name's item */
  uint32_t sort;         /* 0 for a module, 1 for a namespace */
  uint32_t name, name_len;
  uint32_t path, path_len;
  uint32_t loaded; /* 1 if loaded, else 0 */
};

/* Word k of the bytes. */
static inline uint32_t name_console_word(const uint8_t *bytes, size_t k) {
  const uint8_t *b = bytes + k * 4;
  return b[0] | (uint32_t)b[1] << 8 | (uint32_t)b[2] << 16 | (uint32_t)b[3] << 24;
}

/* Line record i of the lines that a completion wrote. */
static inline struct name_console_line name_console_line_at(const uint8_t *lines, size_t i) {
  const uint8_t *b = lines + i * NAME_CONSOLE_LINE;
  uint32_t m = name_console_word(b, 0);
  struct name_console_line l;
  l.match_length = m == UINT32_MAX ? -1 : (int32_t)m;
  l.candidate = name_console_word(b, 1);
  l.candidate_len = name_console_word(b, 2);
  l.annotation = name_console_word(b, 3);
  l.annotation_len = name_console_word(b, 4);
  l.number = name_console_word(b, 5);
  l.kind = name_console_word(b, 6);
  l.sort = name_console_word(b, 5);
  l.name = name_console_word(b, 6);
  l.name_len = name_console_word(b, 7);
  l.path = name_console_word(b, 8);
  l.path_len = name_console_word(b, 9);
  l.loaded = name_console_word(b, 10);
  return l;
}

#ifdef __cplusplus
}
#endif

#endif
