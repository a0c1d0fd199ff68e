/* The soundness test by hand in C: the same conditions as crates/sound, one pass over the used records, for comparing speed.
   The least and the greatest key of each tree are noted on the heap, so that the pass is linear. */
#include <stdbool.h>
#include <stddef.h>
#include <stdint.h>
#include <stdlib.h>
#include <string.h>

/* The branches with the least and the greatest key of a tree, by links. */
typedef struct {
  uint32_t least, greatest;
} Ends;

typedef struct {
  const uint32_t *w;
  const uint8_t *t;
  uint32_t used;
  Ends *ends;
} Mem;

static inline uint32_t at(const Mem *m, uint32_t link, int k) { return m->w[(size_t)(link - 1) * 12 + k]; }

static inline uint32_t stored(const Mem *m, uint32_t link, int k) { return link ? at(m, link, k) : 0; }

static inline bool link_ok(const Mem *m, uint32_t link, uint32_t x, uint32_t kind) {
  return x == 0 || (x < link && at(m, x, 0) == kind);
}

enum { NAME, QUERY, PATH };

static inline bool allowed(int rule, uint8_t b) {
  if (rule == PATH) return b >= 32 && b <= 126;
  return b >= 33 && b <= 126 && b != 91 && b != 93 && (rule == QUERY || b != 46);
}

static inline bool text_ok(const Mem *m, uint32_t start, uint32_t len, uint32_t low, uint32_t high, int rule) {
  if ((uint64_t)start + len > m->used || len < low || len > high) return false;
  for (uint32_t i = 0; i < len; i++)
    if (!allowed(rule, m->t[start + i])) return false;
  return true;
}

static inline bool less(const Mem *m, uint32_t a, uint32_t b) {
  uint32_t la = at(m, a, 2), lb = at(m, b, 2);
  int c = memcmp(m->t + at(m, a, 1), m->t + at(m, b, 1), la < lb ? la : lb);
  return c < 0 || (c == 0 && la < lb);
}

static bool branch_ok(const Mem *m, uint32_t l, uint32_t kind) {
  uint32_t left = at(m, l, 3), right = at(m, l, 4);
  if (!text_ok(m, at(m, l, 1), at(m, l, 2), 1, 31, NAME)) return false;
  if (!link_ok(m, l, left, kind) || !link_ok(m, l, right, kind)) return false;
  if (left && !less(m, m->ends[left].greatest, l)) return false;
  if (right && !less(m, l, m->ends[right].least)) return false;
  m->ends[l] = (Ends){left ? m->ends[left].least : l, right ? m->ends[right].greatest : l};
  return true;
}

static bool symbol_ok(const Mem *m, uint32_t l) {
  if (at(m, l, 5) > 1 || at(m, l, 10) > 1) return false;
  if (!text_ok(m, at(m, l, 6), at(m, l, 7), 1, 543, QUERY)) return false;
  return at(m, l, 5) == 1 || text_ok(m, at(m, l, 8), at(m, l, 9), 0, 120, PATH);
}

static inline uint32_t max(uint32_t a, uint32_t b) { return a < b ? b : a; }

static bool collection_ok(const Mem *m, uint32_t l, uint32_t kind) {
  uint32_t own = at(m, l, 3), rest = at(m, l, 4);
  if (!link_ok(m, l, rest, kind)) return false;
  uint32_t weight = 1 + stored(m, rest, 10);
  if (at(m, l, 5) == 0) {
    if (!link_ok(m, l, own, kind - 2)) return false;
  } else if (at(m, l, 5) == 1) {
    if (!link_ok(m, l, own, kind) || !text_ok(m, at(m, l, 1), at(m, l, 2), 0, 543, QUERY)) return false;
    weight += stored(m, own, 10);
  } else {
    return false;
  }
  return weight <= 96 && at(m, l, 10) == weight;
}

static bool records_ok(const Mem *m, uint32_t records) {
  for (uint32_t l = 1; l <= records; l++) {
    uint32_t k = at(m, l, 0);
    bool ok;
    switch (k) {
      case 1: ok = branch_ok(m, l, k) && at(m, l, 6) >= 1 && at(m, l, 6) <= 3; break;
      case 6: ok = branch_ok(m, l, k) && symbol_ok(m, l); break;
      case 2:
      case 7:
        ok = branch_ok(m, l, k) && link_ok(m, l, at(m, l, 5), k + 3) &&
             at(m, l, 11) == max(1 + stored(m, at(m, l, 5), 11), max(stored(m, at(m, l, 3), 11), stored(m, at(m, l, 4), 11)));
        break;
      case 3:
      case 8: ok = collection_ok(m, l, k); break;
      case 4:
      case 9:
        ok = collection_ok(m, l, k) && at(m, l, 11) == max(stored(m, at(m, l, 3), 11), stored(m, at(m, l, 4), 11));
        break;
      case 5:
      case 10:
        ok = link_ok(m, l, at(m, l, 3), k - 2) && link_ok(m, l, at(m, l, 4), k - 1) && at(m, l, 11) == stored(m, at(m, l, 4), 11) &&
             at(m, l, 11) <= 16;
        break;
      default: ok = false;
    }
    if (!ok) return false;
  }
  return true;
}

bool c_sound(const uint32_t *words, size_t nwords, const uint8_t *text, size_t ntext, uint32_t names, uint32_t modules, uint32_t records,
             uint32_t used) {
  Mem m = {words, text, used, NULL};
  if (records > 65536 || used > 65536 || nwords < (size_t)records * 12 || ntext < used) return false;
  if (!link_ok(&m, records + 1, names, 5) || !link_ok(&m, records + 1, modules, 10)) return false;
  m.ends = malloc((records + 1) * sizeof *m.ends);
  bool ok = m.ends && records_ok(&m, records);
  free(m.ends);
  return ok;
}
