// Registration of a name and look-up on the record memory, written by hand: recursion over trees and lists, memcmp.
// It trusts the memory, as the product's calls for proved callers do, and answers with the same refusals; a refused call writes nothing.
#include <stdbool.h>
#include <stddef.h>
#include <stdint.h>
#include <string.h>

enum { SEGMENTS = 17, NAME = 31, WEIGHT = 96, DEPTH = 16, MOST = 65536 };
enum { MALFORMED = 2, EMPTY = 3, TOO_LONG = 4, CROWDED = 5, DEEP = 6, FULL = 7, TEXT_FULL = 8, NONE = 11 };

struct header {
    uint32_t names, modules, records, text;
};

struct span {
    uint32_t start, len;
};

struct table {
    uint32_t *words;
    uint8_t *text;
    uint32_t records;
};

static uint32_t *record(const struct table *t, uint32_t link) { return t->words + (size_t)(link - 1) * 12; }
static uint32_t word(const struct table *t, uint32_t link, int k) { return link ? record(t, link)[k] : 0; }

static int compare(const uint8_t *a, size_t m, const uint8_t *b, size_t n) {
    int c = memcmp(a, b, m < n ? m : n);
    return c ? c : (m > n) - (m < n);
}

// ---- Arguments

static bool name_byte(uint8_t b) { return b > 32 && b < 127 && b != '.' && b != '[' && b != ']'; }

// The rows that a query breaks, as bits, and its segments.
static unsigned cut(const uint8_t *q, size_t n, struct span *segments, size_t *count) {
    unsigned rows = n && q[n - 1] != '.' ? 1u << MALFORMED : 0;
    size_t start = 0;
    *count = 0;
    for (size_t i = 0; i < n; i++) {
        if (q[i] != '.') {
            if (!name_byte(q[i])) rows |= 1u << MALFORMED;
            continue;
        }
        if (i == start) rows |= 1u << EMPTY;
        if (i - start > NAME || *count == SEGMENTS) rows |= 1u << TOO_LONG;
        else segments[(*count)++] = (struct span){(uint32_t)start, (uint32_t)(i - start)};
        start = i + 1;
    }
    return rows;
}

static unsigned name_rows(const uint8_t *s, size_t n) {
    unsigned rows = n == 0 ? 1u << EMPTY : n > NAME ? 1u << TOO_LONG : 0;
    for (size_t i = 0; i < n; i++)
        if (!name_byte(s[i])) rows |= 1u << MALFORMED;
    return rows;
}

static uint32_t lowest(unsigned rows) { return (uint32_t)__builtin_ctz(rows); }

// ---- Look-up

// The branch of the first holder of the key, 0 for none.
static uint32_t names_find(const struct table *t, uint32_t list, const uint8_t *key, size_t n) {
    for (; list; list = record(t, list)[4]) {
        uint32_t at = record(t, list)[3];
        if (record(t, list)[5]) {
            at = names_find(t, at, key, n);
        } else {
            for (int c; at; at = record(t, at)[c < 0 ? 3 : 4]) {
                const uint32_t *b = record(t, at);
                c = compare(key, n, t->text + b[1], b[2]);
                if (!c) break;
            }
        }
        if (at) return at;
    }
    return 0;
}

// What words 5 and 6 of a branch hold: an item's number and kind, or a trie and 0.
struct value {
    uint32_t held, kind;
};

// 0 and the item, 11 for none, else the refusal.
uint32_t c_find(const uint32_t *words, const uint8_t *text, uint32_t root, const uint8_t *query, size_t nquery, struct value *item) {
    struct table t = {(uint32_t *)words, (uint8_t *)text, 0};
    struct span s[SEGMENTS];
    size_t n;
    unsigned rows = cut(query, nquery, s, &n) | (nquery ? 0 : 1u << EMPTY);
    if (rows) return lowest(rows);
    for (size_t i = 0; i + 1 < n; i++) {
        uint32_t b = names_find(&t, word(&t, root, 4), query + s[i].start, s[i].len);
        if (!b) return NONE;
        root = record(&t, b)[5];
    }
    uint32_t b = names_find(&t, word(&t, root, 3), query + s[n - 1].start, s[n - 1].len);
    if (!b) return NONE;
    memcpy(item, record(&t, b) + 5, sizeof *item);
    return 0;
}

// ---- Registration

// The tree that leads a list, 0 if none does.
static uint32_t leading(const struct table *t, uint32_t list) { return list && !record(t, list)[5] ? record(t, list)[3] : 0; }

// Branches that an insertion into a tree builds.
static uint32_t way(const struct table *t, uint32_t tree, const uint8_t *key, size_t n) {
    uint32_t count = 1;
    while (tree) {
        const uint32_t *b = record(t, tree);
        int c = compare(key, n, t->text + b[1], b[2]);
        if (!c) break;
        tree = b[c < 0 ? 3 : 4];
        count += 1;
    }
    return count;
}

// Weight of the list after an insertion.
static uint32_t weight(const struct table *t, uint32_t list) { return word(t, list, 10) + (!list || record(t, list)[5]); }

static uint32_t max(uint32_t a, uint32_t b) { return a < b ? b : a; }

static uint32_t put(struct table *t, const uint32_t r[12]) {
    memcpy(t->words + (size_t)t->records * 12, r, 48);
    return ++t->records;
}

// Kind 1 is a bindings branch, 2 a namespaces branch.
static uint32_t tree_insert(struct table *t, uint32_t kind, uint32_t tree, struct span key, struct value value) {
    uint32_t r[12] = {kind, key.start, key.len, 0, 0, value.held, value.kind};
    if (tree) {
        memcpy(r, record(t, tree), sizeof r);
        int c = compare(t->text + key.start, key.len, t->text + r[1], r[2]);
        if (!c) memcpy(r + 5, &value, sizeof value);
        else r[c < 0 ? 3 : 4] = tree_insert(t, kind, r[c < 0 ? 3 : 4], key, value);
    }
    if (kind == 2) r[11] = max(1 + word(t, r[5], 11), max(word(t, r[3], 11), word(t, r[4], 11)));
    return put(t, r);
}

static uint32_t names_insert(struct table *t, uint32_t kind, uint32_t list, struct span key, struct value value) {
    uint32_t lead = leading(t, list), rest = list && !record(t, list)[5] ? record(t, list)[4] : list, heavy = weight(t, list);
    uint32_t tree = tree_insert(t, kind, lead, key, value);
    uint32_t r[12] = {kind + 2, 0, 0, tree, rest, 0, 0, 0, 0, 0, heavy, kind == 2 ? max(word(t, tree, 11), word(t, rest, 11)) : 0};
    return put(t, r);
}

static uint32_t put_trie(struct table *t, uint32_t bindings, uint32_t namespaces) {
    return put(t, (uint32_t[12]){5, 0, 0, bindings, namespaces, 0, 0, 0, 0, 0, 0, word(t, namespaces, 11)});
}

// 0 with the header of the new table, or the refusal.
uint32_t c_insert(uint32_t *words, size_t nwords, uint8_t *text, size_t ntext, struct header *h, const uint8_t *host, size_t nhost, const uint8_t *id,
                  size_t nid, uint32_t kind, uint32_t number) {
    struct table t = {words, text, h->records};
    struct span s[SEGMENTS];
    size_t n;
    unsigned rows = cut(host, nhost, s, &n) | name_rows(id, nid);
    if (rows) return lowest(rows);
    uint32_t tries[SEGMENTS + 1] = {h->names}, need = 0, heavy = 0;
    for (size_t i = 0; i <= n; i++) {
        const uint8_t *key = i < n ? host + s[i].start : id;
        size_t len = i < n ? s[i].len : nid;
        uint32_t list = word(&t, tries[i], i < n ? 4 : 3);
        need += way(&t, leading(&t, list), key, len) + 2;
        heavy = max(heavy, weight(&t, list));
        if (i < n) tries[i + 1] = word(&t, names_find(&t, list, key, len), 5);
    }
    size_t lent = nwords / 12 < MOST ? nwords / 12 : MOST, room = ntext < MOST ? ntext : MOST;
    if (heavy > WEIGHT) return CROWDED;
    if (n + word(&t, tries[n], 11) > DEPTH) return DEEP;
    if (need > lent - h->records) return FULL;
    if (nhost + nid > room - h->text) return TEXT_FULL;
    memcpy(text + h->text, host, nhost);
    memcpy(text + h->text + nhost, id, nid);
    struct span key = {h->text + (uint32_t)nhost, (uint32_t)nid};
    uint32_t below = names_insert(&t, 1, word(&t, tries[n], 3), key, (struct value){number, kind});
    uint32_t trie = put_trie(&t, below, word(&t, tries[n], 4));
    for (size_t i = n; i--;) {
        key = (struct span){h->text + s[i].start, s[i].len};
        below = names_insert(&t, 2, word(&t, tries[i], 4), key, (struct value){trie, 0});
        trie = put_trie(&t, word(&t, tries[i], 3), below);
    }
    *h = (struct header){trie, h->modules, t.records, h->text + (uint32_t)(nhost + nid)};
    return 0;
}
