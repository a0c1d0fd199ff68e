// Completion of names on the record memory, written by hand: recursion over trees, lists of matches on the heap, a binary heap to merge them.
// It trusts the memory, as the product's call for proved callers does.
#include <stdbool.h>
#include <stddef.h>
#include <stdint.h>
#include <stdlib.h>
#include <string.h>

struct found {
    uint32_t branch, label;
};

struct list {
    struct found *at;
    size_t n, room;
};

struct run {
    const uint32_t *words;
    const uint8_t *text;
    uint8_t *lines_at;
    uint8_t *out;
    size_t lines, bytes;     // lent
    uint32_t kind;           // of the items kept, 0 for all
    size_t budget, entered;  // tries
    size_t count, used;      // lines and bytes so far
    bool write;
    uint8_t base[544];
};

static const uint32_t *record(const struct run *r, uint32_t link) { return r->words + (size_t)(link - 1) * 12; }

// Below, within or above the keys that begin with the prefix.
static int against(const struct run *r, const uint32_t *b, const uint8_t *prefix, size_t n) {
    size_t k = b[2] < n ? b[2] : n;
    int c = memcmp(r->text + b[1], prefix, k);
    return c ? c : b[2] < n ? -1 : 0;
}

static void put(struct list *l, uint32_t branch, uint32_t label) {
    if (l->n == l->room) l->at = realloc(l->at, (l->room = l->room ? l->room * 2 : 64) * sizeof *l->at);
    l->at[l->n++] = (struct found){branch, label};
}

static void matches(const struct run *r, uint32_t link, const uint8_t *prefix, size_t n, uint32_t label, struct list *l) {
    while (link) {
        const uint32_t *b = record(r, link);
        int c = against(r, b, prefix, n);
        if (c < 0) { link = b[4]; continue; }
        if (c > 0) { link = b[3]; continue; }
        matches(r, b[3], prefix, n, label, l);
        put(l, link, label);
        link = b[4];
    }
}

// The matches of each tree of a list, in flattened order; where one begins is noted.
static void flatten(const struct run *r, uint32_t list, const uint8_t *prefix, size_t n, uint32_t label, struct list *l, size_t *starts, size_t *trees) {
    for (; list; list = record(r, list)[4]) {
        const uint32_t *c = record(r, list);
        if (c[5]) {
            flatten(r, c[3], prefix, n, label ? label : list, l, starts, trees);
        } else {
            size_t before = l->n;
            matches(r, c[3], prefix, n, label, l);
            if (l->n > before) starts[(*trees)++] = before;
        }
    }
}

static int compare(const struct run *r, const struct list *l, const size_t *at, size_t a, size_t b) {
    const uint32_t *x = record(r, l->at[at[a]].branch), *y = record(r, l->at[at[b]].branch);
    size_t k = x[2] < y[2] ? x[2] : y[2];
    int c = memcmp(r->text + x[1], r->text + y[1], k);
    if (!c) c = x[2] < y[2] ? -1 : x[2] > y[2];
    return c ? c : a < b ? -1 : 1;
}

// What is found in a list, in order, one of each key, the first holder's.
static struct list search(const struct run *r, uint32_t list, const uint8_t *prefix, size_t n) {
    struct list all = {0}, kept = {0};
    size_t at[97], heap[96], trees = 0, live = 0;
    flatten(r, list, prefix, n, 0, &all, at, &trees);
    if (trees < 2) return all;
    size_t end[96];
    for (size_t i = 0; i < trees; i++) end[i] = i + 1 < trees ? at[i + 1] : all.n;
    for (size_t i = 0; i < trees; i++) {
        size_t k = live++;
        for (; k && compare(r, &all, at, i, heap[(k - 1) / 2]) < 0; k = (k - 1) / 2) heap[k] = heap[(k - 1) / 2];
        heap[k] = i;
    }
    while (live) {
        size_t top = heap[0];
        struct found f = all.at[at[top]];
        const uint32_t *b = record(r, f.branch), *last = kept.n ? record(r, kept.at[kept.n - 1].branch) : NULL;
        if (!last || last[2] != b[2] || memcmp(r->text + last[1], r->text + b[1], b[2])) put(&kept, f.branch, f.label);
        size_t down = ++at[top] < end[top] ? top : heap[--live], k = 0;
        for (size_t c; (c = 2 * k + 1) < live; k = c) {
            if (c + 1 < live && compare(r, &all, at, heap[c + 1], heap[c]) < 0) c++;
            if (compare(r, &all, at, down, heap[c]) < 0) break;
            heap[k] = heap[c];
        }
        if (live) heap[k] = down;
    }
    free(all.at);
    return kept;
}

static void list(struct run *r, uint32_t trie, const uint8_t *q, size_t qn, size_t base, uint32_t matched, uint32_t label) {
    if (++r->entered > r->budget || !trie) return;
    const uint32_t *t = record(r, trie);
    const uint8_t *dot = qn ? memchr(q, '.', qn) : NULL;
    size_t n = dot ? (size_t)(dot - q) : 0, next = dot ? n + 1 : 0;
    if (dot) matched = (uint32_t)(base + n);
    // Once they do not fit, lines need no more counting.
    if (next == qn && r->count <= r->lines && r->used <= r->bytes) {
        struct list l = search(r, t[3], q, n);
        for (size_t i = 0; i < l.n; i++) {
            const uint32_t *b = record(r, l.at[i].branch);
            if (r->kind && b[6] != r->kind) continue;
            uint32_t outer = base ? label : l.at[i].label;
            const uint32_t *c = outer ? record(r, outer) : NULL;
            size_t candidate = base + b[2], note = c ? c[2] : 0;
            if (r->write) {
                uint8_t *o = r->out + r->used;
                memcpy(o, r->base, base);
                memcpy(o + base, r->text + b[1], b[2]);
                if (c) memcpy(o + candidate, r->text + c[1], note);
                uint8_t *w = r->lines_at + r->count * 48;
                memcpy(w, (uint32_t[]){matched, (uint32_t)r->used, (uint32_t)candidate, (uint32_t)(r->used + candidate), (uint32_t)note}, 20);
                memcpy(w + 20, b + 5, 24);
                memset(w + 44, 0, 4);
            }
            r->count++;
            r->used += candidate + note;
        }
        free(l.at);
    }
    struct list l = search(r, t[4], q, n);
    for (size_t i = 0; i < l.n && r->entered <= r->budget; i++) {
        const uint32_t *b = record(r, l.at[i].branch);
        memcpy(r->base + base, r->text + b[1], b[2]);
        r->base[base + b[2]] = '.';
        list(r, b[5], q + next, qn - next, base + b[2] + 1, matched, base ? label : l.at[i].label);
    }
    free(l.at);
}

// The number of lines, or -9 or -10.
int64_t c_complete(const uint32_t *words, const uint8_t *text, uint32_t root, uint32_t kind, const uint8_t *query, size_t nquery, uint32_t budget,
                   uint8_t *lines, size_t nlines, uint8_t *out, size_t nout) {
    struct run r = {words, text, lines, out, nlines / 48, nout, kind, budget, 0, 0, 0, false, {0}};
    list(&r, root, query, nquery, 0, 4294967295u, 0);
    if (r.entered > budget) return -9;
    if (r.count > r.lines || r.used > r.bytes) return -10;
    r.entered = r.count = r.used = 0, r.write = true;
    list(&r, root, query, nquery, 0, 4294967295u, 0);
    return (int64_t)r.count;
}

// The bytes that the candidates of n lines all begin with, read back from what was written.
uint32_t c_shared(const uint8_t *lines, size_t n, const uint8_t *out) {
    uint32_t span[2], shared = 0;
    const uint8_t *first = out;
    for (size_t i = 0; i < n; i++) {
        memcpy(span, lines + i * 48 + 4, sizeof span);
        const uint8_t *at = out + span[0];
        if (i == 0) first = at, shared = span[1];
        uint32_t most = shared < span[1] ? shared : span[1];
        for (shared = 0; shared < most && at[shared] == first[shared]; shared++) {}
        if (!shared) break;
    }
    return shared;
}
