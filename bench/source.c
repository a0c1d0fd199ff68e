// The source's functions for names, one by one under its names, as an ML compiler builds them: one block with a header for each tuple,
// record, option, list cell and string, functions passed as values, nothing inlined (build.rs says -fno-inline). Blocks come from an
// arena that is emptied between runs, so that no collection of garbage is timed. No limits, and no checks of arguments.
#include <stdbool.h>
#include <stddef.h>
#include <stdint.h>
#include <stdlib.h>
#include <string.h>

static char *arena, *top;

static inline __attribute__((always_inline)) void *take(size_t n) {
    enum { SIZE = 1 << 30 };
    if (__builtin_expect(!arena, 0) && !(arena = top = malloc(SIZE))) abort();
    void *p = top;
    top += n;
    if (__builtin_expect(top > arena + SIZE, 0)) abort();
    return p;
}

// A new block of a type, whose first word is the header, written where it stands.
#define NEW(type, ...) ({ type *p_ = take(sizeof(type)); *p_ = (type){sizeof(type), __VA_ARGS__}; (const type *)p_; })

typedef uintptr_t value;  // an item, its kind above its number, or a block

struct str {
    value header;
    size_t len;
    uint8_t at[];
};

static struct str *string(const uint8_t *at, size_t len) {
    struct str *s = take((sizeof *s + len + 8) & ~(size_t)7);
    s->header = s->len = len;
    memcpy(s->at, at, len);
    return s;
}

static int string_compare(const struct str *a, const struct str *b) {
    if (a == b) return 0;
    int c = memcmp(a->at, b->at, a->len < b->len ? a->len : b->len);
    return c ? c : (a->len > b->len) - (a->len < b->len);
}

static bool starts_with(const struct str *s, const struct str *prefix) { return s->len >= prefix->len && !memcmp(s->at, prefix->at, prefix->len); }

// ---- Blocks

struct list {
    value header;
    const void *head;
    const struct list *tail;
};

struct pair {
    value header;
    value first, second;
};

struct some {
    value header;
    value it;
};

static const struct list *cons(const void *head, const struct list *tail) { return NEW(struct list, head, tail); }
static const struct pair *pair(value first, value second) { return NEW(struct pair, first, second); }
static const struct some *some(value it) { return NEW(struct some, it); }

static const struct list *rev(const struct list *l) {
    const struct list *acc = NULL;
    for (; l; l = l->tail) acc = cons(l->head, acc);
    return acc;
}

// A function as a value: its code and what it has hold of.
struct fn {
    value (*code)(const struct fn *self, value x);
    value with, more;
};

static value call(const struct fn *f, value x) { return f->code(f, x); }

static const struct list *map(const struct fn *f, const struct list *l) {
    if (!l) return NULL;
    const void *head = (const void *)call(f, (value)l->head);
    return cons(head, map(f, l->tail));
}

// ---- (Pairing) min-heaps

struct heap {
    value header;
    const void *top;
    const struct list *rest;
};

typedef int cmp(const void *a, const void *b);

static const struct heap *heap_merge(cmp *cmp, const struct heap *h1, const struct heap *h2) {
    if (!h1) return h2;
    if (!h2) return h1;
    if (cmp(h1->top, h2->top) < 0) return NEW(struct heap, h1->top, cons(h2, h1->rest));
    return NEW(struct heap, h2->top, cons(h1, h2->rest));
}

static const struct heap *heap_insert(cmp *cmp, const struct heap *h, const void *v) { return heap_merge(cmp, NEW(struct heap, v, NULL), h); }

static const struct heap *heap_merge_pairs(cmp *cmp, const struct list *l) {
    if (!l) return NULL;
    if (!l->tail) return l->head;
    return heap_merge(cmp, heap_merge(cmp, l->head, l->tail->head), heap_merge_pairs(cmp, l->tail->tail));
}

static const struct some *heap_pop(cmp *cmp, const struct heap *h) {
    return h ? some((value)pair((value)h->top, (value)heap_merge_pairs(cmp, h->rest))) : NULL;
}

// ---- Types

struct tree {
    value header;
    const struct str *key;
    value value;
    const struct tree *left, *right;
};

struct collection {
    value header;
    const struct str *label;  // of an import
    const void *held;         // a tree, or a list of collections
};

struct trie {
    value header;
    const struct list *bindings, *namespaces;
};

static const struct trie trie_empty;

struct prefix_match {
    value header;
    const struct some *prefix;
    const struct str *completion;
};

struct path_elem {
    value header;
    const struct list *imports;
    const struct prefix_match *segment;
};

// ---- List functions. Elements are pairs of a path element and a value.

static const struct str *key_fn(const struct pair *x) { return ((const struct path_elem *)x->first)->segment->completion; }

static const struct list *push_nodup(const struct pair *x, const struct list *l) {
    if (!l) return cons(x, NULL);
    const struct list *same = cons(l->head, l->tail);
    return string_compare(key_fn(x), key_fn(l->head)) == 0 ? same : cons(x, same);
}

// A pair of a priority and a list.
static int cmp_heads(const void *a, const void *b) {
    const struct pair *v1 = a, *v2 = b;
    const struct list *l1 = (const void *)v1->second, *l2 = (const void *)v2->second;
    int c = string_compare(key_fn(l1->head), key_fn(l2->head));
    return c ? c : (int)v1->first - (int)v2->first;
}

static const struct list *aux(const struct heap *lists, const struct list *acc) {
    for (const struct some *popped; (popped = heap_pop(cmp_heads, lists));) {
        const struct pair *both = (const void *)popped->it, *v = (const void *)both->first;
        const struct list *l = (const void *)v->second;
        lists = (const void *)both->second;
        if (l->tail) lists = heap_insert(cmp_heads, lists, pair(v->first, (value)l->tail));
        acc = push_nodup(l->head, acc);
    }
    return acc;
}

static const struct list *merge_increasing_lists_rev(const struct list *lists) {
    const struct list *kept = NULL, *turned = NULL;
    for (; lists; lists = lists->tail)
        if (lists->head) kept = cons(lists->head, kept);
    kept = rev(kept);
    if (!kept) return NULL;
    if (!kept->tail) return rev(kept->head);
    for (value n = 0; kept; kept = kept->tail) turned = cons(pair(n++, (value)kept->head), turned);
    const struct heap *heap = NULL;
    for (; turned; turned = turned->tail) heap = heap_insert(cmp_heads, heap, turned->head);
    return aux(heap, NULL);
}

// ---- Binary trees

static const struct tree *btree_insert_replace(const struct tree *bt, const struct str *k, value v) {
    if (!bt) return NEW(struct tree, k, v, NULL, NULL);
    int c = string_compare(k, bt->key);
    if (c < 0) {
        const struct tree *left = btree_insert_replace(bt->left, k, v);
        return NEW(struct tree, bt->key, bt->value, left, bt->right);
    }
    if (c > 0) {
        const struct tree *right = btree_insert_replace(bt->right, k, v);
        return NEW(struct tree, bt->key, bt->value, bt->left, right);
    }
    return NEW(struct tree, bt->key, v, bt->left, bt->right);
}

static const struct some *btree_find_exact(const struct tree *bt, const struct str *k) {
    for (int c; bt; bt = c < 0 ? bt->left : bt->right)
        if (!(c = string_compare(k, bt->key))) return some(bt->value);
    return NULL;
}

static const struct pair *matched(const struct some *prefix, const struct tree *bt) {
    return pair((value)NEW(struct prefix_match, prefix, bt->key), bt->value);
}

static const struct list *find_prefix_aux(const struct tree *bt, const struct str *prefix, const struct list *acc) {
    if (!bt) return acc;
    int c = string_compare(bt->key, prefix);
    bool middle = starts_with(bt->key, prefix);
    if (c <= 0 || middle) acc = find_prefix_aux(bt->right, prefix, acc);
    if (middle) acc = cons(matched(some((value)prefix), bt), acc);
    return c > 0 ? find_prefix_aux(bt->left, prefix, acc) : acc;
}

static value btree_find_prefix(const struct fn *self, value bt) { return (value)find_prefix_aux((const void *)bt, (const void *)self->with, NULL); }

static const struct list *fold_all(const struct tree *bt, const struct some *prefix, const struct list *acc) {
    if (!bt) return acc;
    acc = fold_all(bt->right, prefix, acc);
    return fold_all(bt->left, prefix, cons(matched(prefix, bt), acc));
}

static value btree_find_all(const struct fn *self, value bt) { return (value)fold_all((const void *)bt, (const void *)self->with, NULL); }

// ---- Tries

static const struct some *names_find_exact(const struct list *names, const struct str *ns) {
    for (; names; names = names->tail) {
        const struct collection *c = names->head;
        const struct some *v = c->label ? names_find_exact(c->held, ns) : btree_find_exact(c->held, ns);
        if (v) return v;
    }
    return NULL;
}

static const struct some *trie_find_exact(const struct trie *tr, const struct list *q) {
    for (; q->tail; q = q->tail) {
        const struct some *scope = names_find_exact(tr->namespaces, q->head);
        if (!scope) return NULL;
        tr = (const void *)scope->it;
    }
    return names_find_exact(tr->bindings, q->head);
}

static const struct list *names_insert(const struct list *names, const struct str *id, value v) {
    const struct collection *first = names ? names->head : NULL;
    bool leads = first && !first->label;
    const struct tree *bt = btree_insert_replace(leads ? first->held : NULL, id, v);
    return cons(NEW(struct collection, NULL, bt), leads ? names->tail : names);
}

static const struct trie *trie_mutate(const struct trie *tr, const struct list *q, const struct list *rev_acc, const struct fn *mut_leaf) {
    if (!q) return (const void *)call(mut_leaf, (value)tr);
    const struct some *found = names_find_exact(tr->namespaces, q->head);
    const struct trie *below = trie_mutate(found ? (const void *)found->it : &trie_empty, q->tail, cons(q->head, rev_acc), mut_leaf);
    return NEW(struct trie, tr->bindings, names_insert(tr->namespaces, q->head, (value)below));
}

static value bind(const struct fn *self, value x) {
    const struct trie *tr = (const void *)x;
    return (value)NEW(struct trie, names_insert(tr->bindings, (const void *)self->with, self->more), tr->namespaces);
}

static const struct trie *trie_insert(const struct trie *tr, const struct list *ns_query, const struct str *id, value v) {
    return trie_mutate(tr, ns_query, NULL, &(struct fn){bind, (value)id, v});
}

// ---- Listing

static const struct list *names_revmap(const struct fn *fn, const struct list *acc, const struct list *imports, const struct list *names) {
    for (; names; names = names->tail) {
        const struct collection *c = names->head;
        if (c->label) acc = names_revmap(fn, acc, cons(c->label, imports), c->held);
        else acc = cons(pair((value)imports, call(fn, (value)c->held)), acc);
    }
    return acc;
}

static value mk_path_el(const struct fn *self, value x) {
    const struct pair *m = (const void *)x;
    return (value)pair((value)NEW(struct path_elem, (const void *)self->with, (const void *)m->first), m->second);
}

static value with_imports(const struct fn *self, value x) {
    (void)self;
    const struct pair *p = (const void *)x;
    return (value)map(&(struct fn){mk_path_el, p->first, 0}, (const void *)p->second);
}

enum term { NST_ALL, NST_NONE, NST_PREFIX };

static const struct list *names_find_rev(const struct list *names, enum term term, const struct str *id) {
    struct fn all = {btree_find_all, term == NST_PREFIX ? (value)some((value)id) : 0, 0}, prefix = {btree_find_prefix, (value)id, 0};
    const struct list *per = term == NST_NONE ? NULL : names_revmap(term == NST_ALL || !id->len ? &all : &prefix, NULL, NULL, names);
    return merge_increasing_lists_rev(map(&(struct fn){with_imports, 0, 0}, per));
}

static const struct list *trie_find_prefix(const struct trie *tr, const struct list *path_acc, const struct list *q, const struct list *acc) {
    enum term term = q ? NST_PREFIX : NST_ALL, bindings = q && q->tail ? NST_NONE : term;
    const struct str *id = q ? q->head : NULL;
    for (const struct list *l = names_find_rev(tr->namespaces, term, id); l; l = l->tail) {
        const struct pair *p = l->head;
        acc = trie_find_prefix((const void *)p->second, cons((const void *)p->first, path_acc), q ? q->tail : NULL, acc);
    }
    for (const struct list *l = names_find_rev(tr->bindings, bindings, id); l; l = l->tail) {
        const struct pair *p = l->head;
        acc = cons(pair((value)rev(cons((const void *)p->first, path_acc)), p->second), acc);
    }
    return acc;
}

struct result {
    value header;
    int64_t match_length;
    const struct str *candidate, *annotation;
    value item;
};

static value completion(const struct fn *self, value x) {
    (void)self;
    return (value)((const struct path_elem *)x)->segment->completion;
}

static const struct str *string_of_path(const struct list *path) {
    const struct list *parts = map(&(struct fn){completion, 0, 0}, path);
    size_t n = 0;
    for (const struct list *p = parts; p; p = p->tail) n += ((const struct str *)p->head)->len + 1;
    struct str *s = take((sizeof *s + n + 8) & ~(size_t)7);
    s->header = s->len = n - 1;
    uint8_t *at = s->at;
    for (; parts; parts = parts->tail) {
        const struct str *part = parts->head;
        memcpy(at, part->at, part->len);
        at += part->len;
        if (parts->tail) *at++ = '.';
    }
    return s;
}

static int64_t match_length_of_path(const struct list *path) {
    static const struct str none;
    const struct pair *acc = pair(0, (value)pair((value)&none, 0));
    for (; path; path = path->tail) {
        const struct prefix_match *m = ((const struct path_elem *)path->head)->segment;
        if (m->prefix) acc = pair(acc->first + 1 + m->completion->len, (value)pair(m->prefix->it, m->completion->len));
    }
    const struct pair *last = (const void *)acc->second;
    return (int64_t)acc->first - 1 - (int64_t)last->second + (int64_t)((const struct str *)last->first)->len;
}

static const struct str *first_import_of_path(const struct list *path) {
    static const struct str none;
    const struct list *imports = ((const struct path_elem *)path->head)->imports;
    while (imports && imports->tail) imports = imports->tail;
    return imports ? (const void *)some((value)imports->head)->it : &none;
}

static value completion_result_of_lid(const struct fn *self, value x) {
    (void)self;
    const struct pair *p = (const void *)x;
    const struct list *path = (const void *)p->first;
    return (value)NEW(struct result, match_length_of_path(path), string_of_path(path), first_import_of_path(path), p->second);
}

static const struct list *autocomplete_lid(const struct trie *tr, const struct list *q) {
    return map(&(struct fn){completion_result_of_lid, 0, 0}, trie_find_prefix(tr, NULL, q, NULL));
}

// ---- For the benchmark

// What is built after s_mark goes with s_forget.
void *s_mark(void) { return take(0); }
void s_forget(void *mark) { top = mark; }

// The segments of a query.
static const struct list *query(const uint8_t *q, size_t n) {
    const struct list *all = NULL;
    for (size_t i = 0, start = 0; i < n; i++) {
        if (q[i] != '.') continue;
        all = cons(string(q + start, i - start), all);
        start = i + 1;
    }
    return rev(all);
}

// The names trie that sound records read as.
const void *s_load(const uint32_t *words, const uint8_t *text, uint32_t records, uint32_t root) {
    const void **read = calloc(records + 1, sizeof *read);
    if (!read) abort();
    for (uint32_t l = 1; l <= records; l++) {
        const uint32_t *r = words + (size_t)(l - 1) * 12;
        if (r[0] < 3) {
            const void *below = r[0] == 2 ? (r[5] ? read[r[5]] : &trie_empty) : NULL;
            read[l] = NEW(struct tree, string(text + r[1], r[2]), r[0] == 2 ? (value)below : (value)r[6] << 32 | r[5], read[r[3]], read[r[4]]);
        } else if (r[0] < 5) {
            read[l] = cons(NEW(struct collection, r[5] ? string(text + r[1], r[2]) : NULL, read[r[3]]), read[r[4]]);
        } else if (r[0] == 5) {
            read[l] = NEW(struct trie, read[r[3]], read[r[4]]);
        }
    }
    const void *tr = root ? read[root] : &trie_empty;
    free(read);
    return tr;
}

const void *s_insert(const void *tr, const uint8_t *host, size_t nhost, const uint8_t *id, size_t nid, uint64_t item) {
    return trie_insert(tr, query(host, nhost), string(id, nid), item);
}

bool s_find(const void *tr, const uint8_t *q, size_t n, uint64_t *item) {
    const struct some *v = trie_find_exact(tr, query(q, n));
    if (v) *item = v->it;
    return v;
}

const void *s_complete(const void *tr, const uint8_t *q, size_t n) { return autocomplete_lid(tr, query(q, n)); }
