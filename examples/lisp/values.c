/* values.c: kinds, pairs, strings, symbols, and the stack. */
#include "lisp.h"
#include <stdarg.h>
#include <stdio.h>
#include <string.h>

_Noreturn void fail(machine *m, const char *format, ...) {
  va_list rest;
  va_start(rest, format);
  vsnprintf(m->message, sizeof m->message, format, rest);
  va_end(rest);
  longjmp(m->failure, 1);
}

/* The heap is the first part of its machine. */
_Noreturn void heap_failed(heap *h, const char *why) { fail((machine *)h, "%s", why); }

kind kind_of(machine *m, item it, int reg, int64_t *above) {
  if (!it.is_block) return is_nil(it) ? NIL : is(it, TRUTH_ITEM) ? TRUTH : INTEGER;
  int64_t first = load(m, T, reg, 0).number;
  if (above) *above = first >> 8;
  return (kind)(first & 255);
}

int64_t want(machine *m, item it, int reg, kind wanted) {
  static const char *const names[] = {"pair", "function", "function", "symbol", "string", "weak pair", "handle", "guardian", "task", "number", "nil", "t"};
  int64_t above = it.number;
  kind found = kind_of(m, it, reg, &above);
  if (found != wanted) fail(m, "wanted: %s, found: %s", names[wanted], names[found]);
  return above;
}

static void tag(machine *m, int block, kind kind, int64_t above) {
  number(m, T, above << 8 | kind);
  store(m, block, 0, T);
}

item tagged(machine *m, int fields, kind kind, int64_t above) {
  item made = alloc(m, VAL, fields);
  tag(m, VAL, kind, above);
  return made;
}

/* A new block's fields hold 0, so it is a pair. */
item cons(machine *m, item head, item tail) {
  item made = alloc(m, NEW, 3);
  keep(m, NEW, 1, head, A);
  keep(m, NEW, 2, tail, VAL);
  copy(m, VAL, NEW);
  return made;
}

/* A string is a raw block: its length above its kind, and then 7 bytes a field. */
item string(machine *m, const char *text, int length) {
  if (length > MOST_TEXT) fail(m, "a string is longer than %d", MOST_TEXT);
  item made = heap_raw(&m->heap, VAL, 1 + (length + 6) / 7);
  tag(m, VAL, STRING, length);
  for (int at = 0; at < length; at += 7) {
    int64_t bytes = 0;
    memcpy(&bytes, text + at, (size_t)(length - at < 7 ? length - at : 7));
    keep(m, VAL, 1 + at / 7, integer(bytes), T);
  }
  return made;
}

int text_of(machine *m, item it, int reg, char *to) {
  int length = (int)want(m, it, reg, STRING);
  for (int at = 0; at < length; at += 7) {
    int64_t bytes = load(m, T, reg, 1 + at / 7).number;
    memcpy(to + at, &bytes, (size_t)(length - at < 7 ? length - at : 7));
  }
  to[length] = 0;
  return length;
}

/* Symbols stand in a weak table: a bucket is a chain of cells, each with an ephemeron whose key is the symbol, so one that
 * nothing leads to goes. Cells are put in front by compare-and-set, since two domains may do so at once. */
static bool find(machine *m, const char *name, int bucket, item *found) {
  char other[MOST_TEXT + 1];
  for (item cell = load(m, A, TABLE, bucket); cell.is_block; cell = load(m, A, A, 1)) {
    load(m, B, A, 0);
    if (!heap_key(&m->heap, VAL, B, found)) continue;
    text_of(m, load(m, B, VAL, 1), B, other);
    if (strcmp(name, other) == 0) return true;
  }
  return false;
}

item symbol(machine *m, const char *name) {
  unsigned hash = 0;
  for (const char *at = name; *at; at++) hash = hash * 31 + (unsigned char)*at;
  for (int bucket = hash % BUCKETS;;) {
    item first = load(m, A, TABLE, bucket), found;
    if (find(m, name, bucket, &found)) return found;
    string(m, name, (int)strlen(name));
    copy(m, B, VAL);
    found = tagged(m, 2, SYMBOL, 0);
    store(m, VAL, 1, B);
    heap_ephemeron(&m->heap, B, VAL, T);
    alloc(m, NEW, 2);
    store(m, NEW, 0, B);
    if (!is(load(m, A, TABLE, bucket), first)) continue;
    store(m, NEW, 1, A);
    if (heap_cas(&m->heap, TABLE, bucket, A, NEW)) return found;
  }
}

/* Makes each chain anew of the cells whose symbols are left, and counts these. */
int64_t count_symbols(machine *m) {
  int64_t count = 0;
  for (int bucket = 0; bucket < BUCKETS; bucket++) {
    item first = load(m, A, TABLE, bucket);
    number(m, B, 0);
    for (item cell = first; cell.is_block; cell = load(m, A, A, 1)) {
      load(m, VAL, A, 0);
      if (!heap_has_key(&m->heap, VAL)) continue;
      alloc(m, NEW, 2);
      store(m, NEW, 0, VAL);
      store(m, NEW, 1, B);
      copy(m, B, NEW);
      count++;
    }
    if (is(load(m, A, TABLE, bucket), first)) heap_cas(&m->heap, TABLE, bucket, A, B);
  }
  return count;
}

/* STACK = the chunk with this place. */
static int chunk_with(machine *m, int position) {
  int wanted = position / CHUNK;
  if (wanted == m->chunk) return STACK;
  if (wanted >= CHUNKS) fail(m, "the stack is full");
  m->chunk = -1;
  if (!load(m, STACK, SPINE, wanted).is_block) alloc(m, STACK, CHUNK), store(m, SPINE, wanted, STACK);
  m->chunk = wanted;
  return STACK;
}

void push(machine *m, item it, int reg) {
  keep(m, chunk_with(m, m->depth), m->depth % CHUNK, it, reg);
  if (++m->depth > m->deepest) m->deepest = m->depth;
}

item peek(machine *m, int dst, int position) { return load(m, dst, chunk_with(m, position), position % CHUNK); }

item pop(machine *m, int dst) { return m->depth--, peek(m, dst, m->depth); }

void nest(machine *m) {
  if (++m->nesting > MOST_NESTING) fail(m, "evaluation is nested too deeply");
}

void attach(machine *m) {
  for (int i = 0; i < JOBS; i++) load(m, GLOBALS + i, SHARED, i);
  alloc(m, SPINE, CHUNKS + 1);
  reset(m);
}

void reset(machine *m) {
  m->depth = m->nesting = 0;
  m->chunk = -1;
  number(m, ENV, 0);
}

/* What registers and places hold that aren't in use would live through a collection. */
void clean(machine *m) {
  for (int reg = VAL; reg <= T; reg++) heap_forget(&m->heap, reg);
  int chunk = m->depth / CHUNK;
  for (int at = chunk + 1; at <= m->deepest / CHUNK; at++) keep(m, SPINE, at, integer(0), T);
  for (int at = m->depth; at / CHUNK == chunk && at < m->deepest; at++) keep(m, chunk_with(m, at), at % CHUNK, integer(0), T);
  m->deepest = m->depth;
}
