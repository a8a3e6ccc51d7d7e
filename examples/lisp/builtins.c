/* builtins.c: functions in C. The general ones take what is pushed from one place on, and answer in VAL. */
#include "lisp.h"
#include <stdio.h>
#include <string.h>

/* The places of the first builtins in the table at the end. */
enum { CAR, CDR, IS_NULL, NOT, IS_PAIR, IS_SYMBOL, IS_STRING, IS_NUMBER, IS_FUNCTION, UNARY_END };
enum { ADD = UNARY_END, SUBTRACT, MULTIPLY, QUOTIENT, REMAINDER, LESS, MORE, EQUAL, SAME, CONS, BINARY_END };

item unary(machine *m, int which, item it) {
  if (which == IS_NULL || which == NOT) return truth(is_nil(it));
  if (which == CAR || which == CDR) return want(m, it, VAL, PAIR), load(m, VAL, VAL, which == CAR ? 1 : 2);
  static const kind kinds[] = {[IS_PAIR] = PAIR, [IS_SYMBOL] = SYMBOL, [IS_STRING] = STRING, [IS_NUMBER] = INTEGER, [IS_FUNCTION] = CLOSURE};
  kind kind = kind_of(m, it, VAL, NULL);
  return truth((kind == BUILTIN ? CLOSURE : kind) == kinds[which]);
}

static item arithmetic(machine *m, int which, int64_t a, int64_t b) {
  int64_t value = 0;
  bool is_outside = false;
  switch (which) {
    case LESS: return truth(a < b);
    case MORE: return truth(a > b);
    case EQUAL: return truth(a == b);
    case ADD: is_outside = __builtin_add_overflow(a, b, &value); break;
    case SUBTRACT: is_outside = __builtin_sub_overflow(a, b, &value); break;
    case MULTIPLY: is_outside = __builtin_mul_overflow(a, b, &value); break;
    default:
      if (b == 0) fail(m, "a division by 0");
      value = which == QUOTIENT ? a / b : a % b;
  }
  if (is_outside || value <= LEAST + 2 || value > MOST) fail(m, "a number is out of range");
  return integer(value);
}

item binary(machine *m, int which, item a, item b) {
  if (which == CONS) return cons(m, a, b);
  if (which == SAME) return truth(is(a, b));
  return arithmetic(m, which, want(m, a, A, INTEGER), want(m, b, VAL, INTEGER));
}

/* What an argument is, in register A: its number, and its text. */
static int64_t wanted(machine *m, int at, kind kind) { return want(m, peek(m, A, at), A, kind); }
static int text_at(machine *m, int at, char *to) { return text_of(m, peek(m, A, at), A, to); }

static item list(machine *m, int from) {
  item made = NIL_ITEM;
  for (int at = m->depth - 1; at >= from; at--) made = cons(m, peek(m, A, at), made);
  return made;
}

static item set_pair(machine *m, int from, int field) {
  wanted(m, from, PAIR);
  keep(m, A, field, peek(m, VAL, from + 1), VAL);
  return NIL_ITEM;
}
static item set_car(machine *m, int from) { return set_pair(m, from, 1); }
static item set_cdr(machine *m, int from) { return set_pair(m, from, 2); }

static item string_append(machine *m, int from) {
  char text[2 * MOST_TEXT + 1];
  int length = 0;
  for (int at = from; at < m->depth && length <= MOST_TEXT; at++) length += text_at(m, at, text + length);
  return string(m, text, length);
}
static item substring(machine *m, int from) {
  char text[MOST_TEXT + 1];
  int64_t length = text_at(m, from, text), first = wanted(m, from + 1, INTEGER), end = wanted(m, from + 2, INTEGER);
  if (first < 0 || end < first || length < end) fail(m, "a string of %d bytes has no part from %lld to %lld", (int)length, (long long)first, (long long)end);
  return string(m, text + first, (int)(end - first));
}
static item string_length(machine *m, int from) { return integer(wanted(m, from, STRING)); }
static int order(machine *m, int from) {
  char a[MOST_TEXT + 1], b[MOST_TEXT + 1];
  text_at(m, from, a), text_at(m, from + 1, b);
  return strcmp(a, b);
}
static item string_equal(machine *m, int from) { return truth(order(m, from) == 0); }
static item string_less(machine *m, int from) { return truth(order(m, from) < 0); }
static item number_to_string(machine *m, int from) {
  char text[32];
  return string(m, text, snprintf(text, sizeof text, "%lld", (long long)wanted(m, from, INTEGER)));
}
static item string_to_symbol(machine *m, int from) {
  char text[MOST_TEXT + 1];
  return text_at(m, from, text), symbol(m, text);
}
static item symbol_to_string(machine *m, int from) { return wanted(m, from, SYMBOL), load(m, VAL, A, 1); }

static item apply_to(machine *m, int from) {
  int base = m->depth;
  for (item rest = peek(m, A, from + 1); !is_nil(rest); rest = load(m, A, A, 2)) {
    want(m, rest, A, PAIR);
    push(m, load(m, VAL, A, 1), VAL);
    if (m->depth - base > MOST_ARGUMENTS) fail(m, "a call has more than %d arguments", MOST_ARGUMENTS);
  }
  return apply(m, peek(m, FUN, from), base);
}

static item print_line(machine *m, int from) {
  for (int at = from; at < m->depth; at++) {
    if (at > from) putchar(' ');
    print(m, peek(m, VAL, at));
  }
  return putchar('\n'), NIL_ITEM;
}
static item raise_error(machine *m, int from) {
  char text[MOST_TEXT + 1];
  text_at(m, from, text);
  fail(m, "%s", text);
}

static item minor(machine *m, int from) { return (void)from, heap_collect(&m->heap, MINOR), NIL_ITEM; }
static item major(machine *m, int from) { return (void)from, heap_collect(&m->heap, MAJOR), NIL_ITEM; }
static item full_major(machine *m, int from) {
  (void)from, clean(m);
  int64_t left = heap_collect(&m->heap, FULL_MAJOR);
  return settle(m), integer(left);
}
static item symbol_count(machine *m, int from) { return (void)from, integer(count_symbols(m)); }

/* A weak pair is a value that leads to an ephemeron. */
static item make_weak(machine *m, int from) {
  if (!peek(m, A, from).is_block) fail(m, "a number is no weak key");
  peek(m, VAL, from + 1);
  heap_ephemeron(&m->heap, B, A, VAL);
  item made = tagged(m, 2, WEAK, 0);
  store(m, VAL, 1, B);
  return made;
}
static item weak_key(machine *m, int from) {
  item key;
  wanted(m, from, WEAK), load(m, A, A, 1);
  return heap_key(&m->heap, VAL, A, &key) ? key : NIL_ITEM;
}
static item weak_data(machine *m, int from) { return is_nil(weak_key(m, from)) ? NIL_ITEM : heap_data(&m->heap, VAL, A); }

#define ONE(name) {name, 1, 1, true, NULL}
#define TWO(name) {name, 2, 2, true, NULL}
const builtin builtins[] = {
    ONE("car"), ONE("cdr"), ONE("null?"), ONE("not"), ONE("pair?"), ONE("symbol?"), ONE("string?"), ONE("number?"), ONE("function?"),
    TWO("+"), TWO("-"), TWO("*"), TWO("quotient"), TWO("remainder"), TWO("<"), TWO(">"), TWO("="), TWO("eq?"), TWO("cons"),
    {"list", 0, 15, true, list}, {"set-car!", 2, 2, true, set_car}, {"set-cdr!", 2, 2, true, set_cdr},
    {"string-append", 0, 15, true, string_append}, {"substring", 3, 3, true, substring}, {"string-length", 1, 1, true, string_length},
    {"string=?", 2, 2, true, string_equal}, {"string<?", 2, 2, true, string_less}, {"number->string", 1, 1, true, number_to_string},
    {"string->symbol", 1, 1, true, string_to_symbol}, {"symbol->string", 1, 1, true, symbol_to_string},
    {"apply", 2, 2, false, apply_to}, {"print", 0, 15, true, print_line}, {"error", 1, 1, true, raise_error},
    {"minor", 0, 0, false, minor}, {"major", 0, 0, false, major}, {"full-major", 0, 0, false, full_major},
    {"symbol-count", 0, 0, true, symbol_count}, {"weak", 2, 2, true, make_weak}, {"weak-key", 1, 1, true, weak_key},
    {"weak-data", 1, 1, true, weak_data}, {"guardian", 0, 0, true, make_guardian}, {"guard", 2, 2, true, guard},
    {"retrieve", 1, 1, true, retrieve}, {"open", 0, 0, true, open_handle}, {"close", 1, 1, true, close_handle},
    {"handle-counts", 0, 0, true, handle_counts}, {"join", 1, 1, false, join}, {"spawn-function", 1, 1, false, spawn}};
const int unary_count = UNARY_END, binary_end = BINARY_END, builtin_count = sizeof builtins / sizeof *builtins;
