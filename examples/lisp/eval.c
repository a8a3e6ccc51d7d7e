/* eval.c: evaluates nodes. An evaluation that isn't simple may leave any ENV; who needs it pushes it before. */
#include "lisp.h"

static bool is_leaf(const node *n) { return n->shape <= LOCAL; }

static _Noreturn void unbound(machine *m, int place) {
  char name[MOST_TEXT + 1];
  load(m, VAL, NAMES, place);
  text_of(m, load(m, VAL, VAL, 1), VAL, name);
  fail(m, "%s isn't bound", name);
}

/* A leaf, in this register unless it is a number of the code's. */
static inline item leaf(machine *m, const node *n, int dst) {
  if (n->shape == NUMBER) return integer(n->number);
  if (n->shape != LOCAL) {
    item it = load(m, dst, GLOBALS, n->a);
    if (is(it, UNBOUND_ITEM)) unbound(m, n->a);
    return it;
  }
  int frame = ENV;
  for (int i = n->a; i > 0; i--, frame = dst) load(m, dst, frame, 0);
  return load(m, dst, frame, n->b);
}

/* A part, after which ENV may be lost. */
static item last(machine *m, const node *n) {
  nest(m);
  item it = eval(m, n);
  m->nesting--;
  return it;
}

/* A part, with ENV as before. */
static item part(machine *m, const node *n) {
  if (n->is_simple) return eval(m, n);
  push(m, (item){true, 0}, ENV);
  item it = last(m, n);
  pop(m, ENV);
  return it;
}

static item two(machine *m, const node *n) {
  const node *first = n->at[0], *second = n->at[1];
  bool is_first_leaf = is_leaf(first) && is_leaf(second);
  item a = is_first_leaf ? leaf(m, first, A) : part(m, first);
  if (is_leaf(second)) {
    if (!is_first_leaf && a.is_block) copy(m, A, VAL);
    return binary(m, n->a, a, leaf(m, second, VAL));
  }
  if (a.is_block) push(m, a, VAL);
  item b = last(m, second);
  if (a.is_block) pop(m, A);
  return binary(m, n->a, a, b);
}

/* Pushes the values of parts from one on, and answers where the first stands. */
static int push_parts(machine *m, const node *n, int from) {
  int base = m->depth;
  for (int i = from; i < n->count; i++) push(m, part(m, n->at[i]), VAL);
  return base;
}

/* A builtin, of what is pushed from here on. */
static item call_builtin(machine *m, int which, int from) {
  const builtin *it = &builtins[which];
  int count = m->depth - from;
  if (count < it->least || count > it->most) fail(m, "%s isn't called with %d arguments", it->name, count);
  if (which >= binary_end) return it->run(m, from);
  if (which < unary_count) return unary(m, which, peek(m, VAL, from));
  item a = peek(m, A, from);
  return binary(m, which, a, peek(m, VAL, from + 1));
}

static item general(machine *m, const node *n) {
  int from = push_parts(m, n, 0);
  item it = builtins[n->a].run(m, from);
  m->depth = from;
  return it;
}

/* The code of the function in FUN, or NULL and which builtin it is. */
static const node *code_of(machine *m, item function, int count, int64_t *which) {
  kind kind = kind_of(m, function, FUN, which);
  if (kind == BUILTIN) return NULL;
  if (kind != CLOSURE) want(m, function, FUN, CLOSURE);
  const node *code = codes[*which];
  if (code->b != count) fail(m, "a function of %d arguments is called with %d", code->b, count);
  return code;
}

/* The new frame is ENV. It leads to that of the function in FUN where the code looks there. */
static const node *enter(machine *m, const node *code) {
  if (code->has_link) load(m, T, FUN, 1), store(m, FRAME, 0, T);
  copy(m, ENV, FRAME);
  return code->at[0];
}

/* The body of the function in FUN, whose frame, in ENV, has what is pushed from here on. NULL where *it is the value. */
static const node *enter_pushed(machine *m, item function, int from, item *it) {
  int count = m->depth - from;
  int64_t which;
  const node *code = code_of(m, function, count, &which);
  if (!code) return *it = call_builtin(m, (int)which, from), NULL;
  alloc(m, FRAME, count + 1);
  for (int i = 0; i < count; i++) peek(m, VAL, from + i), store(m, FRAME, i + 1, VAL);
  return enter(m, code);
}

item apply(machine *m, item function, int from) {
  item it;
  const node *body = enter_pushed(m, function, from, &it);
  return body ? last(m, body) : it;
}

static const node *call_pushed(machine *m, const node *n, item *it) {
  int from = push_parts(m, n, 1);
  item function = part(m, n->at[0]);
  if (function.is_block) copy(m, FUN, VAL);
  const node *body = enter_pushed(m, function, from, it);
  m->depth = from;
  return body;
}

/* The same where the function is a leaf and the arguments are simple: these go to their fields at once. */
static const node *call(machine *m, const node *n, item *it) {
  int64_t which;
  const node *code = n->is_quick ? code_of(m, leaf(m, n->at[0], FUN), n->count - 1, &which) : NULL;
  if (!code) return call_pushed(m, n, it);
  alloc(m, FRAME, n->count);
  for (int i = 1; i < n->count; i++) {
    item value = eval(m, n->at[i]);
    bool is_loaded = is_leaf(n->at[i]) && n->at[i]->shape != NUMBER;
    keep(m, FRAME, i, is_loaded ? (item){true, 0} : value, VAL);
  }
  return enter(m, code);
}

static item closure(machine *m, const node *n) {
  item made = tagged(m, 2, CLOSURE, n->a);
  if (n->has_link) store(m, VAL, 1, ENV);
  return made;
}

static item set(machine *m, const node *n) {
  item it = part(m, n->at[0]);
  int block = n->shape == SET_GLOBAL ? GLOBALS : ENV;
  if (n->shape == SET_LOCAL)
    for (int i = n->a; i > 0; i--, block = A) load(m, A, block, 0);
  keep(m, block, n->shape == SET_GLOBAL ? n->a : n->b, it, VAL);
  return NIL_ITEM;
}

item eval(machine *m, const node *n) {
  item it = NIL_ITEM;
  for (;;) switch (n->shape) {
    case NUMBER: case CONSTANT: case GLOBAL: case LOCAL: return leaf(m, n, VAL);
    case SET_GLOBAL: case SET_LOCAL: return set(m, n);
    case LAMBDA: return closure(m, n);
    case UNARY: return unary(m, n->a, last(m, n->at[0]));
    case BINARY: return two(m, n);
    case GENERAL: return general(m, n);
    case IF: n = is_nil(part(m, n->at[0])) ? n->at[2] : n->at[1]; break;
    case OR:
      for (int i = 0; i < n->count && is_nil(it); i++) it = part(m, n->at[i]);
      return it;
    case SEQUENCE:
      for (int i = 0; i < n->count - 1; i++) part(m, n->at[i]);
      n = n->at[n->count - 1];
      break;
    case CALL:
      if (!(n = call(m, n, &it))) return it;
  }
}
