/* compile.c: from lists to nodes. A global has a number, which stands in its symbol: names of special forms come first, then
 * those of builtins. Constants take numbers from the other end. */
#include "lisp.h"
#include <string.h>

typedef struct scope { struct scope *outer; int count; bool is_crossed; int64_t names[MOST_ARGUMENTS]; } scope;

enum { F_QUOTE, F_IF, F_DEFINE, F_SET, F_LAMBDA, F_LET, F_BEGIN, F_COND, F_AND, F_OR, F_SPAWN, F_ELSE, FORMS, ROOM = 4 << 20 };
static const char *const forms[] = {"quote", "if", "define", "set!", "lambda", "let", "begin", "cond", "and", "or", "spawn", "else"};
static const int fewest[] = {2, 3, 3, 3, 3, 3, 1, 1, 1, 1, 2}, most[] = {2, 4, 999, 3, 999, 999, 999, 999, 999, 999, 999};

node *codes[MOST_CODES];
static int code_count, codes_before, global_count, constant_count, constants_before;
static bool is_defined[MOST_FIELDS];
static _Alignas(node) char room[ROOM];
static size_t used, used_before;

static node *expression(machine *m, scope *s, item it);

static node *make(machine *m, shape shape, int a, int b, int count) {
  size_t size = sizeof(node) + (size_t)count * sizeof(node *);
  if (ROOM - used < size) fail(m, "too much code");
  node *made = memset(room + used, 0, size);
  used += size;
  *made = (node){.shape = shape, .is_simple = true, .a = a, .b = b, .count = count};
  return made;
}

static node *joined(node *made) {
  made->is_quick = made->shape != CALL || made->at[0]->shape <= LOCAL;
  for (int i = 0; i < made->count; i++) made->is_quick &= made->at[i]->is_simple;
  made->is_simple = made->is_quick && made->shape != CALL;
  return made;
}

static node *constant(machine *m, item it) {
  if (!it.is_block) {
    node *made = make(m, NUMBER, 0, 0, 0);
    made->number = it.number;
    return made;
  }
  int place = MOST_FIELDS - 1 - constant_count;
  if (place < global_count) fail(m, "too many globals and constants");
  store(m, GLOBALS, place, VAL);
  constant_count++;
  return make(m, CONSTANT, place, 0, 0);
}

/* The number of a symbol in VAL. */
static int global(machine *m, item it) {
  int64_t known = want(m, it, VAL, SYMBOL);
  if (known) return (int)known - 1;
  if (global_count > MOST_FIELDS - 1 - constant_count) fail(m, "too many globals and constants");
  keep(m, VAL, 0, integer((int64_t)++global_count << 8 | SYMBOL), T);
  store(m, NAMES, global_count - 1, VAL);
  keep(m, GLOBALS, global_count - 1, UNBOUND_ITEM, T);
  return global_count - 1;
}

/* A variable of these scopes, or NULL. Frames between here and there lead to one another. */
static node *local(machine *m, scope *s, item it) {
  int out = 0;
  for (scope *at = s; at; at = at->outer, out++)
    for (int i = 0; i < at->count; i++)
      if (at->names[i] == it.number) {
        for (scope *crossed = s; crossed != at; crossed = crossed->outer) crossed->is_crossed = true;
        return make(m, LOCAL, out, i + 1, 0);
      }
  return NULL;
}

/* Of a list that stands on the stack: its length, an element in VAL, and an element that is a list, put on the stack. */
static int length(machine *m, int list) {
  int count = 0;
  for (item it = peek(m, VAL, list); !is_nil(it); it = load(m, VAL, VAL, 2), count++) want(m, it, VAL, PAIR);
  return count;
}

static item element(machine *m, int list, int i) {
  for (peek(m, VAL, list); i > 0; i--) load(m, VAL, VAL, 2);
  return load(m, VAL, VAL, 1);
}

static int inner(machine *m, int list, int i) { return push(m, element(m, list, i), VAL), length(m, m->depth - 1), m->depth - 1; }

static node *parts(machine *m, scope *s, node *made, int list, int from) {
  for (int i = 0; i < made->count; i++) made->at[i] = expression(m, s, element(m, list, from + i));
  return joined(made);
}

static node *sequence(machine *m, scope *s, int list, int from) {
  int count = length(m, list) - from;
  if (count < 1) return constant(m, NIL_ITEM);
  return count == 1 ? expression(m, s, element(m, list, from)) : parts(m, s, make(m, SEQUENCE, 0, 0, count), list, from);
}

static void add_name(machine *m, scope *s, item it) {
  want(m, it, VAL, SYMBOL);
  if (s->count == MOST_ARGUMENTS) fail(m, "a function takes more than %d arguments", MOST_ARGUMENTS);
  s->names[s->count++] = it.number;
}

/* A function with the names of a scope, and the body that stands in a list from one place on. */
static node *function(machine *m, scope *own, int list, int from) {
  if (code_count == MOST_CODES) fail(m, "too many functions");
  node *made = make(m, LAMBDA, 0, own->count, 1);
  made->at[0] = sequence(m, own, list, from);
  made->has_link = own->is_crossed;
  codes[made->a = code_count++] = made;
  return made;
}

static node *lambda(machine *m, scope *s, int names, int from, int list) {
  scope own = {.outer = s};
  for (int i = from, count = length(m, names); i < count; i++) add_name(m, &own, element(m, names, i));
  return function(m, &own, list, 2);
}

/* (let ((name value) ..) body ..) is ((lambda (name ..) body ..) value ..). */
static node *let(machine *m, scope *s, int list) {
  int pairs = inner(m, list, 1), count = length(m, pairs);
  scope own = {.outer = s};
  node *call = make(m, CALL, 0, 0, count + 1);
  for (int i = 0; i < count; i++) {
    int pair = inner(m, pairs, i);
    if (length(m, pair) != 2) fail(m, "let: a pair of a name and a value is wanted");
    call->at[i + 1] = expression(m, s, element(m, pair, 1));
    add_name(m, &own, element(m, pair, 0));
  }
  call->at[0] = function(m, &own, list, 2);
  return joined(call);
}

static node *choice(machine *m, node *test, node *then, node *otherwise) {
  node *made = make(m, IF, 0, 0, 3);
  made->at[0] = test, made->at[1] = then, made->at[2] = otherwise;
  return joined(made);
}

static node *both(machine *m, scope *s, int list, int i, int count) {
  if (i == count) return constant(m, TRUTH_ITEM);
  node *test = expression(m, s, element(m, list, i));
  return i + 1 == count ? test : choice(m, test, both(m, s, list, i + 1, count), constant(m, NIL_ITEM));
}

static node *cond(machine *m, scope *s, int list, int i, int count) {
  if (i == count) return constant(m, NIL_ITEM);
  int clause = inner(m, list, i);
  if (length(m, clause) < 2) fail(m, "cond: a test and a body are wanted");
  item head = element(m, clause, 0);
  if (kind_of(m, head, VAL, NULL) == SYMBOL && global(m, head) == F_ELSE) return sequence(m, s, clause, 1);
  node *test = expression(m, s, element(m, clause, 0)), *then = sequence(m, s, clause, 1);
  return choice(m, test, then, cond(m, s, list, i + 1, count));
}

/* An assignment to a name in VAL; its value is put in later, since it may be a function that calls itself by this name. */
static node *target(machine *m, scope *s, item name) {
  node *at = local(m, s, name);
  node *made = make(m, at ? SET_LOCAL : SET_GLOBAL, at ? at->a : global(m, name), at ? at->b : 0, 1);
  if (!at && made->a < FORMS) fail(m, "%s is a special form", forms[made->a]);
  if (!at) is_defined[made->a] = true;
  return made;
}

/* (define name value), (define (name ..) body ..) and (set! name value). */
static node *assignment(machine *m, scope *s, int list, bool is_definition) {
  if (is_definition && s) fail(m, "define stands at the top alone");
  bool is_function = is_definition && kind_of(m, element(m, list, 1), VAL, NULL) == PAIR;
  int names = is_function ? inner(m, list, 1) : 0;
  node *made = target(m, s, is_function ? element(m, names, 0) : element(m, list, 1));
  made->at[0] = is_function ? lambda(m, s, names, 1, list) : expression(m, s, element(m, list, 2));
  return joined(made);
}

static node *special(machine *m, scope *s, int list, int form, int count) {
  if (form == F_ELSE || count < fewest[form] || count > most[form]) fail(m, "%s isn't used so", forms[form]);
  node *value;
  scope own = {.outer = s};
  switch (form) {
    case F_QUOTE: return constant(m, element(m, list, 1));
    case F_IF: value = parts(m, s, make(m, SEQUENCE, 0, 0, 2), list, 1); return choice(m, value->at[0], value->at[1], sequence(m, s, list, 3));
    case F_DEFINE: case F_SET: return assignment(m, s, list, form == F_DEFINE);
    case F_LAMBDA: return lambda(m, s, inner(m, list, 1), 0, list);
    case F_LET: return let(m, s, list);
    case F_BEGIN: return sequence(m, s, list, 1);
    case F_COND: return cond(m, s, list, 1, count);
    case F_AND: return both(m, s, list, 1, count);
    case F_OR: return parts(m, s, make(m, OR, 0, 0, count - 1), list, 1);
    default:
      value = make(m, GENERAL, builtin_count - 1, 0, 1);
      value->at[0] = function(m, &own, list, 1);
      value->is_simple = false;
      return value;
  }
}

static node *form(machine *m, scope *s, int list) {
  int count = length(m, list);
  item head = element(m, list, 0);
  bool is_global = kind_of(m, head, VAL, NULL) == SYMBOL && !local(m, s, head);
  int place = is_global ? global(m, head) : 0, which = place - FORMS;
  if (is_global && which < 0) return special(m, s, list, place, count);
  if (count > MOST_ARGUMENTS + 1) fail(m, "a call has more than %d arguments", MOST_ARGUMENTS);
  if (!is_global || which >= builtin_count || is_defined[place]) return parts(m, s, make(m, CALL, 0, 0, count), list, 0);
  const builtin *it = &builtins[which];
  if (count - 1 < it->least || count - 1 > it->most) fail(m, "%s isn't called with %d arguments", it->name, count - 1);
  shape shape = which < unary_count ? UNARY : which < binary_end ? BINARY : GENERAL;
  node *made = parts(m, s, make(m, shape, which, 0, count - 1), list, 1);
  made->is_simple &= it->is_simple;
  return made;
}

static node *expression(machine *m, scope *s, item it) {
  int list = m->depth;
  nest(m);
  kind kind = kind_of(m, it, VAL, NULL);
  if (kind == PAIR) push(m, it, VAL);
  node *made = kind == PAIR ? form(m, s, list) : kind != SYMBOL ? constant(m, it) : local(m, s, it);
  if (!made) made = make(m, GLOBAL, global(m, it), 0, 0);
  m->depth = list;
  m->nesting--;
  return made;
}

node *compile(machine *m, item it) {
  codes_before = code_count, constants_before = constant_count, used_before = used;
  return expression(m, NULL, it);
}

void end_form(machine *m) {
  if (code_count > codes_before) return;
  for (; constant_count > constants_before; constant_count--) keep(m, GLOBALS, MOST_FIELDS - constant_count, integer(0), T);
  used = used_before;
}

void start_names(machine *m) {
  static const int fields[] = {MOST_FIELDS, MOST_FIELDS, BUCKETS};
  for (int i = 0; i < JOBS; i++) alloc(m, GLOBALS + i, fields[i]), store(m, SHARED, i, GLOBALS + i);
  for (int i = 0; i < FORMS; i++) global(m, symbol(m, forms[i]));
  for (int i = 0; i < builtin_count; i++) {
    int place = global(m, symbol(m, builtins[i].name));
    tagged(m, 1, BUILTIN, i);
    store(m, GLOBALS, place, VAL);
  }
}
