/* text.c: the reader and the printer. */
#include "lisp.h"
#include <ctype.h>
#include <stdio.h>
#include <stdlib.h>
#include <string.h>

enum { MOST_DEPTH = 1000, MOST_PRINTED = 100000 };

static char skip(const char **text) {
  while (isspace((unsigned char)**text) || **text == ';')
    if (*(*text)++ == ';') *text += strcspn(*text, "\n");
  return **text;
}

static item read_next(machine *m, const char **text) {
  item it;
  if (!read_item(m, text, &it)) fail(m, "the text ends within a form");
  return it;
}

static item read_list(machine *m, const char **text) {
  int from = m->depth;
  while (skip(text) != ')') push(m, read_next(m, text), VAL);
  ++*text;
  item list = NIL_ITEM;
  while (m->depth > from) list = cons(m, pop(m, A), list);
  return list;
}

static item read_quoted(machine *m, const char **text) {
  item it = read_next(m, text);
  if (it.is_block) copy(m, A, VAL);
  push(m, cons(m, it, NIL_ITEM), VAL);
  it = symbol(m, "quote");
  copy(m, A, VAL);
  return cons(m, it, pop(m, VAL));
}

static item read_string(machine *m, const char **text) {
  const char *from = *text, *to = strchr(from, '"');
  if (!to) *text += strlen(from), fail(m, "the text ends within a string");
  *text = to + 1;
  return string(m, from, to - from > MOST_TEXT ? MOST_TEXT + 1 : (int)(to - from));
}

static item read_word(machine *m, const char **text) {
  char word[64], *end;
  size_t length = strcspn(*text, " \t\r\n\f\v();'\"");
  snprintf(word, sizeof word, "%.*s", (int)length, *text);
  *text += length;
  if (length >= sizeof word) fail(m, "a word is longer than %zu", sizeof word - 1);
  if (strcmp(word, "nil") == 0) return NIL_ITEM;
  if (strcmp(word, "t") == 0) return TRUTH_ITEM;
  if (!isdigit((unsigned char)word[word[0] == '-'])) return symbol(m, word);
  long long value = strtoll(word, &end, 10);
  if (*end || value <= LEAST + 2 || value > MOST) fail(m, "no number: %s", word);
  return integer(value);
}

bool read_item(machine *m, const char **text, item *read) {
  char first = skip(text);
  if (!first) return false;
  *text += strchr("()'\"", first) != NULL;
  nest(m);
  if (m->nesting > MOST_DEPTH) fail(m, "lists are nested too deeply");
  if (first == ')') fail(m, "a ) too many");
  *read = (first == '(' ? read_list : first == '\'' ? read_quoted : first == '"' ? read_string : read_word)(m, text);
  m->nesting--;
  return true;
}

static void print_text(machine *m, item it) {
  char text[MOST_TEXT + 1];
  text_of(m, it, VAL, text);
  fputs(text, stdout);
}

static void print_pairs(machine *m, item it) {
  int count = 0;
  for (char before = '('; kind_of(m, it, VAL, NULL) == PAIR; before = ' ') {
    if (++count > MOST_PRINTED) fail(m, "a list is longer than %d", MOST_PRINTED);
    putchar(before);
    push(m, it, VAL);
    print(m, load(m, VAL, VAL, 1));
    pop(m, VAL);
    it = load(m, VAL, VAL, 2);
  }
  if (!is_nil(it)) fputs(" . ", stdout), print(m, it);
  putchar(')');
}

void print(machine *m, item it) {
  static const char *const names[] = {[CLOSURE] = "function", "builtin", [WEAK] = "weak", "handle", "guardian", "task"};
  kind kind = kind_of(m, it, VAL, NULL);
  nest(m);
  switch (kind) {
    case INTEGER: printf("%lld", (long long)it.number); break;
    case NIL: fputs("()", stdout); break;
    case TRUTH: putchar('t'); break;
    case STRING: print_text(m, it); break;
    case SYMBOL: print_text(m, load(m, VAL, VAL, 1)); break;
    case PAIR: print_pairs(m, it); break;
    default: printf("#<%s>", names[kind]);
  }
  m->nesting--;
}
