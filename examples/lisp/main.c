/* main.c: `lisp [-m MINOR-WORDS] [-p POOLS] [FILE]` evaluates the forms of a file, or of standard input. A form that fails
 * prints why, and the next is evaluated. */
#include "lisp.h"
#include <stdio.h>
#include <stdlib.h>

machine machines[DOMAINS];
static const char *text;

static bool evaluate_next(machine *m) {
  item it;
  if (!read_item(m, &text, &it)) return false;
  eval(m, compile(m, it));
  return true;
}

/* The first domain, which is driven by a thread with a large stack. */
static void *run(void *of) {
  machine *m = of;
  if (setjmp(m->failure)) return fprintf(stderr, "lisp: %s\n", m->message), NULL;
  start_names(m);
  attach(m);
  for (volatile bool goes_on = true; goes_on;) {
    bool has_failed = setjmp(m->failure) != 0;
    if (!has_failed) goes_on = evaluate_next(m);
    else printf("error: %s\n", m->message);
    reset(m);
    if (has_failed) clean(m);
    end_form(m);
  }
  join_all(m);
  return m;
}

int main(int count, char **words) {
  sizes wanted = {DOMAINS, 32768, 512, 100000, 100000};
  int at = 1;
  for (; at + 1 < count && words[at][0] == '-'; at += 2) *(words[at][1] == 'm' ? &wanted.minor_words : &wanted.pools) = (uint32_t)atoi(words[at + 1]);
  FILE *file = at < count ? fopen(words[at], "r") : stdin;
  char *content = NULL;
  size_t room = 0;
  if (!file) return fprintf(stderr, "lisp: %s can't be read\n", words[at]), 1;
  text = getdelim(&content, &room, 0, file) < 0 ? "" : content;
  heap *domains[DOMAINS];
  for (int i = 0; i < DOMAINS; i++) domains[machines[i].number = i] = &machines[i].heap;
  const char *why = heap_start(wanted, domains);
  if (why) return fprintf(stderr, "lisp: %s\n", why), 1;
  heap_drive(domains[0]);
  pthread_t thread;
  void *ended = NULL;
  if (!start_thread(&thread, run, &machines[0])) return fputs("lisp: no thread is left\n", stderr), 1;
  pthread_join(thread, &ended);
  heap_stop(domains, DOMAINS);
  free(content);
  return ended == NULL;
}
