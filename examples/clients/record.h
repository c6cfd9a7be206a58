// Notes what calls of a memcached client begin and answer, as a history for `mcrace judge`, as
// record.py does. P runs first, then A and B at once, each in a thread. The keys must be new: the
// history says that a delete found none. Link with -pthread.
//
//   struct history history;
//   history_begin(&history, 2, (const char *[]){"a-1", "b-1"});
//   call_begin(&history, 'P', "set %s 0 %s", key, body_word(room, "5", 1));
//   result = memcached_set(..);
//   call_reply(&history, 'P', result == MEMCACHED_SUCCESS ? "STORED" : "NOT_STORED");
//   ..
//   history_end(&history, stdout);
//
// A call that failed otherwise has no reply, and must be its section's last.
#ifndef RECORD_H
#define RECORD_H

#include <inttypes.h>
#include <pthread.h>
#include <stdarg.h>
#include <stdio.h>
#include <stdlib.h>
#include <string.h>

struct history {
  pthread_mutex_t lock;
  char *text;
  size_t size, room;
};

// A body as a history has it. The room has three bytes for each of the body, and two more.
static inline const char *body_word(char *room, const void *body, size_t size) {
  const unsigned char *at = body;
  char *to = room;
  *to++ = '=';
  for (size_t i = 0; i < size; i++)
    if (at[i] >= 33 && at[i] <= 126 && at[i] != '%')
      *to++ = at[i];
    else
      to += sprintf(to, "%%%02x", at[i]);
  *to = 0;
  return room;
}

// Adds a line. The lock is held meanwhile, so that lines stand in the order in which it happened.
__attribute__((format(printf, 4, 5))) static inline void
history_note(struct history *history, char section, const char *what, const char *format, ...) {
  va_list words;
  va_start(words, format);
  size_t size = vsnprintf(0, 0, format, words);
  va_end(words);
  pthread_mutex_lock(&history->lock);
  if (history->room - history->size < size + 16) {
    history->room = 2 * history->room + size + 16;
    history->text = realloc(history->text, history->room);
    if (!history->text)
      abort();
  }
  history->size += sprintf(history->text + history->size, "%c %s ", section, what);
  va_start(words, format);
  history->size += vsprintf(history->text + history->size, format, words);
  va_end(words);
  history->text[history->size++] = '\n';
  pthread_mutex_unlock(&history->lock);
}

// Call this before the request is sent, and the other one after the reply has come: each takes a
// format and its words.
#define call_begin(history, section, ...) history_note(history, section, "begin", __VA_ARGS__)
#define call_reply(history, section, ...) history_note(history, section, "reply", __VA_ARGS__)

static inline void history_begin(struct history *history, int keys, const char *const *key) {
  *history = (struct history){.lock = PTHREAD_MUTEX_INITIALIZER};
  for (int i = 0; i < keys; i++) {
    call_begin(history, 'P', "delete %s", key[i]);
    call_reply(history, 'P', "NOT_FOUND");
  }
}

// Writes the history, and frees it.
static inline void history_end(struct history *history, FILE *to) {
  fprintf(to, "history 2\n%.*send\n", (int)history->size, history->text ? history->text : "");
  free(history->text);
  pthread_mutex_destroy(&history->lock);
}

#endif
