// Two threads count by libmemcached, each with a client of its own; the history is written out.
//
// gcc -O2 -o counters counters.c -lmemcached -pthread
// usage: counters HOST PORT KEY [retry]
//
// With `retry` an incr is sent again, as if its reply hadn't come in time.
#include "record.h"
#include <libmemcached/memcached.h>

enum { COUNTS = 12 };

struct branch {
  struct history *history;
  memcached_st *client;
  pthread_barrier_t *start;
  const char *key;
  char section;
  bool retries;
};

static void *count(void *given) {
  struct branch *it = given;
  uint64_t number;
  pthread_barrier_wait(it->start);
  for (int i = 0; i < COUNTS; i++) {
    call_begin(it->history, it->section, "incr %s 1", it->key);
    memcached_return_t result;
    for (int sent = 0; sent <= it->retries; sent++)
      result = memcached_increment(it->client, it->key, strlen(it->key), 1, &number);
    if (result == MEMCACHED_SUCCESS)
      call_reply(it->history, it->section, "NUMBER %" PRIu64, number);
    else if (result == MEMCACHED_NOTFOUND)
      call_reply(it->history, it->section, "NOT_FOUND");
    else
      break;
  }
  return 0;
}

int main(int words, char **word) {
  if (words < 4)
    return 2;
  const char *key = word[3];
  struct history history;
  char room[8];
  pthread_barrier_t start;
  memcached_st *client = memcached_create(0);
  memcached_server_add(client, word[1], atoi(word[2]));
  history_begin(&history, 1, &key);
  call_begin(&history, 'P', "set %s 0 %s", key, body_word(room, "5", 1));
  if (memcached_set(client, key, strlen(key), "5", 1, 0, 0) != MEMCACHED_SUCCESS)
    return 1;
  call_reply(&history, 'P', "STORED");
  pthread_barrier_init(&start, 0, 2);
  pthread_t thread[2];
  struct branch branch[2];
  for (int i = 0; i < 2; i++) {
    memcached_st *own = memcached_clone(0, client);
    branch[i] = (struct branch){&history, own, &start, key, "AB"[i], words > 4};
    pthread_create(&thread[i], 0, count, &branch[i]);
  }
  for (int i = 0; i < 2; i++) {
    pthread_join(thread[i], 0);
    memcached_free(branch[i].client);
  }
  memcached_free(client);
  history_end(&history, stdout);
}
