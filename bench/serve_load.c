// A load of memcached's text protocol: 80 % get, 10 % set, 10 % incr.
//
// usage: serve_load PORT CONNECTIONS DEPTH SECONDS KEYS BODY
//
// Each connection to PORT of 127.0.0.1 writes DEPTH requests by one call, and the next ones once
// all their replies have come. The keys of get and set are drawn from KEYS, key-0 and so on, and
// hold BODY bytes each; those of incr from a tenth as many, number-0 and so on, which hold a
// number. All must be set before. Two threads share the connections. It prints the requests a
// second, of all batches the median and the 99th percentile of the microseconds from the write to
// the last reply, and the number of requests. A reply that a request can't have ends it with
// status 1.
#include "sockets.h"
#include <stdint.h>
#include <sys/epoll.h>

enum { MOST_DEPTH = 1024, THREADS = 2, ROOM = 1 << 20, MOST_BATCHES = 1 << 22 };
enum kind { GET, SET, INCR };

struct connection {
  int socket, answered;
  enum kind asked[MOST_DEPTH];
  double began;
  char *got;
  size_t length;
};

static int port, depth, keys, body_length, connections[THREADS];
static double seconds;
static char *body;
static uint32_t *micros;
static _Atomic size_t batches;
static _Thread_local unsigned short state[3];

static void ask(struct connection *c) {
  static _Thread_local char text[ROOM];
  size_t length = 0;
  for (int at = 0; at < depth; at++) {
    int lot = nrand48(state) % 10, key = nrand48(state) % keys;
    c->asked[at] = lot < 8 ? GET : lot == 8 ? SET : INCR;
    if (c->asked[at] == SET)
      length += sprintf(text + length, "set key-%d 0 0 %d\r\n%s\r\n", key, body_length, body);
    else if (c->asked[at] == GET)
      length += sprintf(text + length, "get key-%d\r\n", key);
    else
      length += sprintf(text + length, "incr number-%d 1\r\n", key / 10);
  }
  c->answered = 0;
  c->began = microseconds();
  send_all(c->socket, text, length);
}

// How many bytes the reply has with which the text begins; 0 if it isn't whole.
static size_t reply_length(enum kind asked, const char *text, size_t length) {
  const char *line = memchr(text, '\n', length);
  size_t first = line ? line + 1 - text : 0, whole = first + body_length + 7;
  if (!line)
    return 0;
  if (asked == SET && first == 8 && !memcmp(text, "STORED\r\n", 8))
    return first;
  if (asked == INCR && '0' <= *text && *text <= '9')
    return first;
  bool is_hit = asked == GET && !memcmp(text, "VALUE ", 6);
  if (is_hit && length < whole)
    return 0;
  if (is_hit && !memcmp(text + whole - 7, "\r\nEND\r\n", 7))
    return whole;
  fprintf(stderr, "a wrong reply: %.*s\n", (int)first, text);
  exit(1);
}

// Takes what has come. If all is answered, the next batch goes out.
static void take(struct connection *c) {
  ssize_t count = recv(c->socket, c->got + c->length, ROOM - c->length, 0);
  size_t used = 0, reply;
  if (count <= 0)
    stop("recv");
  c->length += count;
  while (c->answered < depth &&
         (reply = reply_length(c->asked[c->answered], c->got + used, c->length - used))) {
    used += reply;
    c->answered++;
  }
  memmove(c->got, c->got + used, c->length - used);
  c->length -= used;
  if (c->answered < depth)
    return;
  size_t at = batches++;
  if (at >= MOST_BATCHES)
    stop("too many batches");
  micros[at] = microseconds() - c->began;
  ask(c);
}

static void *carry(void *count) {
  int poll = epoll_create1(0), own = *(int *)count;
  struct epoll_event ready[64];
  state[0] = (int *)count - connections;
  for (int at = 0; at < own; at++) {
    struct connection *c = calloc(1, sizeof *c);
    struct epoll_event wanted = {.events = EPOLLIN, .data.ptr = c};
    c->socket = connected(port);
    c->got = malloc(ROOM);
    epoll_ctl(poll, EPOLL_CTL_ADD, c->socket, &wanted);
    ask(c);
  }
  for (double end = microseconds() + seconds * 1e6; own && microseconds() < end;) {
    int found = epoll_wait(poll, ready, 64, 100);
    for (int at = 0; at < found; at++)
      take(ready[at].data.ptr);
  }
  return 0;
}

static int by_size(const void *a, const void *b) {
  uint32_t x = *(const uint32_t *)a, y = *(const uint32_t *)b;
  return (x > y) - (x < y);
}

int main(int count, char **words) {
  pthread_t threads[THREADS];
  if (count != 7)
    return 2;
  int all = atoi(words[2]);
  port = atoi(words[1]), depth = atoi(words[3]), seconds = atof(words[4]);
  keys = atoi(words[5]), body_length = atoi(words[6]);
  if (depth < 1 || depth > MOST_DEPTH || all < 1 || keys < 1 || depth * (body_length + 64) > ROOM)
    return 2;
  micros = malloc(MOST_BATCHES * sizeof *micros), body = malloc(body_length + 1);
  memset(body, 'x', body_length);
  body[body_length] = 0;
  for (int at = 0; at < THREADS; at++) {
    connections[at] = (all + THREADS - 1 - at) / THREADS;
    threads[at] = started(carry, &connections[at]);
  }
  for (int at = 0; at < THREADS; at++)
    pthread_join(threads[at], 0);
  if (!batches)
    return 1;
  qsort(micros, batches, sizeof *micros, by_size);
  printf("%.0f %u %u %zu\n", batches * depth / seconds, micros[batches / 2],
         micros[batches * 99 / 100], batches * depth);
}
