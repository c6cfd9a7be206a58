// What the programs in C share: the clock, threads, and connections over 127.0.0.1.
#define _GNU_SOURCE
#include <arpa/inet.h>
#include <netinet/tcp.h>
#include <pthread.h>
#include <stdbool.h>
#include <stdio.h>
#include <stdlib.h>
#include <string.h>
#include <sys/socket.h>
#include <time.h>
#include <unistd.h>

// The sections of a run, in the order of their connections.
enum { P, A, B, SECTIONS };

static inline void stop(const char *what) {
  perror(what);
  exit(1);
}

static inline double microseconds(void) {
  struct timespec now;
  clock_gettime(CLOCK_MONOTONIC, &now);
  return now.tv_sec * 1e6 + now.tv_nsec / 1e3;
}

static inline pthread_t started(void *(*body)(void *), void *given) {
  pthread_t thread;
  if (pthread_create(&thread, 0, body, given))
    stop("pthread_create");
  return thread;
}

static inline struct sockaddr_in loopback(int port) {
  return (struct sockaddr_in){AF_INET, htons(port), {htonl(INADDR_LOOPBACK)}, {0}};
}

// A connection of which each write is sent at once.
static inline int undelayed(int connection) {
  int on = 1;
  if (connection < 0 || setsockopt(connection, IPPROTO_TCP, TCP_NODELAY, &on, sizeof on))
    stop("a connection");
  return connection;
}

static inline int connected(int port) {
  struct sockaddr_in to = loopback(port);
  int one = socket(AF_INET, SOCK_STREAM | SOCK_CLOEXEC, 0);
  if (one < 0 || connect(one, (struct sockaddr *)&to, sizeof to))
    stop("connect");
  return undelayed(one);
}

static inline void send_all(int to, const char *text, size_t size) {
  for (ssize_t sent; size; text += sent, size -= sent)
    if ((sent = send(to, text, size, MSG_NOSIGNAL)) <= 0)
      stop("send");
}
