// A proxy that copies bytes and does nothing else: what one costs at least.
//
// usage: copy_proxy PORT
//
// It listens on a free port of 127.0.0.1, which its first line says, connects to PORT for each
// connection that it accepts, and copies both ways, each by a thread of its own.
#include "sockets.h"

enum { PIECE = 16384 };

struct way {
  int from, to;
};

static void *copy(void *given) {
  struct way way = *(struct way *)given;
  char piece[PIECE];
  free(given);
  for (ssize_t got; (got = recv(way.from, piece, PIECE, 0)) > 0;)
    for (ssize_t sent, at = 0; at < got; at += sent)
      if ((sent = send(way.to, piece + at, got - at, MSG_NOSIGNAL)) <= 0)
        return 0;
  shutdown(way.to, SHUT_WR);
  return 0;
}

static void start_copy(int from, int to) {
  struct way *way = malloc(sizeof *way);
  *way = (struct way){from, to};
  pthread_detach(started(copy, way));
}

int main(int count, char **words) {
  struct sockaddr_in at = loopback(0);
  socklen_t size = sizeof at;
  int listener = socket(AF_INET, SOCK_STREAM | SOCK_CLOEXEC, 0);
  if (count != 2)
    return 2;
  if (bind(listener, (struct sockaddr *)&at, size) || listen(listener, 100) ||
      getsockname(listener, (struct sockaddr *)&at, &size))
    stop("a listener");
  printf("listening %d\n", ntohs(at.sin_port));
  fflush(stdout);
  for (;;) {
    int client = undelayed(accept(listener, 0, 0)), server = connected(atoi(words[1]));
    start_copy(client, server);
    start_copy(server, client);
  }
}
