// What rounds of many clients cost without mcrace: the same requests by as many threads, which
// neither note nor judge.
//
// usage: stress_load PORT CLIENTS ROUNDS < REQUESTS
//
// A line of REQUESTS is a client's number, a blank and a request, in which | stands for the end of
// a line. In each round all clients meet at a barrier, and send their requests one after another,
// as replies come, over a connection that serves all rounds. It prints the requests a second.
#include "sockets.h"

enum { MOST_CLIENTS = 64, MOST_REQUESTS = 1100, LONGEST = 256 };

struct client {
  pthread_t thread;
  int connection, count;
  char requests[MOST_REQUESTS][LONGEST];
};

static struct client clients[MOST_CLIENTS];
static pthread_barrier_t meeting;
static int rounds;

static void read_requests(void) {
  char line[LONGEST];
  while (fgets(line, sizeof line, stdin)) {
    char *from;
    struct client *client = &clients[strtoul(line, &from, 10) % MOST_CLIENTS];
    if (client->count == MOST_REQUESTS || *from != ' ')
      stop("a request");
    char *to = client->requests[client->count++];
    for (from++; *from && *from != '\n' && to < client->requests[client->count] - 2; from++) {
      if (*from == '|')
        *to++ = '\r';
      *to++ = *from == '|' ? '\n' : *from;
    }
  }
}

// Takes a reply: a hit ends with END, every other one is a line.
static void hear(int from) {
  char reply[LONGEST];
  size_t got = 0;
  const char *end;
  do {
    ssize_t more = recv(from, reply + got, sizeof reply - 1 - got, 0);
    if (more <= 0)
      stop("recv");
    reply[got += more] = 0;
    end = reply[0] == 'V' ? "END\r\n" : "\r\n";
  } while (got < strlen(end) || strcmp(reply + got - strlen(end), end));
}

static void *play(void *given) {
  struct client *it = given;
  for (int round = 0; round < rounds; round++) {
    pthread_barrier_wait(&meeting);
    for (int at = 0; at < it->count; at++) {
      send_all(it->connection, it->requests[at], strlen(it->requests[at]));
      hear(it->connection);
    }
  }
  return 0;
}

int main(int count, char **words) {
  int port = count == 4 ? atoi(words[1]) : 0, wanted = count == 4 ? atoi(words[2]) : 0;
  double sent = 0;
  if (!port || wanted < 1 || wanted > MOST_CLIENTS || (rounds = atoi(words[3])) < 1)
    return 2;
  read_requests();
  pthread_barrier_init(&meeting, 0, wanted);
  double began = microseconds();
  for (int at = 0; at < wanted; at++) {
    clients[at].connection = connected(port);
    clients[at].thread = started(play, &clients[at]);
  }
  for (int at = 0; at < wanted; at++) {
    pthread_join(clients[at].thread, 0);
    sent += (double)rounds * clients[at].count;
  }
  printf("%.0f\n", sent * 1e6 / (microseconds() - began));
}
