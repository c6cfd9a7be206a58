// A cache server that is right but for one bug, to try scripts and testers on.
//
// usage: faulty_server --bug NAME [--window MICROS] [--delay MICROS] [--port PORT] [--report WHAT]
//
// Its bugs are these; `none` is a right server. A command that races looks at the item, and acts
// MICROS later (5 by itself) on what it saw, whatever another connection did meanwhile; with a
// delay it waits so long before it looks. It sleeps if either is over 250, so that others can act
// in the window on one processor too; a sleep of less would take longer than it should.
//
//   lost-increment lost-decrement  two commands act on one number (a decrement undoes an incr)
//   lost-append lost-prepend       two commands act on one body
//   cas-two-winners                a cas number wins twice
//   add-twice delete-twice         a key is added, or an item deleted, twice
//   replace-after-delete           a replace stores though the item was deleted meanwhile
//   touch-undoes                   a touch writes back the item that it looked at
//   torn-gets                      a gets shows the body it looked at with a later cas unique
//   add-over-set                   an add stores over a set that came meanwhile, and over no other
//   stale-get                      a set over an item is answered before it takes effect
//   torn-body torn-flags           a set over an item first writes half of the body, or the flags
//   lost-flags                     an append stores the flags of its own line, in no race
//   number-again                   cas uniques of a new item begin again at 1, in no race
//   increment-again                an incr acts once more if another connection wrote meanwhile
//
// It listens on this port of 127.0.0.1, or on a free one, which it prints. It serves 64 connections
// at once, until it is killed. With `--report` it reads standard input instead, and ends with it:
// a line asks for a report, while nobody is connected, after which nothing is kept. WHAT is `runs`
// if a run is three connections, that of P first, then A's, then B's, and nothing is kept from one
// for the next; or `all` if all connections since the last report are one run. A report is a line
// of numbers for each run, and then `end`: whether the first request of A came before that of B;
// whether each came before the reply to the other one had been sent; how often the race happened,
// which the replies then show; and how many microseconds after STORED of a late set the last get
// came that showed the old value, or nan.
#include "../bench/sockets.h"
#include <errno.h>
#include <getopt.h>
#include <inttypes.h>
#include <math.h>
#include <search.h>
#include <stdatomic.h>

enum { MOST_RUNS = 100000, MOST_KEYS = 1 << 20, THREADS = 64 };
// The most microseconds of a window or a delay for which nothing sleeps.
enum { SPUN = 250 };
enum { LONGEST = 4096, KEY = 64, BODY = 2048 };
// The commands, those that store a body first.
enum { SET, ADD, REPLACE, CAS, APPEND, PREPEND, INCR, DECR, DELETE, TOUCH, GET, GETS, COMMANDS };

static const char *const VERBS[COMMANDS] = {"set",  "add",  "replace", "cas",   "append", "prepend",
                                            "incr", "decr", "delete",  "touch", "get",    "gets"};

// An item, and the verb that stored it last.
struct item {
  char body[BODY];
  bool there;
  unsigned flags;
  uint64_t version;
  int verb;
};

// A request; `verb` is COMMANDS if it is none of them.
struct request {
  int verb;
  char key[KEY];
  unsigned flags;
  size_t size;
  uint64_t number;
  const char *body;
  double came;
};

// When a request came, and when its reply had been sent.
struct visit {
  double came, left;
};

struct run {
  struct visit first[SECTIONS];
  double stored, last_old;
  int shown;
  bool effective;
};

// A connection, the run that it belongs to, and its first visit.
struct talk {
  int connection;
  struct run *run;
  struct visit first;
  size_t got;
  char text[LONGEST + 1];
};

// The bugs that aren't the window alone, after those that are.
enum { OVER = 10, STALE, TORN, TORN_FLAGS, FLAGS, NUMBER, AGAIN, NONE };

// The bugs, and the commands that race by them, if any does.
static const struct { const char *name; int verb; } BUGS[] = {
    {"lost-increment", INCR}, {"lost-decrement", DECR}, {"lost-append", APPEND},
    {"lost-prepend", PREPEND}, {"cas-two-winners", CAS}, {"add-twice", ADD},
    {"delete-twice", DELETE}, {"replace-after-delete", REPLACE}, {"touch-undoes", TOUCH},
    {"torn-gets", GETS}, [OVER] = {"add-over-set", ADD},
    [STALE] = {"stale-get", COMMANDS}, [TORN] = {"torn-body", COMMANDS},
    [TORN_FLAGS] = {"torn-flags", COMMANDS}, [FLAGS] = {"lost-flags", COMMANDS},
    [NUMBER] = {"number-again", COMMANDS}, [AGAIN] = {"increment-again", COMMANDS},
    [NONE] = {"none", COMMANDS}};

static int bug = -1;
static double window = 5, delay;
static int listener, port, taken;
static bool is_shared = true, reports;
static struct run runs[MOST_RUNS];
static atomic_int open_connections;
// Who looks at the cache or at a run locks the first, and who takes a connection the second.
static pthread_mutex_t lock = PTHREAD_MUTEX_INITIALIZER, taking = PTHREAD_MUTEX_INITIALIZER;

static void wait_until(double time) {
  double left = time - microseconds();
  if (left > SPUN)
    usleep(left);
  while (microseconds() < time)
    ;
}

// The items by key. What is forgotten isn't freed, since a run has a key or two.
static struct hsearch_data items;
static uint64_t last_version;

static void forget(void) {
  hdestroy_r(&items);
  items = (struct hsearch_data){0};
  if (!hcreate_r(MOST_KEYS, &items))
    stop("hcreate_r");
}

// The key's item, or a new one.
static struct item *item_of(const char *key) {
  ENTRY *found, wanted = {.key = (char *)key};
  if (hsearch_r(wanted, FIND, &found, &items))
    return found->data;
  wanted = (ENTRY){strdup(key), calloc(1, sizeof(struct item))};
  if (!hsearch_r(wanted, ENTER, &found, &items))
    stop("a key too many");
  return found->data;
}

static bool is_joining(int verb) {
  return verb == APPEND || verb == PREPEND;
}

static bool is_number(const char *body) {
  size_t digits = strspn(body, "0123456789");
  errno = 0;
  strtoull(body, 0, 10);
  return digits && digits <= 20 && !body[digits] && errno != ERANGE;
}

// The reply of a command that writes nothing, with this item there; null if it reads or writes.
static const char *refusal(const struct item *at, const struct request *request) {
  int verb = request->verb;
  if (verb == ADD ? at->there : (verb == REPLACE || is_joining(verb)) && !at->there)
    return "NOT_STORED\r\n";
  if (verb >= CAS && verb <= TOUCH && !at->there)
    return "NOT_FOUND\r\n";
  if (verb == CAS && at->version != request->number)
    return "EXISTS\r\n";
  if ((verb == INCR || verb == DECR) && !is_number(at->body))
    return "CLIENT_ERROR cannot increment or decrement non-numeric value\r\n";
  if (verb <= PREPEND && (is_joining(verb) ? strlen(at->body) : 0) + request->size >= BODY)
    return "SERVER_ERROR object too large for cache\r\n";
  return verb == COMMANDS ? "ERROR\r\n" : 0;
}

// Puts what a command that stores has brought into the item.
static void fill(struct item *item, const struct request *request) {
  char old[BODY] = "";
  if (request->verb == PREPEND) {
    strcpy(old, item->body);
    item->body[0] = 0;
  } else if (request->verb != APPEND) {
    *item = (struct item){.there = true, .flags = request->flags};
  }
  strncat(item->body, request->body, request->size);
  strcat(item->body, old);
}

// Makes the item of what was there, and answers the reply, which may stand in the room.
static const char *written(struct item *item, const struct request *request, char *room) {
  uint64_t number = strtoull(item->body, 0, 10), by = request->number;
  if (request->verb == DELETE) {
    *item = (struct item){0};
    return "DELETED\r\n";
  }
  if (request->verb == TOUCH)
    return "TOUCHED\r\n";
  if (request->verb <= PREPEND) {
    fill(item, request);
    return "STORED\r\n";
  }
  number = request->verb == INCR ? number + by : number - (number < by ? number : by);
  snprintf(item->body, BODY, "%" PRIu64, number);
  snprintf(room, LONGEST, "%" PRIu64 "\r\n", number);
  return room;
}

static const char *get(const struct item *at, const struct request *request, char *room) {
  char unique[32] = "";
  if (!at->there)
    return "END\r\n";
  if (request->verb == GETS)
    snprintf(unique, sizeof unique, " %" PRIu64, at->version);
  snprintf(room, LONGEST, "VALUE %s %u %zu%s\r\n%s\r\nEND\r\n", request->key, at->flags,
           strlen(at->body), unique, at->body);
  return room;
}

// Unlocks the cache for the window, and answers whether another connection wrote to the item.
static bool is_changed(const struct item *at) {
  uint64_t version = at->version;
  pthread_mutex_unlock(&lock);
  wait_until(microseconds() + window);
  pthread_mutex_lock(&lock);
  return at->version != version;
}

// Stores the item of what was there, and answers the reply. A touch makes no version.
static const char *store(struct item *at, struct item item, const struct request *request,
                         char *room) {
  const char *reply = written(&item, request, room);
  if (request->verb != TOUCH) {
    item.version = bug != NUMBER ? ++last_version : at->there ? at->version + 1 : 1;
    item.verb = request->verb;
  }
  *at = item;
  return reply;
}

// A set over an item writes half of it, if sets are torn, and gives others the window.
static void tear(struct item *at, const struct request *request) {
  if (request->verb != SET || !at->there || (bug != TORN && bug != TORN_FLAGS))
    return;
  if (bug == TORN)
    memcpy(at->body, request->body, request->size / 2);
  else
    at->flags = request->flags;
  is_changed(at);
}

// Does what is asked, and answers the reply. The command that races gives others the window between
// its look at the item and its write, or between two looks, and notes if one wrote.
static const char *act(const struct request *request, char *room, int *raced) {
  struct item *at = item_of(request->key), item = *at;
  const char *refused = refusal(at, request), *reply;
  if (refused)
    return refused;
  if (request->verb == BUGS[bug].verb)
    *raced += is_changed(at);
  if (request->verb >= GET) {
    // only in the window of a torn gets another version may have come
    item.version = at->version;
    return get(&item, request, room);
  }
  if (bug == OVER && request->verb == ADD && at->there && at->verb != SET)
    return "NOT_STORED\r\n";
  tear(at, request);
  if (bug == FLAGS && request->verb == APPEND)
    item.flags = request->flags;
  reply = store(at, item, request, room);
  if (bug == AGAIN && request->verb == INCR && is_changed(at))
    reply = store(at, *at, request, room);
  return reply;
}

static int command_of(const char *verb) {
  int command = 0;
  while (command < COMMANDS && strcmp(verb, VERBS[command]))
    command++;
  return command;
}

// Reads the request that the text begins with, and answers whether it has come whole.
static bool understood(const char *text, size_t got, struct request *request) {
  const char *end = strstr(text, "\r\n");
  size_t line = end ? end + 2 - text : 0;
  char verb[16];
  *request = (struct request){.body = text + line, .came = microseconds()};
  if (!end || sscanf(text, "%15s %63s %" SCNu64, verb, request->key, &request->number) < 2)
    return false;
  if ((request->verb = command_of(verb)) > PREPEND)
    return true;
  if (sscanf(text, "%*s %*s %u %*s %zu %" SCNu64, &request->flags, &request->size,
             &request->number) < 2 || request->size >= BODY)
    stop("a request that stores");
  return got >= line + request->size + 2;
}

static void say(struct talk *talk, const char *reply) {
  // a client that has gone needs no reply
  send(talk->connection, reply, strlen(reply), MSG_NOSIGNAL);
  if (!talk->first.left)
    talk->first.left = microseconds();
}

// Answers a set before it takes effect, if it is over an item and sets are late.
static bool said_early(struct talk *talk, const struct request *request) {
  pthread_mutex_lock(&lock);
  bool early = bug == STALE && request->verb == SET && item_of(request->key)->there;
  pthread_mutex_unlock(&lock);
  if (early) {
    say(talk, "STORED\r\n");
    talk->run->stored = microseconds();
    wait_until(talk->run->stored + window);
  }
  return early;
}

static void answer(struct talk *talk, const struct request *request) {
  char room[LONGEST];
  bool early = said_early(talk, request);
  if (request->verb == BUGS[bug].verb)
    wait_until(request->came + delay);
  pthread_mutex_lock(&lock);
  const char *made = act(request, room, &talk->run->shown);
  talk->run->effective |= early;
  if (made[0] == 'V' && !talk->run->effective)
    talk->run->last_old = request->came;
  pthread_mutex_unlock(&lock);
  if (!early)
    say(talk, made);
}

static void converse(struct talk *talk) {
  struct request request;
  ssize_t more;
  while ((more = recv(talk->connection, talk->text + talk->got, LONGEST - talk->got, 0)) > 0) {
    talk->got += more;
    talk->text[talk->got] = 0;
    if (!strcmp(talk->text, "quit\r\n"))
      break;
    // a client waits for each reply, so that nothing follows a request
    if (!understood(talk->text, talk->got, &request))
      continue;
    if (!talk->first.came)
      talk->first.came = request.came;
    talk->got = 0;
    answer(talk, &request);
  }
  close(talk->connection);
}

static void wait_until_open(int connections) {
  while (open_connections != connections)
    usleep(20);
}

// Takes a connection, and answers how many were taken before it; 0 if all share a run.
static int take(struct talk *talk) {
  pthread_mutex_lock(&taking);
  talk->connection = undelayed(accept4(listener, 0, 0, SOCK_CLOEXEC));
  open_connections++;
  int number = is_shared ? 0 : taken++;
  if (number == MOST_RUNS * SECTIONS)
    stop("a run too many");
  // what the run before did late is over before this one begins
  if (!is_shared && number % SECTIONS == P) {
    wait_until_open(1);
    forget();
  }
  pthread_mutex_unlock(&taking);
  return number;
}

// Serves one connection after another: a thread that is there answers a first request at once.
static void *serve(void *unused) {
  for (;;) {
    struct talk talk = {0};
    int number = take(&talk), section = number % SECTIONS;
    talk.run = &runs[number / SECTIONS];
    converse(&talk);
    if (section != P)
      talk.run->first[section] = talk.first;
    open_connections--;
  }
  return unused;
}

static void report(void) {
  int count = is_shared ? 1 : (taken + SECTIONS - 1) / SECTIONS;
  for (const struct run *run = runs; run < runs + count; run++) {
    struct visit a = run->first[A], b = run->first[B];
    double late = run->last_old && run->stored ? run->last_old - run->stored : NAN;
    printf("%d %d %d %.1f\n", a.came && a.came < b.came, a.came < b.left && b.came < a.left,
           run->shown + (late > 0), late);
  }
  memset(runs, 0, sizeof *runs * count);
  taken = 0;
  forget();
}

static void listen_somewhere(void) {
  struct sockaddr_in address = loopback(port);
  socklen_t size = sizeof address;
  int on = 1;
  listener = socket(AF_INET, SOCK_STREAM | SOCK_CLOEXEC, 0);
  setsockopt(listener, SOL_SOCKET, SO_REUSEADDR, &on, sizeof on);
  if (listener < 0 || bind(listener, (struct sockaddr *)&address, size) || listen(listener, 64) ||
      getsockname(listener, (struct sockaddr *)&address, &size))
    stop("listen");
  printf("listening %d\n", ntohs(address.sin_port));
  fflush(stdout);
}

static void read_options(int count, char **words) {
  static const struct option NAMES[] = {{"bug", 1, 0, 'b'},   {"window", 1, 0, 'w'},
                                        {"delay", 1, 0, 'd'}, {"port", 1, 0, 'p'},
                                        {"report", 1, 0, 'r'}, {0}};
  for (int found; (found = getopt_long(count, words, "", NAMES, 0)) != -1;) {
    if (found == 'b')
      for (bug = NONE; bug >= 0 && strcmp(optarg, BUGS[bug].name);)
        bug--;
    else if (found == 'w')
      window = atof(optarg);
    else if (found == 'd')
      delay = atof(optarg);
    else if (found == 'p')
      port = atoi(optarg);
    else if (found == 'r' && (!strcmp(optarg, "runs") || !strcmp(optarg, "all")))
      reports = true, is_shared = *optarg == 'a';
    else
      exit(2);
  }
  if (optind == count && bug >= 0)
    return;
  for (bug = 0; bug <= NONE; bug++)
    fprintf(stderr, "%s %s", bug ? "" : "faulty_server: --bug is one of", BUGS[bug].name);
  exit(2);
}

int main(int count, char **words) {
  char line[64];
  read_options(count, words);
  forget();
  listen_somewhere();
  for (int thread = 0; thread < THREADS; thread++)
    started(serve, 0);
  while (!reports)
    pause();
  while (fgets(line, sizeof line, stdin)) {
    wait_until_open(0);
    report();
    // only now, since the next run may begin as soon as this is read
    puts("end");
    fflush(stdout);
  }
}
