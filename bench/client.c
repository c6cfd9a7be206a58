// What a run or a campaign costs without mcrace, and what it finds: the same bytes over three
// connections to 127.0.0.1, by threads that neither note nor judge.
//
// usage: client PORT WORKERS REPEATS [one] [thread] [meet] [spin] [keep] [quit] < JOBS
//
// A line of JOBS is a section's letter, a blank and a request, in which | stands for the end of a
// line and $ for the cas number that the section's reply before showed; the line `end` ends a job.
// Each worker takes one job after another, and plays it REPEATS times: P's requests go one after
// the other, then those of A, by a second thread, beside those of B. It prints the jobs a second,
// the microseconds of a job, and of these those of its connects. The words change that:
//
//   one      one thread writes a request of both branches before it reads either reply
//   thread   the second thread is started for each job; else it lives as long as the worker
//   meet     both branches wait for each other before their first requests, in a barrier
//   spin     where two threads wait for each other, the first one looks for a while, then sleeps
//   keep     a worker's connections serve all its jobs
//   quit     the server is asked to close the connections, and does so before they are closed here
#include "sockets.h"
#include <linux/futex.h>
#include <stdatomic.h>
#include <sys/syscall.h>

enum { MOST_JOBS = 10000, MOST_REQUESTS = 16, LONGEST = 256, MOST_WORKERS = 16 };
// The words of the command line, by their first letters.
enum { ONE = 'o', THREAD = 't', MEET = 'm', SPIN = 's', KEEP = 'k', QUIT = 'q', LETTERS = 128 };
// The microseconds for which who comes first looks for the other one.
static const double LOOKS = 100;

struct job {
  int counts[SECTIONS];
  char requests[SECTIONS][MOST_REQUESTS][LONGEST];
};

// Where two threads wait for each other; if they spin, how many have come, how often both had, and
// how many sleep.
struct place {
  pthread_barrier_t barrier;
  atomic_int come, round, asleep;
};

// A worker, the job that it plays, and the last reply to each section.
struct worker {
  pthread_t thread, second;
  // where both threads meet: before and after a job, and before their first requests
  struct place turn, meeting;
  const struct job *job;
  bool is_open;
  int connections[SECTIONS];
  char replies[SECTIONS][LONGEST];
  double connecting;
};

static struct job *jobs;
static int job_count, port, repeats;
static bool is_on[LETTERS];
static atomic_int next_job;

static void read_jobs(void) {
  char line[LONGEST];
  jobs = calloc(MOST_JOBS, sizeof *jobs);
  while (job_count < MOST_JOBS && fgets(line, sizeof line, stdin)) {
    struct job *job = &jobs[job_count];
    const char *sections = "PAB", *letter = strchr(sections, line[0]);
    if (!strcmp(line, "end\n")) {
      job_count++;
      continue;
    }
    int section = letter ? letter - sections : P;
    if (!letter || job->counts[section] == MOST_REQUESTS || strlen(line) > LONGEST / 2)
      stop("a request");
    char *to = job->requests[section][job->counts[section]++];
    for (const char *from = line + 2; *from && *from != '\n'; from++) {
      if (*from == '|')
        *to++ = '\r';
      *to++ = *from == '|' ? '\n' : *from;
    }
  }
}

static void wait_at(struct place *it) {
  int round = it->round;
  if (!is_on[SPIN]) {
    pthread_barrier_wait(&it->barrier);
  } else if (it->come++) {
    it->come = 0;
    it->round++;
    if (it->asleep)
      syscall(SYS_futex, &it->round, FUTEX_WAKE_PRIVATE, 1, 0, 0, 0);
  } else {
    for (double until = microseconds() + LOOKS; it->round == round && microseconds() < until;)
      ;
    it->asleep++;
    while (it->round == round)
      syscall(SYS_futex, &it->round, FUTEX_WAIT_PRIVATE, round, 0, 0, 0);
    it->asleep--;
  }
}

// Sends a request, with the number that the reply before showed.
static void ask(struct worker *it, int section, int at) {
  const char *pattern = it->job->requests[section][at];
  int before = strcspn(pattern, "$");
  char text[LONGEST], number[32] = "";
  const char *reply = it->replies[section];
  if (pattern[before] && sscanf(reply, "VALUE %*s %*s %*s %31[0-9]", number) != 1)
    stop("a cas number");
  const char *after = pattern + before + !!pattern[before];
  int size = snprintf(text, LONGEST, "%.*s%s%s", before, pattern, number, after);
  send_all(it->connections[section], text, size);
}

static void hear(struct worker *it, int section) {
  char *reply = it->replies[section];
  size_t got = 0, room = LONGEST - 1;
  const char *end;
  // a hit has three lines, every other reply one
  do {
    ssize_t more = recv(it->connections[section], reply + got, room - got, 0);
    if (more <= 0)
      stop("recv");
    reply[got += more] = 0;
    end = reply[0] == 'V' ? "END\r\n" : "\r\n";
  } while (got < strlen(end) || strcmp(reply + got - strlen(end), end));
}

static void play(struct worker *it, int section) {
  if (is_on[MEET] && section != P)
    wait_at(&it->meeting);
  for (int at = 0; at < it->job->counts[section]; at++) {
    ask(it, section, at);
    hear(it, section);
  }
}

// The requests of both branches, as pairs: both are sent before either reply is read.
static void play_pairs(struct worker *it) {
  for (int at = 0; at < MOST_REQUESTS; at++) {
    for (int section = A; section <= B; section++)
      if (at < it->job->counts[section])
        ask(it, section, at);
    for (int section = A; section <= B; section++)
      if (at < it->job->counts[section])
        hear(it, section);
  }
}

static void *play_a(void *worker) {
  play(worker, A);
  return 0;
}

// The second thread of a worker, until it is given no job.
static void *serve_worker(void *worker) {
  struct worker *it = worker;
  while (wait_at(&it->turn), it->job) {
    play(it, A);
    wait_at(&it->turn);
  }
  return 0;
}

static void play_branches(struct worker *it) {
  if (is_on[ONE]) {
    play_pairs(it);
  } else if (is_on[THREAD]) {
    pthread_t of_a = started(play_a, it);
    play(it, B);
    pthread_join(of_a, 0);
  } else {
    wait_at(&it->turn);
    play(it, B);
    wait_at(&it->turn);
  }
}

static void open_all(struct worker *it) {
  double began = microseconds();
  for (int section = P; section < SECTIONS; section++)
    it->connections[section] = connected(port);
  it->connecting += microseconds() - began;
}

static void close_all(struct worker *it) {
  char more[LONGEST];
  for (int section = P; is_on[QUIT] && section < SECTIONS; section++)
    send_all(it->connections[section], "quit\r\n", 6);
  for (int section = P; section < SECTIONS; section++) {
    while (is_on[QUIT] && recv(it->connections[section], more, sizeof more, 0) > 0)
      ;
    close(it->connections[section]);
  }
}

static void play_job(struct worker *it) {
  if (!it->is_open)
    open_all(it);
  it->is_open = is_on[KEEP];
  play(it, P);
  play_branches(it);
  if (!it->is_open)
    close_all(it);
}

static void *work(void *worker) {
  struct worker *it = worker;
  pthread_barrier_init(&it->turn.barrier, 0, 2);
  pthread_barrier_init(&it->meeting.barrier, 0, 2);
  it->second = started(serve_worker, it);
  for (int number; (number = atomic_fetch_add(&next_job, 1)) < job_count;)
    for (int repeat = 0; repeat < repeats; repeat++) {
      it->job = &jobs[number];
      play_job(it);
    }
  if (it->is_open)
    close_all(it);
  it->job = 0;
  wait_at(&it->turn);
  pthread_join(it->second, 0);
  return 0;
}

int main(int count, char **words) {
  static struct worker workers[MOST_WORKERS];
  double connecting = 0;
  if (count < 4)
    return 2;
  port = atoi(words[1]), repeats = atoi(words[3]);
  int wanted = atoi(words[2]);
  for (int at = 4; at < count; at++)
    is_on[*words[at] % LETTERS] = true;
  if (!port || wanted < 1 || wanted > MOST_WORKERS || repeats < 1)
    return 2;
  read_jobs();
  double began = microseconds();
  for (int at = 0; at < wanted; at++)
    workers[at].thread = started(work, &workers[at]);
  for (int at = 0; at < wanted; at++) {
    pthread_join(workers[at].thread, 0);
    connecting += workers[at].connecting;
  }
  double took = microseconds() - began, played = (double)job_count * repeats;
  printf("%.1f %.2f %.2f\n", played * 1e6 / took, took / played, connecting / played);
}
