// Loaded before the C library, it has two modes, which may be used together.
//
// Refusal: with FAIL_ALLOCATION=N the Nth allocation of the program fails, counted from 1 over all
// threads, and with N+ all from there on. At the end the number of those that were asked for is
// written to the file that COUNT_ALLOCATIONS names. The C library allocates by these functions too:
// it takes a calloc for a thread, and where that fails it wants to find ENOMEM.
//
// Watching: what the two branches of a run allocate, free, send and receive is noted in one order
// over both threads, and written to the file that ALLOCATIONS_SEEN names: lines of a thread, what
// it did, and a number. Thread 0 is the program's own, thread 1 the one that it makes. With
// HOLD_THREAD=T, HOLD_REQUEST=K and HOLD_CALL=N, thread T is held at its Nth call that allocates or
// frees after the reply before its Kth request (for its first request: after the prologue, which is
// the first connection, with PROLOGUE_REPLIES replies). It goes on once the other thread has
// received a reply and sent its next request, or after HOLD_MILLISECONDS; until it is held, the
// other thread gets no reply.
//
// A program with threads ends by _exit, at which no destructor runs.
typedef __SIZE_TYPE__ size_t;
typedef __PTRDIFF_TYPE__ ssize_t;

extern void *__libc_malloc(size_t);
extern void *__libc_calloc(size_t, size_t);
extern void *__libc_realloc(void *, size_t);
extern void __libc_free(void *);
extern ssize_t recvfrom(int, void *, size_t, int, void *, void *);
extern ssize_t sendto(int, const void *, size_t, int, const void *, unsigned);
extern int __connect(int, const void *, unsigned);
extern char *getenv(const char *);
extern int *__errno_location(void);
extern int atoi(const char *);
extern int open(const char *, int, ...);
extern int dprintf(int, const char *, ...);
extern int usleep(unsigned);
extern __attribute__((noreturn)) void _Exit(int);

enum { FOR_WRITING = 1, NO_MEMORY = 12, NOTES = 4096, THREADS = 2, TURN = 100, GATE_TURNS = 20000 };

static struct note {
  int thread;
  const char *done;
  long number;
} notes[NOTES];

static _Atomic long allocations;
static _Atomic int noted, threads, prologue = -1, prologue_replies;

// Of each thread: requests sent, replies received, and calls since its last reply.
static _Atomic int sent[THREADS], received[THREADS], calls[THREADS];

// Whether the held thread came to its call, or past it.
static _Atomic int reached;

static _Thread_local int own __attribute__((tls_model("initial-exec"))) = -1;

static int asked(const char *name) {
  const char *text = getenv(name);
  return text ? atoi(text) : -1;
}

static int fails(void) {
  const char *text = getenv("FAIL_ALLOCATION");
  long number = 0, it = ++allocations;
  for (; text && '0' <= *text && *text <= '9'; text++)
    number = number * 10 + (*text - '0');
  if (!text || (*text == '+' ? it < number : it != number))
    return 0;
  *__errno_location() = NO_MEMORY;
  return 1;
}

static int thread(void) { return own < 0 ? own = threads++ : own; }

static int is_branch(void) {
  return asked("PROLOGUE_REPLIES") >= 0 && thread() < THREADS &&
         prologue_replies >= asked("PROLOGUE_REPLIES");
}

static void note(const char *done, long number) {
  int at = noted++;
  if (at < NOTES)
    notes[at] = (struct note){thread(), done, number};
}

static void hold(void) {
  int other = 1 - thread(), requests = received[other] + 2;
  int turns = asked("HOLD_MILLISECONDS") * 1000 / TURN;
  note("held", 0);
  reached = 1;
  for (int turn = 0; turn < turns && sent[other] < requests; turn++)
    usleep(TURN);
  note("released", 0);
}

static void call(const char *done, long number) {
  if (!is_branch())
    return;
  note(done, number);
  if (sent[thread()] > received[thread()])
    return;
  calls[thread()]++;
  if (thread() == asked("HOLD_THREAD") && sent[thread()] == asked("HOLD_REQUEST") - 1 &&
      calls[thread()] == asked("HOLD_CALL"))
    hold();
}

void *malloc(size_t size) {
  call("malloc", size);
  return fails() ? 0 : __libc_malloc(size);
}

void *calloc(size_t count, size_t size) {
  call("calloc", count * size);
  return fails() ? 0 : __libc_calloc(count, size);
}

void *realloc(void *block, size_t size) {
  call("realloc", size);
  return fails() ? 0 : __libc_realloc(block, size);
}

void free(void *block) {
  if (block)
    call("free", 0);
  __libc_free(block);
}

int connect(int socket, const void *address, unsigned length) {
  note("connect", socket);
  if (prologue < 0)
    prologue = socket;
  return __connect(socket, address, length);
}

ssize_t send(int socket, const void *bytes, size_t count, int flags) {
  if (is_branch()) {
    note("send", socket);
    sent[thread()]++;
    if (thread() == asked("HOLD_THREAD") && sent[thread()] >= asked("HOLD_REQUEST"))
      reached = 1;
  }
  return sendto(socket, bytes, count, flags, 0, 0);
}

ssize_t recv(int socket, void *bytes, size_t count, int flags) {
  ssize_t came = recvfrom(socket, bytes, count, flags, 0, 0);
  if (socket == prologue) {
    calls[thread() % THREADS] = 0;
    prologue_replies++;
  } else if (is_branch()) {
    if (asked("HOLD_THREAD") == 1 - thread())
      for (int turn = 0; turn < GATE_TURNS && !reached; turn++)
        usleep(TURN);
    note("receive", socket);
    calls[thread()] = 0;
    received[thread()]++;
  }
  return came;
}

__attribute__((destructor)) static void tell(void) {
  const char *count = getenv("COUNT_ALLOCATIONS"), *seen = getenv("ALLOCATIONS_SEEN");
  int file = seen ? open(seen, FOR_WRITING) : -1;
  if (count)
    dprintf(open(count, FOR_WRITING), "%ld\n", (long)allocations);
  for (int at = 0; file >= 0 && at < noted && at < NOTES; at++)
    dprintf(file, "%d %s %ld\n", notes[at].thread, notes[at].done, notes[at].number);
}

__attribute__((noreturn)) void _exit(int status) {
  tell();
  _Exit(status);
}
