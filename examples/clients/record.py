"""Notes what calls of a memcached client begin and answer, as a history for `mcrace judge`.

    history = record.play(["a"], client_of, first, both, both)
    status, verdict = history.judge()

`client_of(section)` makes or shares a client for P, A or B; its calls answer as pymemcache's do.
`first` is called with P's client, and then `both` with A's and B's at once, each in a thread. The
keys must be new: the history says that a delete found none. Bodies are bytes, so flags are 0.
"""

import functools
import subprocess
import threading

STORES = ("set", "add", "replace", "append", "prepend")


def body_word(body):
    """The body as a history has it."""
    plain = (chr(it) if 33 <= it <= 126 and it != 37 else f"%{it:02x}" for it in body)
    return "=" + "".join(plain)


def request_words(verb, key, *given):
    """What a history has for a call."""
    if verb in STORES:
        return f"{verb} {key} 0 {body_word(given[0])}"
    if verb == "cas":
        return f"cas {key} 0 {body_word(given[0])} {int(given[1])}"
    return " ".join([verb, key, *map(str, given)]) if verb in ("incr", "decr") else f"{verb} {key}"


def reply_words(verb, answer):
    """What a history has for what the call answered."""
    if verb in STORES:
        return "STORED" if answer else "NOT_STORED"
    if verb == "cas":
        return "NOT_FOUND" if answer is None else "STORED" if answer else "EXISTS"
    if verb in ("delete", "touch"):
        return {"delete": "DELETED", "touch": "TOUCHED"}[verb] if answer else "NOT_FOUND"
    if verb in ("incr", "decr"):
        return "NOT_FOUND" if answer is None else f"NUMBER {int(answer)}"
    if verb == "gets":
        body, number = answer
        return "MISS" if body is None else f"HIT 0 {body_word(body)} {int(number)}"
    return "MISS" if answer is None else f"HIT 0 {body_word(answer)}"


class Calls:
    """A client whose calls are noted for a section. It has memcached's twelve verbs."""

    def __init__(self, history, section, client):
        self.history, self.section, self.client, self.is_over = history, section, client, False

    def __getattr__(self, verb):
        if verb not in (*STORES, "cas", "get", "gets", "incr", "decr", "delete", "touch"):
            raise AttributeError(verb)
        return functools.partial(self.call, verb)

    def call(self, verb, key, *given):
        """Only the last call of a section may have no answer: what raises ends the section."""
        if self.is_over:
            raise RuntimeError(f"{self.section} is over since a call of it raised")
        self.is_over = True
        self.history.note(f"{self.section} begin {request_words(verb, key, *given)}")
        answer = getattr(self.client, verb)(key, *given)
        self.history.note(f"{self.section} reply {reply_words(verb, answer)}")
        self.is_over = False
        return answer


class History:
    """What was noted, in the order in which it happened; and what calls raised, by section."""

    def __init__(self, keys):
        self.lines, self.raised = ["history 2"], {}
        # An append to a list is atomic.
        self.note = self.lines.append
        for key in keys:
            self.lines += [f"P begin delete {key}", "P reply NOT_FOUND"]

    def __str__(self):
        return "\n".join([*self.lines, "end", ""])

    def judge(self, program="mcrace"):
        """The status of `mcrace judge --why` and its output."""
        words = [program, "judge", "--why"]
        ran = subprocess.run(words, input=str(self), capture_output=True, text=True, check=False)
        return ran.returncode, ran.stdout


def play(keys, client_of, first, *branches):
    """The history of `first`, and then of the branches A and B at once."""
    history, barrier = History(keys), threading.Barrier(len(branches))
    first(Calls(history, "P", client_of("P")))

    def run(section, branch):
        calls = Calls(history, section, client_of(section))
        barrier.wait()
        try:
            branch(calls)
        except Exception as raised:
            history.raised[section] = raised

    threads = [threading.Thread(target=run, args=it) for it in zip("AB", branches)]
    for thread in threads:
        thread.start()
    for thread in threads:
        thread.join()
    return history
