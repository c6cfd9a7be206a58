"""What the comparisons share: code and its image, requests and replies as words, and a cache.

It is written from docs/FORMATS.md and memcached's protocol, and shares no code with the program.
"""

import collections
import io
import itertools
import struct
import urllib.parse

VERBS = "set add replace append prepend cas get gets incr decr delete touch".split()
STORES = VERBS[:6]
CLASSES = "stored notstored exists notfound hit miss deleted touched number notnumber".split()
SECTIONS = "PAB"
NO_ENTRY = 255
GREATEST = 2**64 - 1
MASKS = "require_set require_clear sets clears".split()
Template = collections.namedtuple(
    "Template", ["verb", "key", "flags", "number", "variable", "body", *MASKS],
    defaults=(0, None, None, "", 0, 0, 0, 0))
Code = collections.namedtuple("Code", "keys flags vars budgets templates sections")
Send = collections.namedtuple("Send", "template next")
Bind = collections.namedtuple("Bind", "variable")
Goto = collections.namedtuple("Goto", "place")
Halt = collections.namedtuple("Halt", "")


def legal(verb):
    """The classes of the replies that the protocol has for the verb."""
    if verb in STORES:
        return "stored notstored exists notfound".split()
    if verb in ("get", "gets"):
        return ["hit", "miss"]
    if verb in ("incr", "decr"):
        return ["number", "notfound", "notnumber"]
    return ["deleted" if verb == "delete" else "touched", "notfound"]


def send(templates, at, place_of):
    """The request of this template, which goes to the place of each class of its replies."""
    may = legal(templates[at].verb)
    return Send(at, [place_of(name) if name in may else NO_ENTRY for name in CLASSES])


def sent_in_turn(templates, *requests):
    """A section that sends these templates one after another, whatever is answered."""
    its = enumerate(requests, 1)
    return [*(send(templates, it, lambda _, after=after: after) for after, it in its), Halt()]


def request_text(code, template):
    """The request's text, with the longest number that it may have."""
    number = template.number
    if number is None:
        number = "" if template.variable is None else GREATEST
    head = f"{template.verb} {code.keys[template.key]}"
    if template.verb in STORES:
        end = f" {number}" if template.verb == "cas" else ""
        return f"{head} {template.flags} 0 {len(template.body)}{end}\r\n{template.body}\r\n"
    if template.verb in ("incr", "decr"):
        return f"{head} {number}\r\n"
    return f"{head} 0\r\n" if template.verb == "touch" else f"{head}\r\n"


class Image:
    """Bytes that are given, or are written. A method answers what it read, or wrote of its own."""

    def __init__(self, version, given=None):
        self.stream, self.is_read = io.BytesIO(given), given is not None
        self.version, self.masks = version, ">4Q" if version == b"MCR2" else ">4I"

    def numbers(self, form, its=()):
        if self.is_read:
            return struct.unpack(form, self.stream.read(struct.calcsize(form)))
        self.stream.write(struct.pack(form, *its))
        return its

    def number(self, it=0):
        return self.numbers("B", (it,))[0]

    def many(self, each, its=()):
        count = self.number(len(its))
        return [each() for _ in range(count)] if self.is_read else [each(it) for it in its]

    def text(self, it=""):
        size = self.number(len(it))
        return self.numbers(f"{size}s", (it.encode(),))[0].decode()

    def template(self, it=Template("set", 0)):
        kind = 2 if it.variable is not None else 0 if it.number is None else 1
        argument = (it.variable if kind == 2 else it.number) or 0
        its = VERBS.index(it.verb), it.key, it.flags, kind, argument
        verb, key, flags, kind, argument = self.numbers(">BBIBQ", its)
        given = (argument if kind == it else None for it in (1, 2))
        body, masks = self.text(it.body), self.numbers(self.masks, it[-len(MASKS) :])
        return Template(VERBS[verb], key, flags, *given, body, *masks)

    def instruction(self, it=Halt()):
        sizes = {Send: 1 + len(CLASSES), Bind: 1, Goto: 1, Halt: 0}
        kinds = list(sizes)
        kind = kinds[self.number(kinds.index(type(it)))]
        its = (it.template, *it.next) if isinstance(it, Send) else it
        its = self.numbers(f"{sizes[kind]}B", its)
        return Send(its[0], list(its[1:])) if kind is Send else kind(*its)

    def code(self, it=Code((), 0, 0, 3 * [()], (), 3 * [()])):
        names = self.many(self.text, it.keys), self.number(it.flags), self.number(it.vars)
        budgets = [self.numbers(">BH", its) for its in it.budgets]
        templates = self.many(self.template, it.templates)
        sections = [self.many(self.instruction, its) for its in it.sections]
        return Code(*names, budgets, templates, sections)


def image_of(code):
    """The code's image in version 1, or in version 2 if it is too large for that."""
    is_large = code.flags > 32 or max(map(len, code.sections)) > 64
    image = Image(b"MCR2" if is_large else b"MCR1")
    image.code(code)
    return image.version + image.stream.getvalue()


def code_of(image):
    """The code whose image this is."""
    return Image(image[:4], image[4:]).code()


# Requests and replies are tuples of words, bodies are bytes. An item is its flags, body and number.


def body_word(body):
    return "=" + "".join(chr(it) if 33 <= it <= 126 and it != 37 else f"%{it:02x}" for it in body)


def body_of(word):
    """The body that a word stands for."""
    return urllib.parse.unquote_to_bytes(word.removeprefix("="))


def words_of(words):
    return " ".join(body_word(it) if isinstance(it, bytes) else str(it) for it in words)


def words_in(text):
    """The words of a request or a reply that this text has."""
    return tuple(body_of(it) if it[0] == "=" else int(it) if it.isdigit() else it
                 for it in text.split())


def history_text(lines, version=1):
    return "\n".join([f"history {version}", *lines, "end\n"]).encode()


def line_of(actor, request, reply):
    """A line of a `history 1`; the reply is None if it never came."""
    return f"{actor} {words_of(request)} -> {words_of(reply) if reply else '?'}"


def outcomes(request, item, number):
    """The answers that a server may give, each with what the key then holds. A new item has this
    number."""
    verb, _, *fields = request
    if verb in STORES:
        return [stored(verb, item, number, *fields)]
    if verb in ("get", "gets"):
        return [(("HIT", *item[: 3 if verb == "gets" else 2]) if item else ("MISS",), item)]
    if not item:
        return [(("NOT_FOUND",), None)]
    if verb in ("incr", "decr"):
        return counted(verb, item, number, *fields)
    return [(("DELETED",), None) if verb == "delete" else (("TOUCHED",), item)]


def stored(verb, item, number, flags, body, wanted=None):
    if verb == "cas" and (not item or item[2] != wanted):
        return ("EXISTS",) if item else ("NOT_FOUND",), item
    if verb not in ("set", "cas") and bool(item) == (verb == "add"):
        return ("NOT_STORED",), item
    if verb in ("append", "prepend"):
        flags, body = item[0], item[1] + body if verb == "append" else body + item[1]
    return ("STORED",), (flags, body, number)


def counted(verb, item, number, amount):
    flags, body, _ = item
    found = []
    for read in readings(body):
        if read is None:
            found.append((("NOT_A_NUMBER",), item))
            continue
        value = (read + amount) & GREATEST if verb == "incr" else max(read - amount, 0)
        decimal = b"%d" % value
        for made in dict.fromkeys([decimal, decimal.ljust(len(body))]):
            found.append((("NUMBER", value), (flags, made, number)))
    return found


def readings(body):
    """What a server may read in a body: a number, or None."""
    digits = bytes(itertools.takewhile(lambda byte: 48 <= byte <= 57, body))
    rest = body[len(digits) :]
    if not digits or rest[:1] not in (b"", b" ") or int(digits) > GREATEST:
        return [None]
    if len(digits) > 20 or rest.strip(b" "):
        return [int(digits), None]
    return [int(digits)]


class Cache:
    """A cache that answers requests. It may skip numbers, takes a body for a number only if every
    server does, and keeps a body's length in counts by the verbs `pads`."""

    def __init__(self, number=0, step=lambda: 1, pads=("decr",)):
        self.items, self.number, self.step, self.pads = {}, number, step, pads

    def answer(self, request):
        verb, key = request[:2]
        ways = outcomes(request, self.items.get(key), None)
        is_last = verb in self.pads or ways[-1][0] == ("NOT_A_NUMBER",)
        reply, item = ways[-1 if is_last else 0]
        if item and item[2] is None:
            self.number += self.step()
            item = (*item[:2], self.number)
        self.items[key] = item
        return reply
