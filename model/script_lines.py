"""The lines of a script: what each spells, as the Python model reads them. It follows docs/FORMATS.md and nothing else here."""
import re

LARGEST = 2**64 - 1

PATTERNS = {"ps": "PublishSubscribe", "ev": "Event", "rr": "RequestResponse"}
SWITCH, NUMBER, PERHAPS = "switch", "number", "number or off"
TOO_FEW = "DoesNotSupportRequested"
# Of each pattern, in the order in which an opener tests them: key, kind, default, least, end, the error where it isn't met.
SETTINGS: dict[str, list[tuple]] = {
    "ps": [
        ("overflow", SWITCH, True, None, None, "IncompatibleOverflowBehavior"),
        ("sequence", SWITCH, False, None, None, "IncompatibleSequenceNumbers"),
        ("publishers", NUMBER, 2, 1, 2**24, TOO_FEW + "AmountOfPublishers"),
        ("subscribers", NUMBER, 8, 1, 2**24, TOO_FEW + "AmountOfSubscribers"),
        ("buffer", NUMBER, 2, 1, 2**32, TOO_FEW + "MinBufferSize"),
        ("history", NUMBER, 0, 0, 2**32, TOO_FEW + "MinHistorySize"),
        ("borrowed", NUMBER, 2, 1, 2**32, TOO_FEW + "MinSubscriberBorrowedSamples"),
        ("nodes", NUMBER, 20, 1, 2**24, TOO_FEW + "AmountOfNodes"),
    ],
    "ev": [
        ("deadline", PERHAPS, None, None, None, "IncompatibleDeadline"),
        ("notifiers", NUMBER, 16, 1, 2**64, TOO_FEW + "AmountOfNotifiers"),
        ("listeners", NUMBER, 16, 1, 2**64, TOO_FEW + "AmountOfListeners"),
        ("maxid", NUMBER, 4294967295, 0, 2**64, TOO_FEW + "MaxEventId"),
        ("created", PERHAPS, None, None, None, "IncompatibleNotifierCreatedEvent"),
        ("dropped", PERHAPS, None, None, None, "IncompatibleNotifierDroppedEvent"),
        ("dead", PERHAPS, None, None, None, "IncompatibleNotifierDeadEvent"),
        ("nodes", NUMBER, 36, 1, 2**24, TOO_FEW + "AmountOfNodes"),
    ],
    "rr": [
        ("overflow_requests", SWITCH, True, None, None, "IncompatibleOverflowBehaviorForRequests"),
        ("overflow_responses", SWITCH, True, None, None, "IncompatibleOverflowBehaviorForResponses"),
        ("fire", SWITCH, True, None, None, "IncompatibleBehaviorForFireAndForgetRequests"),
        ("loans", NUMBER, 2, 1, 2**64, TOO_FEW + "AmountOfClientRequestLoans"),
        ("active", NUMBER, 4, 1, 2**64, TOO_FEW + "AmountOfActiveRequestsPerClient"),
        ("buffer", NUMBER, 2, 1, 2**64, TOO_FEW + "ResponseBufferSize"),
        ("servers", NUMBER, 2, 1, 2**64, TOO_FEW + "AmountOfServers"),
        ("clients", NUMBER, 8, 1, 2**64, TOO_FEW + "AmountOfClients"),
        ("borrowed", NUMBER, 2, 1, 2**64, TOO_FEW + "AmountOfBorrowedResponsesPerPendingResponse"),
        ("nodes", NUMBER, 20, 1, 2**24, TOO_FEW + "AmountOfNodes"),
    ],
}
PUBLISHER_OPTIONS = {
    "loans": NUMBER,
    "strategy": ("retry", "discard"),
    "slots": NUMBER,
    "slice": NUMBER,
    "alloc": ("static", "best", "power"),
    "handler": ("follow", "retry", "discard", "fail"),
    "degrade": ("ignore", "warn", "fail"),
}
SUBSCRIBER_OPTIONS = {"buffer": NUMBER, "degrade": ("ignore", "warn", "fail")}


class Faulty(Exception):
    """The line spells no command."""


def ensure(holds):
    if not holds:
        raise Faulty


def number(word):
    ensure(re.fullmatch(rb"0|[1-9][0-9]*", word))
    ensure(int(word) <= LARGEST)
    return int(word)


def made_value(letter, word):
    ensure(word[:1] == letter.encode())
    return number(word[1:])


def is_visible(word):
    return all(0x21 <= it <= 0x7E for it in word)


def read_name(word):
    ensure(1 <= len(word) <= 255 and is_visible(word))
    return word


def read_value(kind, word):
    """The value of an option of that kind."""
    if kind == SWITCH:
        ensure(word in (b"0", b"1"))
        return word == b"1"
    if kind == NUMBER:
        return number(word)
    if kind == PERHAPS:
        return None if word == b"off" else number(word)
    ensure(word in [it.encode() for it in kind])
    return word.decode()


def read_options(kinds, words):
    """What `key=value` words name; each key once."""
    named = {}
    for word in words:
        key, equals, value = word.partition(b"=")
        known = [it for it in kinds if it.encode() == key]
        ensure(equals and known and known[0] not in named)
        named[known[0]] = read_value(kinds[known[0]], value)
    return named


def kinds_of(pattern):
    return {key: kind for key, kind, *_ in SETTINGS[pattern]}


def read_pattern(word):
    known = [it for it in PATTERNS if it.encode() == word]
    ensure(known)
    return known[0]


def read_step(pattern, word):
    """A step of a foreign process: what it does, its node, and the settings that a `publish` or `publish1` names."""
    what, *parts = word.split(b":")
    ensure(what in (b"lock", b"giveup", b"publish", b"publish1", b"register", b"leave", b"remove"))
    ensure(len(parts) == 1 or (what in (b"publish", b"publish1") and len(parts) == 2))
    named = read_options(kinds_of(pattern), parts[1].split(b",")) if len(parts) == 2 else {}
    return what.decode(), ("x", made_value("x", parts[0])), named


def read_attribute(verb, word):
    """A key and its value, or None where just the key is required."""
    key, equals, value = word[1:].partition(b"=")
    ensure(1 <= len(key) <= 64 and len(value) <= 256 and is_visible(key + value))
    ensure(equals or verb != "create")
    return key, value if equals else None


def read_lists(pattern, words):
    """The steps before each access, by the number of the access."""
    lists, last = {}, 0
    for word in words:
        if word[:1] == b"|":
            ensure(last == 0 or lists[last])
            at = number(word[1:])
            ensure(at > last)
            lists[at], last = [], at
        else:
            lists[last].append(read_step(pattern, word))
    ensure(last == 0 or lists[last])
    return lists


def read_service(verb, words):
    """`create`, `open` or `open_or_create` with its node, pattern, name, options, attributes and lists, in this order."""
    ensure(len(words) >= 3)
    node, pattern, name = made_value("n", words[0]), read_pattern(words[1]), read_name(words[2])
    rest = words[3:]
    starts = [i for i, it in enumerate(rest) if it[:1] == b"|"]
    at_lists = starts[0] if starts else len(rest)
    starts = [i for i, it in enumerate(rest[:at_lists]) if it[:1] == b"@"]
    at_attributes = starts[0] if starts else at_lists
    ensure(all(it[:1] == b"@" for it in rest[at_attributes:at_lists]))
    named = read_options(kinds_of(pattern), rest[:at_attributes])
    attributes = [read_attribute(verb, it) for it in rest[at_attributes:at_lists]]
    ensure(len([it for it in attributes if it[1] is not None]) <= 8)
    ensure(len([it for it in attributes if it[1] is None]) <= 8)
    return verb, node, pattern, name, named, attributes, read_lists(pattern, rest[at_lists:])


def read_command(line):
    """The verb of a line and what stands after it."""
    verb, *words = line.split(b" ")
    verb = verb.decode("latin-1")
    if verb == "node":
        ensure(not words)
        return (verb,)
    if verb in ("create", "open", "open_or_create"):
        return read_service(verb, words)
    if verb == "foreign":
        ensure(len(words) >= 3)
        pattern, name = read_pattern(words[0]), read_name(words[1])
        return verb, pattern, name, [read_step(pattern, it) for it in words[2:]]
    ensure(words)
    if verb in ("publisher", "subscriber"):
        options = PUBLISHER_OPTIONS if verb == "publisher" else SUBSCRIBER_OPTIONS
        return verb, made_value("f", words[0]), read_options(options, words[1:])
    if verb in ("update", "leave"):
        ensure(len(words) == 1 and words[0][:1] in (b"p", b"s"))
        letter = words[0][:1].decode()
        return verb, letter, made_value(letter, words[0])
    letters = {"close": "f", "loan": "p", "loan_uninit": "p", "set": "l", "fill": "l", "drop": "l", "send": "l", "put": "p"}
    letters |= {"retry": "p", "giveup": "p", "receive": "s", "has": "s", "read": "m", "sequence": "m", "release": "m"}
    ensure(verb in letters)
    value, numbers = made_value(letters[verb], words[0]), [number(it) for it in words[1:]]
    if verb in ("put", "fill"):
        return verb, value, numbers
    ensure(len(numbers) == {"loan": 1, "loan_uninit": 1, "retry": 1, "set": 2}.get(verb, 0))
    return verb, value, *numbers
