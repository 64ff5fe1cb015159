"""The ways of lines through the program: docs/WAY.md, held against the sources, and the overview of one in docs/ARCHITECTURE.md."""
import functools
import re

from cases.kit import TOP, case, expect, expect_in

CRATES = TOP / "crates"
# What functions on a way call, too, where its line doesn't pass: to make the hub; at the end of the input, at a line that came in
# pieces, of other commands; where a number is old, where another port was lent last, where slots came back or all are held, at a value that
# is longer than the slots, where a send is refused, where values were written one by one, where the list changed, a history is kept, or a
# mailbox takes nothing; where nothing waits, where connections expired or ended, where a slot is held twice or not in its own cell, and
# where a port is closed.
NOT_PASSED = {
    "main": "reached Input::new Output::new status",
    "script::serve": "runs_answer NumberedHub::new Scratch::new",
    "conversation::serve": "Session::new",
    "converse": ".finish",
    "Session::take_bytes": "self.hear",
    "Session::end_line": "self.hear",
    "Script::answer_line": "self.answer_other print_fault",
    "of_words": "service_verb other_line",
    "of_verb": "other_line",
    "leading_number": "alone",
    "first_verb": "seldom_verb",
    "of_port_verb": "only with_number with_two port",
    "NumberedHub::carry_out_port": "lending::loan lending::loan_uninit receiving::receive following::update self.leave following::has"
    " messages::set messages::fill messages::drop_loan messages::send messages::retry messages::give_up messages::read messages::sequence"
    " messages::release",
    "Numbered::get": "value_of",
    "entry_of": "entry_behind",
    "near": "sought",
    "note_lent": "note_another",
    "ByNumber::get_mut": "self.get_mut_behind",
    "PublisherPort::lend": "self.lend_unless",
    "Link::take_back": "self.take_one_back",
    "places::settle": "free_unused",
    "PublisherPort::send": "self.drop_loan",
    "Marks::are_all": "all_marked",
    "PublisherPort::update": "self.follow_all",
    "Slots::remember": "self.make_room self.add_newest",
    "PublisherPort::step": ".pass self.info .decide self.decide",
    "PublisherPort::put": ".asked_at",
    "UniqueIndexSet::settle": "self.borrowed_indices",
    "print_reply": "append_made append_sample append_read append_refusal",
    "subscribers::note_lent": "note_another",
    "borrowed::near": "near_behind",
    "free_step": "free_step_behind",
    "SubscriberPort::update_each": "self.follow_list",
    "SubscriberPort::receive_now": "nothing_taken",
    "SubscriberPort::receive_from": "nothing_taken self.first_data",
    "SubscriberPort::meet": "first_of",
    "SubscriberPort::look_through": "first_of self.unmet_behind",
    "SubscriberPort::seen": "nothing_seen",
    "seen_at": "nothing_seen",
    "Keys::has": "is_in",
    "SubscriberPort::sweep": "self.sweep_at",
    "oldest": ".oldest_of",
    "Links::give_back": "self.let_go self.settle",
    "step_at": "steps_behind",
    "Numbered::remove": "take_of",
    "Publishers::give_back": "self.settle",
}
# Each call on a way that looks a thing up by its number, id or place: the number of the port or sample, the domain, the port, the publisher
# of a message, and by their places the others that a port is tied to and the connection.
LOOK_UPS = {
    "Made::lender": ["self.publishers.get"],
    "domain_mut": ["home.place"],
    "Hub::place": ["self.services.place"],
    "Services::place": ["self.presences.place"],
    "Presences::place": ["self.entries.place"],
    "ServicePorts::put": ["self.publishers.get_mut"],
    "Publishers::get_mut": ["self.ports.get_mut"],
    "PublisherPort::meet": ["self.ties.get"],
    "SlotUses::link": ["self.links.get"],
    "Made::subscriber": ["self.subscribers.get"],
    "receive_at": ["home.place"],
    "ServicePorts::receive": ["self.subscribers.get_mut"],
    "Subscribers::get_mut": ["self.ports.get_mut"],
    "Keys::at": ["self.items.get"],
    "SubscriberPort::attached": ["self.connections.get"],
    "SlotMap::get": ["self.values.get"],
    "Places::get": ["self.cells.get"],
    "seen_at": ["publishers.get"],
    "Publishers::get": ["self.ports.get"],
    "Publishers::take": ["self.get_mut"],
    "ServicePorts::payload": ["self.publishers.get"],
    "Made::read": ["self.samples.get"],
    "home::domain": ["home.place"],
    "Made::release": ["self.samples.get"],
    "ServicePorts::release": ["self.subscribers.get_mut"],
    "Publishers::give_back_there": ["self.get_mut"],
}
# Calls of these names on a way are the standard library's, though a function of ours has the name, too.
OF_OTHERS = ".as_bytes .as_mut .as_ref .first .is_empty .is_none .is_some .kind .push_reserved .reserve .truncate".split()
OF_OTHERS += ".unwrap .unwrap_or".split()


@functools.cache
def functions(file):
    """The bodies of a file's functions by their names, with their type for methods."""
    lines = (CRATES / file).read_text(encoding="utf-8").splitlines()
    found, owner = {}, ""
    for at, line in enumerate(lines):
        if line.startswith(("impl", "pub trait")):
            head = " ".join(lines[at : next(it for it in range(at, len(lines)) if lines[it].endswith(("{", "{}"))) + 1])
            while head != (plain := re.sub(r"<[^<>]*>", "", head)):
                head = plain
            owner = re.search(r"(?:.* for |impl |trait )(\w+)", head)[1]
        named = re.match(r"( *)(?:pub(?:\(crate\))? )?(?:const )?fn (\w+)", line)
        if named:
            indent, name = named.groups()
            end = next((it for it in range(at, len(lines)) if lines[it].startswith((indent + "}", indent + "{}"))), at)
            begins = (it for it in range(at, end) if lines[it].startswith(indent + "{") or re.search(r"\) (?:-> .* )?\{$", lines[it]))
            first = next(begins, end)
            # What stands before the brace of a head of one line is no call.
            body = "\n".join(["{" if first == at else "", *(re.sub(r"//.*", "", it) for it in lines[first + (first == at) : end + 1])])
            found[f"{owner}::{name}" if indent else name] = body
    return found


def body_of(name, file):
    """The body of a function of the page; a function of no type may have its module before its name."""
    found = functions(file)
    return found.get(name) or found.get(name.rpartition("::")[2], "")


def calls(body):
    """The calls of a body, in the order in which they are made: what stands before the name, the name, and where its arguments end."""
    found = []
    for it in re.finditer(r"(?:(\bself\.|\.)|\b(\w+)::)?\b([a-z]\w*)(?:::<[^;()]*>)?\(", body):
        depth, at = 1, it.end()
        while depth:
            depth += {"(": 1, ")": -1}.get(body[at], 0)
            at += 1
        if it[3] not in ("if", "match", "while", "for", "return", "in"):
            found.append((at, it[1] or it[2] or "", it[3]))
    return [(before, name) for _, before, name in sorted(found)]


@functools.cache
def of_ours():
    """Each function of the repository's crates, with a file that has it."""
    files = [it.relative_to(CRATES).as_posix() for it in sorted(CRATES.glob("iox*/src/**/*.rt"))]
    return {name: file for file in files for name in functions(file)}


def may_call(caller, call, name, file):
    """Whether a call in the body of a function may be one of this function, as it is written."""
    (before, bare), owner = call, name.rpartition("::")[0]
    if bare != name.rpartition("::")[2]:
        return False
    own = caller.rpartition("::")[0]
    if before == "self." and f"{own}::{bare}" in of_ours():
        return owner == own
    if before in ("self.", ".") or before == "LendsDomains":
        return owner[:1].isupper()
    if before[:1].isupper():
        return owner == (own if before == "Self" else before)
    return not owner[:1].isupper() and (not before or before in (owner, file.partition("/")[0]) or not owner)


def as_written(call):
    before, name = call
    return before + name if before in ("", ".", "self.") else f"{before}::{name}"


@functools.cache
def page():
    return (TOP / "docs" / "WAY.md").read_text(encoding="utf-8")


@functools.cache
def ways():
    """The ways of the page, each as its text and its rows: function, who calls it first, file, what it does."""
    rows = r"(?m)^\| `([\w:]+)` \| `?([\w:]*)`? ?\| `(\w+/src/[\w/]+\.rt)` \| (.*?) ?\|$"
    return [(text, re.findall(rows, text)) for text in re.split(r"(?m)^(?=## )", page())]


@case
def each_function_on_the_way_of_a_line_is_called_by_the_one_beside_it():
    expect(sum(len(rows) for _, rows in ways()), page().count("\n| `"))
    # The first way begins with `main`, and the others where that one carries the command out.
    expect([rows[0][1] for _, rows in ways()], ["", *["NumberedHub::carry_out_port"] * (len(ways()) - 1)])
    files = dict[str, str]()
    for _, rows in ways():
        above, places = [rows[0][1]], dict[str, int]()
        for name, caller, file, _ in rows:
            expect((name, bool(body_of(name, file))), (name, True))
            # Row by row the way goes down into a function, or back to one that isn't at its end.
            expect_in(caller, above)
            above = [*above[: above.index(caller) + 1], name]
            if caller:
                made = [at for at, it in enumerate(calls(body_of(caller, files[caller]))) if may_call(caller, it, name, file)]
                place = next((it for it in made if it >= places.get(caller, 0)), None)
                expect((caller, name, place is None), (caller, name, False))
                places[caller] = place
            files[name] = file
        expect(len({(name, file) for name, _, file, _ in rows}), len(rows))


@case
def no_function_of_ours_is_left_out_of_the_way_of_a_line():
    known = list[tuple[str, str]]()
    for _, rows in ways():
        # A way leaves out what one before it has.
        own = [(name, file) for name, _, file, _ in rows]
        expect([it for it in own if it in known], [])
        known += own
        for name, file in own:
            made = [it for it in calls(body_of(name, file)) if not any(may_call(name, it, *other) for other in known)]
            left = {as_written(it) for it in made if any(may_call(name, it, *other) for other in of_ours().items())}
            expect((name, sorted(left - {*OF_OTHERS})), (name, sorted(NOT_PASSED.get(name, "").split())))
    expect(sorted({*NOT_PASSED} - {name for name, _ in known}), [])


@case
def a_line_looks_its_number_its_domain_and_its_port_up_once():
    made = {}
    for name, _, file, _ in [it for _, rows in ways() for it in rows]:
        body = re.sub(r"\s*\n\s*", "", body_of(name, file))
        made[name] = [it[1] for it in re.finditer(r"([\w.:?]+\.(?:domain|get|get_mut|place))\((?!\))", body)]
    expect({name: looked for name, looked in made.items() if looked}, LOOK_UPS)


@case
def the_counts_of_the_way_of_a_line_are_those_of_its_rows():
    overview = (TOP / "docs" / "ARCHITECTURE.md").read_text(encoding="utf-8").partition("\n## The way of `put p1 3`\n")[2]
    overview = overview.partition("\n## ")[0]
    first = ways()[0][1]
    for text, rows in [*ways(), (overview, first)]:
        crates = {file.partition("/")[0] for _, _, file, _ in rows}
        looks = sum(what.startswith("looks ") for *_, what in rows)
        expect_in(f"These are {len(rows)} functions in {len(crates)} crates, with {looks} look-ups.", text)
    # The overview has the way's functions in their order, and each of its crates.
    shown = re.findall(r"(?m)^\| (`.*?) \| `(\w+)` \| ", overview)
    shown = [(it, crate) for names, crate in shown for it in re.findall(r"`([\w:]+)`", names)]
    of_way = [(name, file.partition("/")[0]) for name, _, file, _ in first]
    expect([it for it in shown if it not in of_way], [])
    expect([of_way.index(it) for it in shown], sorted(of_way.index(it) for it in shown))
    expect({crate for _, crate in shown}, {crate for _, crate in of_way})
