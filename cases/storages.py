"""Storages that answer from a list: `crates/script_cases` has each answer that docs/FORMATS.md names, at each access and round."""
import re

from cases.kit import TOP, case, expect

ROUNDS = 5
# A line says with these words also what is found, and which number is taken.
WORDS = ("Found", "Taken")


def section():
    page = (TOP / "docs" / "FORMATS.md").read_text(encoding="utf-8")
    return page.partition("## Agreeing on a service\n")[2].partition("### The table")[0]


def answers_of_the_page():
    """For each access the answers that it may have."""
    table = section().partition("| what it answers |\n|---|---|---|\n")[2].partition("\n\n")[0]
    found = {}
    for row in table.splitlines():
        names, _, answers = row.strip("| ").split(" | ")
        for name in re.findall(r"`(\w+)`", names):
            found[name] = {it[1] for it in map(re.compile(r"\s*`(\w+)`").match, answers.split(";")) if it}
    return found


def parts_of_the_page():
    """For each access the text that says what its answers lead to."""
    text = section()

    def row(access):
        return re.search(rf"(?m)^\| `{access}` \| `(?:Taken|Made|Published)`.*$", text)[0]

    closing = text.partition("**`close`.**")[2].partition("\n\n")[0]
    return {
        "look": text.partition("**What a look shows.**")[2].partition("\n\n")[0],
        **{it: row(it) for it in ("lock", "make_segment", "publish")},
        "open_segment": text.partition("**`open`.**")[2].partition("\n\n")[0],
        **{it: closing.partition(f"or `{it}` ")[2].partition("`, ")[0] + "`" for it in ("remove_description", "remove_segment")},
    }


def refusals_of_the_page():
    """For an access and its answer the accesses that undo what was done, and the error that the call then has."""
    found = {}
    for access, part in parts_of_the_page().items():
        undone = re.search(r"\| after (.*?):", part)
        for answer, error in re.findall(r"`(\w+)` is\s+`(\w+)`", part):
            found[access, answer] = (tuple(re.findall(r"`(\w+)`", undone[1])) if undone else (), error)
    return found


def behind(verb, access, answer, closes):
    """The access behind this one, or None where the call ends."""
    if access == "look":
        return {"Absent": None if verb == "open" else "lock", "Found": None if verb == "create" else "open_segment"}.get(answer)
    again = verb == "open_or_create" and answer in ("IsLocked", "Exists") or access == "open_segment" and answer == "Absent"
    if again:
        return "look"
    opened = (access, answer) in (("open_segment", "Registered"), ("publish", "Published"))
    if opened:
        return "leave" if closes else None
    steps = {
        ("lock", "Taken"): "make_segment",
        ("make_segment", "Made"): "publish",
        ("make_segment", "Fault"): "unlock",
        ("make_segment", "OutOfMemory"): "unlock",
        ("publish", "Fault"): "remove_segment",
        ("publish", "OutOfMemory"): "remove_segment",
        ("leave", "Emptied"): "remove_description",
    }
    if access == "remove_description" and answer == "Removed":
        return "remove_segment"
    if access == "remove_segment" and not closes:
        return "unlock"
    return steps.get((access, answer))


def calls():
    """Each call of a block on storages: verb, pattern, its accesses with round and answer, and what it is told."""
    for block in (TOP / "crates" / "script_cases" / "stdout").read_text(encoding="utf-8").split("\n\n"):
        if not block.startswith("storage"):
            continue
        for line in block.splitlines()[1:]:
            call, _, told = line.partition(" -> ")
            verb, pattern, *words = call.split()
            if verb not in ("create", "open", "open_or_create"):
                continue
            access, turn, made = "look", 1, []
            for word in (it for it in words if it != "close"):
                answer = next((it for it in WORDS if word.startswith(it)), word)
                made.append((turn, access, answer))
                access = behind(verb, access, answer, "close" in words)
                turn += access == "look"
            yield verb, pattern, made, told


@case
def each_answer_of_a_storage_has_its_call_at_each_access_in_each_round():
    answers = answers_of_the_page()
    tried = {(verb, pattern, *it) for verb, pattern, made, _ in calls() for it in made}
    reached = {"create": ["look", "lock", "make_segment", "publish"], "open": ["look", "open_segment"]}
    reached["open_or_create"] = [*reached["create"], "open_segment"]
    wanted = {
        (verb, pattern, turn, access, answer)
        for verb, accesses in reached.items()
        for pattern in ("ps", "ev", "rr")
        for turn in range(1, 2 if verb == "create" else ROUNDS + 1)
        for access in accesses
        for answer in answers[access]
    }
    expect(sorted(wanted - tried), [])
    expect(sorted({it[3:] for it in tried if it[4] not in answers[it[3]] | {"Unlocked"}}), [])


def decided(made, closes):
    """The access whose answer decides what a call is told, and those behind it, which undo what was done."""
    place = len(made) - 1
    while not closes and made[place][1] in ("remove_segment", "unlock"):
        place -= 1
    return made[place][1:], tuple(access for _, access, _ in made[place + 1 :])


@case
def each_refusal_of_a_storages_answer_is_the_one_of_the_page():
    refusals = refusals_of_the_page()
    met = {}
    for verb, _, made, told in calls():
        (access, answer), undone = decided(made, told.startswith("ok, "))
        goes_on = verb == "open_or_create" and answer in ("IsLocked", "Exists")
        if (access, answer) in refusals and not goes_on:
            error = re.match(r"(?:ok, )?(?:\w+\()?(\w+)\)?, accesses \d+$", told)
            met.setdefault((access, answer), set()).add((undone, error[1] if error else told))
    expect(met, {it: {refusal} for it, refusal in refusals.items()})
