"""What lives on a hub, by the Python model: for `:state`, for the page and for the picture."""
from __future__ import annotations

from typing import Any

from script_lines import SETTINGS
from script_model import Life, Machine

from tool.grammar import setting_in_words

KINDS = {"n": "node", "f": "factory", "p": "publisher", "s": "subscriber", "l": "loan", "m": "sample"}


class Watched:
    """A Python model of which all that was ever made keeps its name, also what has ended."""

    def __init__(self):
        self.machine = Machine()
        self.all = {letter: [] for letter in KINDS}
        self.names = {}

    def answer(self, line: bytes) -> str:
        reply = self.machine.answer(line)
        for letter, made in self.machine.made.items():
            for value in made[len(self.all[letter]) :]:
                self.all[letter].append(value)
                self.names[id(value)] = f"{letter}{len(self.all[letter])}"
        return reply

    def name(self, value) -> str:
        """The name of something that was made, also after its end."""
        return self.names.get(id(value), "?")

    def living(self, letter: str) -> list[tuple[str, Any]]:
        return [(f"{letter}{at}", it) for at, it in enumerate(self.machine.made[letter], 1) if it is not None]


def text_of(name: bytes) -> str:
    return name.decode("latin-1")


def node_name(node) -> str:
    return f"{node[0]}{node[1]}"


def service_name(factory) -> str:
    return f"{factory.service[0]} {text_of(factory.service[1])}"


def services(watched: Watched) -> list[dict]:
    """Each service with its settings, its nodes, and the factories by which the script has it open."""
    factories = watched.living("f")
    found = []
    for (pattern, name), phase in watched.machine.names.phases.items():
        told: dict = {"pattern": pattern, "name": text_of(name)}
        if isinstance(phase, Life):
            told["phase"] = f"emptied by {node_name(phase.emptied_by)}" if phase.emptied_by else "open"
            told["settings"] = {key: setting_in_words(phase.agreed[key]) for key, *_ in SETTINGS[pattern]}
            told["attributes"] = [f"{text_of(key)}={text_of(value)}" for key, value in phase.attributes]
            told["nodes"] = [node_name(it) for it, _ in phase.nodes]
            told["factories"] = [own for own, it in factories if it.life is phase]
        elif phase is not None:
            told["phase"] = f"being created by {node_name(phase)}"
        found.append(told)
    return found


def publisher(watched: Watched, name: str, it) -> dict:
    return {
        "name": name,
        "factory": watched.name(it.factory),
        "service": service_name(it.factory),
        "slots": it.slots,
        "used": len(it.in_use()),
        "last_sequence": it.last_sequence,
        "history": [list(message.values) for message in it.history],
        "loans": [watched.name(loan) for loan in it.loans if id(loan) in watched.names],
        "blocked": watched.name(it.blocked.left[0].subscriber) if it.blocked and it.blocked.left else None,
    }


def mailboxes(watched: Watched, subscriber) -> list[dict]:
    """What waits for a subscriber, and what it holds, by the publisher that it is of."""
    held = {(id(it.connection), id(it.message)): name for name, it in watched.living("m")}
    known = [it for it in subscriber.domain.connections if it.subscriber is subscriber]
    known += [it for it in subscriber.keys.values() if all(it is not other for other in known)]
    return [
        {
            "publisher": watched.name(it.publisher),
            "left": it.publisher.has_left,
            "waiting": [list(message.values) for message in it.waiting],
            "held": [held.get((id(it), id(message)), "m?") for message in it.borrowed],
        }
        for it in known
    ]


def subscriber(watched: Watched, name: str, it) -> dict:
    of = {"factory": watched.name(it.factory), "service": service_name(it.factory)}
    return {"name": name, **of, "buffer": it.buffer, "borrowed": it.most_borrowed, "mailboxes": mailboxes(watched, it)}


def loan(watched: Watched, name: str, it) -> dict:
    values = None if it.message.values is None else list(it.message.values)
    return {"name": name, "publisher": watched.name(it.message.publisher), "values": values}


def sample(watched: Watched, name: str, it) -> dict:
    ends = {"subscriber": watched.name(it.connection.subscriber), "publisher": watched.name(it.message.publisher)}
    return {"name": name, **ends, "sequence": it.message.sequence, "values": list(it.message.values)}


def snapshot(watched: Watched) -> dict:
    """All that lives, as plain values."""
    told = {"publishers": publisher, "subscribers": subscriber, "loans": loan, "samples": sample}
    return {
        "nodes": [name for name, _ in watched.living("n")],
        "services": services(watched),
        "factories": [{"name": name, "node": node_name(it.node), "service": service_name(it)} for name, it in watched.living("f")],
        **{kind: [of(watched, *it) for it in watched.living(kind[0] if kind != "samples" else "m")] for kind, of in told.items()},
    }


def message_shown(values: list[int] | None, sequence: int | None, most: int = 8) -> str:
    """A message's values, and behind them its number, where it has one."""
    return values_shown(values, most) + (f" #{sequence}" if sequence is not None else "")


def values_shown(values: list[int] | None, most: int = 8) -> str:
    if values is None:
        return "not written"
    return f"[{' '.join(map(str, values[:most]))}{' ..' if len(values) > most else ''}]"


def mailbox_told(box: dict, buffer: int) -> str:
    waiting = " ".join(map(values_shown, box["waiting"])) or "nothing"
    who = f"{box['publisher']}{', which left' if box['left'] else ''}"
    held = f", holds {' '.join(box['held'])}" if box["held"] else ""
    return f"from {who}: {waiting} waits ({len(box['waiting'])} of {buffer}){held}"


def service_told(it: dict) -> list[str]:
    told = [f"{it['pattern']} {it['name']}: {it['phase']}"]
    if "settings" in it:
        told[0] += f"; nodes {' '.join(it['nodes']) or 'none'}; factories {' '.join(it['factories']) or 'none here'}"
        told.append("  " + " ".join(f"{key}={value}" for key, value in it["settings"].items()))
        told += [f"  @{pair}" for pair in it["attributes"]]
    return told


def publisher_told(it: dict) -> str:
    parts = [f"{it['name']} of {it['factory']}, {it['service']}: {it['used']} of {it['slots']} slots in use"]
    parts += [f"last number {it['last_sequence']}"] * (it["last_sequence"] is not None)
    parts += [f"history {' '.join(map(values_shown, it['history']))}"] * bool(it["history"])
    parts += [f"loans {' '.join(it['loans'])}"] * bool(it["loans"])
    parts += [f"waits at the full mailbox of {it['blocked']}"] * bool(it["blocked"])
    return "; ".join(parts)


def told(state: dict) -> str:
    """A snapshot in lines, for a person."""
    lines = [f"nodes: {' '.join(state['nodes']) or 'none'}"]
    for it in state["services"]:
        lines += service_told(it)
    lines += [publisher_told(it) for it in state["publishers"]]
    for it in state["subscribers"]:
        lines.append(f"{it['name']} of {it['factory']}, {it['service']}: capacity {it['buffer']} per mailbox")
        lines += [f"  {mailbox_told(box, it['buffer'])}" for box in it["mailboxes"]]
    lines += [f"{it['name']} of {it['publisher']}: {values_shown(it['values'])}" for it in state["loans"]]
    for it in state["samples"]:
        lines.append(f"{it['name']} at {it['subscriber']}, of {it['publisher']}: {message_shown(it['values'], it['sequence'])}")
    return "\n".join(lines)
