"""The picture and the page that plays a conversation, and the prompt's help. By the Python model."""
import json
import re
import sys
import tempfile
import xml.etree.ElementTree as ElementTree
from itertools import combinations, product
from pathlib import Path

from cases.browser import browser
from cases.kit import TOP, Ran, case, expect, expect_in, talk

# Many messages in few rows, of long values, to two subscribers; some are lost, some no mailbox took, some still wait.
DENSE = """node
create n1 ps A buffer=2 sequence=1
subscriber f1
subscriber f1
publisher f1 slice=6
publisher f1 slice=6
put p1 4 5 6
put p1 7 8 9
put p1 10 11 12
put p1 13 14 15 16 17 18
receive s1
receive s2
receive s1
receive s2
put p1 1 2 3
put p2 1 2 3
put p2 4 4 4
put p2 5 5 5
put p1 7 7 7
put p1 8 8 8
leave s1
leave s2
put p1 9 9 9 9 9 9
put p2 18446744073709551615 18446744073709551615 18446744073709551615
subscriber f1
put p1 5
put p1 5
put p2 5
put p2 5
"""
# A letter of a label in a browser, in pixels.
LETTER = 6.6
MISSED = TOP / "examples" / "rows" / "what-was-missed-shows-in-the-numbers.iox"


def labels(picture):
    """The text and the box of each message's label."""
    for it in ElementTree.fromstring(picture).iter("{http://www.w3.org/2000/svg}text"):
        if it.get("class", "").startswith("value"):
            x, y, wide = float(it.get("x")), float(it.get("y")), LETTER * len(it.text)
            left = x - wide if it.get("text-anchor") == "end" else x
            yield it.text, left, y - 9, left + wide, y + 2


@case
def labels_of_dense_rows_do_not_overlap():
    ran = Ran("--model", "-q", "--svg", "-", given=DENSE.encode())
    found = [*labels(ran.out)]
    width = int(ElementTree.fromstring(ran.out).get("width"))
    expect((len(found) >= 20, sum(it[0].startswith("[") for it in found) >= 20), (True, True))
    # Long values don't make the picture wide.
    expect_in("[18446744073709551615 ..] #4", [it[0] for it in found])
    expect([it for it in found if it[1] < 0 or it[3] > width], [])
    overlapping = [(a[0], b[0]) for a, b in combinations(found, 2) if a[1] < b[3] and b[1] < a[3] and a[2] < b[4] and b[2] < a[4]]
    expect(overlapping, [])


@case
def the_page_has_reasons_and_what_was_missed():
    given = MISSED.read_bytes() + b"put p9 1\nnonsense\nopen n1 ps B\n"
    page = Ran("--model", "-q", "--html", "-", given=given).out.decode()
    told = json.loads(re.search(r'<script id="told" type="application/json">(.*?)</script>', page, re.S)[1])
    notes = {row["line"]: row["note"] for row in told["rows"][-3:]}
    expect([notes["put p9 1"], notes["nonsense"]], ["p9 doesn't exist", '"nonsense" isn\'t a command'])
    expect(len(notes["open n1 ps B"]) > 5, True)
    expect([row["missed"] for row in told["rows"] if row["missed"]], ["1 message of p1 is missing before this one"])


@case
def the_state_names_the_sample_of_each_subscriber_that_holds_a_message():
    given = b"node\ncreate n1 ps A\nsubscriber f1\nsubscriber f1\npublisher f1\nput p1 7\nreceive s1\nreceive s2\n"
    page = Ran("--model", "-q", "--html", "-", given=given).out.decode()
    told = json.loads(re.search(r'<script id="told" type="application/json">(.*?)</script>', page, re.S)[1])
    held = {it["name"]: [box["held"] for box in it["mailboxes"]] for it in told["states"][-1]["subscribers"]}
    expect(held, {"s1": [["m1"]], "s2": [["m2"]]})


# A long name of an error, and ports of which the one that a line changes is below a phone's screen.
LONG = """node
create n1 ps A history=3 buffer=2 overflow=0
open_or_create n1 ps A
publisher f1
publisher f1
subscriber f1
put p1 18446744073709551615
put p2 9007199254740993
receive s1
"""
# How wide a name's lines are, and whether they begin with a capital; the values of the state; whether what changed is in sight.
SEEN = """(() => {
  const name = document.querySelector(".reply .long"), box = it => it.getBoundingClientRect();
  const range = document.createRange(), tops = [...name.childNodes].filter(it => it.data).map(it => {
    range.selectNodeContents(it);
    return range.getClientRects().length;
  });
  const state = box(get("state")), changed = box([...document.querySelectorAll("#state .fresh")].pop());
  const values = [...document.querySelectorAll("#state .slot")].map(it => it.textContent.trim()).filter(it => it);
  return { whole: tops.every(it => it === 1), values, inSight: changed.bottom <= Math.min(state.bottom, innerHeight) + 1 && changed.top >= state.top };
})()"""
# What a reader does, and what is to be seen then.
READS = """(async () => {
  const seen = [location.hash], moment = () => new Promise(done => setTimeout(done, 50));
  for (const id of ["first", "on", "on", "last"]) { get(id).click(); seen.push(location.hash); }
  location.hash = "#5";
  await moment();
  seen.push(get("count").textContent);
  get("last").click();
  seen.push([...document.querySelectorAll("#script li:not(.later) .why")].map(it => it.textContent).join(" / "));
  return seen;
})()"""
# What holds at each width: long names may break, nothing is wider than the screen, script and state are seen together, no label of the
# picture covers another.
HOLDS = """(() => {
  const box = it => it.getBoundingClientRect(), list = box(get("script")), state = box(get("state"));
  const labels = [...document.querySelectorAll("#picture .value")].map(box);
  const covers = (a, b) => a.left < b.right - 1 && b.left < a.right - 1 && a.top < b.bottom - 4 && b.top < a.bottom - 4;
  return {
    breaks: document.querySelector(".reply.bad wbr") !== null,
    fits: document.documentElement.scrollWidth <= innerWidth,
    both: list.top >= 0 && state.top < innerHeight - 100 && state.height > 100 && list.height > 100
      && (innerWidth > 760 ? state.left >= list.right : state.bottom <= innerHeight + 1),
    apart: labels.length > 3 && !labels.some((a, i) => labels.some((b, k) => i < k && covers(a, b))),
    ground: getComputedStyle(document.body).backgroundColor,
    ink: getComputedStyle(document.querySelector("#picture .title")).fill,
  };
})()"""
LIGHT, DARK = ("rgb(255, 255, 255)", "rgb(34, 34, 34)"), ("rgb(22, 24, 28)", "rgb(228, 230, 234)")


@case
def the_page_plays_in_a_browser_at_each_width_in_light_and_dark():
    missed = MISSED.read_bytes() + b"open n1 ps ALongNameOfAServiceThatIsNotThere\n"
    dense = DENSE.encode() + b"open n1 ps ALongNameOfAServiceThatIsNotThere\n"
    why = "1 message of p1 is missing before this one / "
    with tempfile.TemporaryDirectory(prefix="iox-check-") as folder, browser() as asked:
        files = [Path(folder) / it for it in ("missed.html", "dense.html")]
        for file, given in zip(files, (missed, dense)):
            file.write_bytes(Ran("--model", "-q", "--html", "-", given=given).out)
        for file, width, colours in product(files, (360, 768, 1440), (LIGHT, DARK)):
            asked.open(f"{file.as_uri()}#3", width, colours is DARK)
            *seen, reasons = asked.value(READS)
            lines = len(missed.splitlines()) if file.stem == "missed" else len(dense.splitlines())
            expect((file.stem, width, *seen), (file.stem, width, "#3", "#1", "#2", "#3", f"#{lines}", f"line 5 of {lines}"))
            expect((file.stem == "missed", reasons.startswith(why)), (reasons.startswith(why), file.stem == "missed"))
            held = {"breaks": True, "fits": True, "both": True, "apart": True, "ground": colours[0], "ink": colours[1]}
            expect((file.stem, width, asked.value(HOLDS)), (file.stem, width, held))


@case
def the_prompt_helps_with_options_and_near_words():
    typed = [b"?\n", b"help history\n", b"help slots\n", b"help histry\n", b"quitt\n", b":stat\n", b"help :why\n", b"exit now\n"]
    typed += [b"node\n", b"create n1 ps A history=3 buffer=2 overflow=0\n", b":why\n", b"quit\n"]
    with tempfile.TemporaryDirectory(prefix="iox-check-") as folder:
        status, screen = talk([sys.executable, TOP / "iox", "--model"], typed, {"XDG_STATE_HOME": folder})
        expect(status, 0)
        for it in (
            "iox> ?\nOne command a line, one reply a line.",
            "words of the prompt:\n",
            "iox> help history\nhistory=\n  of ps services (create, open, open_or_create): number of messages that a publisher keeps",
            "; a number, default 0\n",
            "iox> help slots\nslots=\n  of a publisher: number of messages that fit in memory",
            'iox> help histry\nno command or option "histry"; did you mean "history"?\n',
            'iox> quitt\nno command "quitt"; did you mean "quit"?\n',
            'iox> :stat\nno command ":stat"; did you mean ":state"?\n',
            "iox> help :why\nwords of the prompt:\n",
            "iox> exit now\nexit takes no further words\n",
            "iox> node\nok n1\n",
            "LargerThanHistorySize\niox> :why\nline 2: ",
        ):
            expect_in(it, screen)


@case
def help_on_each_option_is_there():
    from tool.grammar import MEANINGS, help_on_option
    from tool.prompt import OPTIONS

    expect(sorted(OPTIONS), sorted(MEANINGS))
    for it in OPTIONS:
        expect_in("default" if it not in ("buffer", "slice", "slots") else f"{it}=", help_on_option(it))
    expect(help_on_option("nothing"), None)


@case
def the_page_on_a_phone_breaks_long_names_between_words_and_shows_what_a_line_changed():
    with tempfile.TemporaryDirectory(prefix="iox-check-") as folder, browser() as asked:
        file = Path(folder) / "long.html"
        file.write_bytes(Ran("--model", "-q", "--html", "-", given=LONG.encode()).out)
        for width in (360, 768, 1440):
            asked.open(f"{file.as_uri()}#9", width, False)
            # Numbers above 2^53 are whole.
            values = ["m1 [18446744073709551615]", "[9007199254740993]"]
            expect((width, asked.value(SEEN)), (width, {"whole": True, "values": values, "inSight": True}))
