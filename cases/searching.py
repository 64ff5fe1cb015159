"""The search of the API pages, as node and a browser run it, and the pages on a narrow screen."""
import json
import re
import shutil
import subprocess
import tempfile
from pathlib import Path

from cases.browser import browser
from cases.kit import PATIENCE, TOP, NotHere, case, expect
from cases.pages import pages

# Runs search.js with the least of a page that it needs. Of each word that is asked for it writes where what is found leads, in its order.
ASKS = """
const { readFileSync } = require("fs"), { createContext, runInContext } = require("vm");
const [folder, ...words] = process.argv.slice(1);
const made = () => ({
  value: "", hidden: true, children: [], on: {}, addEventListener(kind, then) { this.on[kind] = then; },
  setAttribute() {}, removeAttribute() {}, querySelectorAll: () => [],
  append(...parts) { this.children.push(...parts); }, replaceChildren(...parts) { this.children = parts; },
});
const parts = { "page-search": made(), "page-found": made(), "page-says": made() };
const document = { getElementById: id => parts[id] || null, createElement: made, addEventListener() {}, querySelector: () => null };
const page = createContext({ document, location: { hash: "", search: "" }, addEventListener() {} });
for (const it of ["names.js", "first.js", "search.js"]) runInContext(readFileSync(`${folder}/${it}`, "utf8"), page);
const found = words.map(word => {
  parts["page-search"].value = word;
  parts["page-search"].on.input();
  return [word, parts["page-found"].children.map(it => it.children[0]?.href).filter(Boolean)];
});
console.log(JSON.stringify(Object.fromEntries(found)));
"""
# What somebody asks for, and the page and the place of what is found first.
FOUND = {
    "Hub": "iox_hub_base.html#hub.Hub",
    "publisher": "iox_delivery.html#publisher.Publisher",
    "Publisher::loan": "iox_delivery.html#publisher.Publisher.loan",
    "publisher.loan": "iox_delivery.html#publisher.Publisher.loan",
    "no such name": None,
}
# Calls of a first program, which several libraries have. The first that is found is one that programs name.
CALLS = ("service_builder", "publisher_builder", "subscriber_builder", "create", "open", "send", "send_copy", "loan", "receive", "release")
NARROW = 400
# The pages that are looked at on a narrow screen, light with what is found, or dark.
LOOKED_AT = {"index": "?find=publisher", "contracts": "", "iox_hub": "?find=send", "iox_delivery": "", "iox_container.definitions": ""}


def written(folder):
    for name, text in pages().items():
        (Path(folder) / name).write_text(text, encoding="utf-8")


def named_by_programs():
    """The places that programs name, by their pages."""
    return json.loads(pages()["first.js"].removeprefix("const FIRST=").rstrip(";\n"))


def handed_on():
    """What the prelude of `iox_hub` hands on."""
    prelude = (TOP / "crates" / "iox_hub" / "src" / "prelude.rt").read_text(encoding="utf-8")
    uses = re.findall(r"(?m)^pub use \w+(?:::\w+)*::(?:\{([^}]*)\}|(\w+);)", prelude)
    return {it for use in uses for it in re.findall(r"\w+", " ".join(use))} - {"slice", "Global"}


@case
def the_search_finds_first_what_programs_name():
    if not shutil.which("node"):
        raise NotHere("no node")
    first, names = named_by_programs(), sorted(handed_on())
    with tempfile.TemporaryDirectory(prefix="iox-check-") as folder:
        written(folder)
        words = ["node", "-e", ASKS, folder, *FOUND, *CALLS, *names]
        ran = subprocess.run(words, capture_output=True, text=True, timeout=PATIENCE)
    expect((ran.returncode, ran.stderr), (0, ""))
    found = json.loads(ran.stdout)
    expect({it: next(iter(found[it]), None) for it in FOUND}, FOUND)
    for name in (*CALLS, *names):
        page, _, place = found[name][0].partition("#")
        parts = place.split(".")
        expect((name, parts[-1]), (name, name))
        expect((name, place, any(".".join(parts[:at]) in first.get(page, []) for at in range(1, len(parts) + 1))), (name, place, True))


@case
def the_api_pages_fit_a_narrow_screen():
    with tempfile.TemporaryDirectory(prefix="iox-check-") as folder, browser() as asked:
        written(folder)
        for name, at in LOOKED_AT.items():
            asked.open(f"{(Path(folder) / name).as_uri()}.html{at}", NARROW, not at)
            wide = asked.value("Math.max(document.documentElement.scrollWidth, document.body.scrollWidth)")
            expect((name, at, wide <= NARROW), (name, at, True))
            shown = asked.value("document.querySelectorAll('#page-found:not([hidden]) [role=option]').length")
            expect((name, at, shown > 0), (name, at, bool(at)))
