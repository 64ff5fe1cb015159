"""The API pages: what docs/api.py writes, held against a plain count of the sources, and their links against their places; other pages."""
import ast
import atexit
import errno
import functools
import html
import json
import os
import re
import shutil
import subprocess
import sys
import tempfile
import threading
from pathlib import Path

from cases.kit import KEPT, TOP, NotHere, case, expect, expect_in

SCRIPT = TOP / "docs" / "api.py"
LOCK = threading.Lock()
# How many words a page for users may have.
MOST_WORDS = {"README.md": 900, "docs/TOOL.md": 1400, "docs/USING.md": 4000}
# A call, a definition that its contract names, with its file, and the comment above that definition.
SAID = [
    (
        "iox_hub_base",
        "hub.Hub.new",
        "Hubs.IsNewHub",
        "The hub has no nodes and no services, and has the id and the capacity for expired connections of its configuration.",
    ),
    ("iox_hub_base", "hub.Hub.foreign", "Foreign.ActsOn", "The actions are done on the table of the hub, and all else stays."),
    (
        "iox_conversation",
        "conversation.serve",
        "Conversation.IsConversation",
        "The output answers each line of the input, from this state of the machine on.",
    ),
]


@functools.cache
def written():
    """The pages by their names, with all that lies beside them; written once."""
    folder = tempfile.TemporaryDirectory(prefix="iox-check-")
    atexit.register(folder.cleanup)
    ran = subprocess.run([sys.executable, SCRIPT, folder.name], capture_output=True, text=True)
    expect((ran.returncode, ran.stderr), (0, ""))
    return {it.name: it.read_text(encoding="utf-8") for it in Path(folder.name).iterdir()}


def pages():
    with LOCK:
        return written()


def libraries():
    """The crates that have a page: all but tests and programs, and the main program."""
    names = re.findall(r"(?m)^(\w+)[^:\n]*:", (TOP / "crates.txt").read_text(encoding="utf-8"))
    is_library = lambda it: (TOP / "crates" / it / "src" / "lib.rt").exists() and not it.endswith("_rows")
    return {it for it in names if is_library(it) or it == "iox"}


def public_items(crate):
    """How many public items a crate has, counted line by line: types, functions and constants at the margin, and what is public in them."""
    src = TOP / "crates" / crate / "src"
    texts = {it.relative_to(src).with_suffix("").as_posix(): it.read_text(encoding="utf-8") for it in src.rglob("*.rt")}
    public, asked = set(), ["lib"]
    while asked:
        module = asked.pop()
        public.add(module)
        inner = re.findall(r"(?m)^pub mod (\w+)", texts.get(module, ""))
        asked += inner if module == "lib" else [f"{module}/{it}" for it in inner]
    handed_on = {it for text in texts.values() for use in re.findall(r"(?m)^pub use ([^;]*);", text) for it in re.findall(r"\w+", use)}
    margin = r"(?m)^pub (?:const (?=fn))?(fn|struct|enum|trait|type|const) (\w+)"
    shown = [it[2] for module, text in texts.items() for it in re.finditer(margin, text) if module in public or it[2] in handed_on]
    count = len(shown)
    for text in texts.values():
        with_members = re.sub(r"(?m)^(?:impl|pub trait)\b[^{]*\{\}$", "", text)
        for head, inside in re.findall(r"(?m)^((?:impl|pub trait)\b[^{]*)\{\n((?: .*\n|\n)*)\}", with_members):
            plain = head
            while re.search(r"<[^<>]*>", plain := plain.replace("->", "")):
                plain = re.sub(r"<[^<>]*>", "", plain)
            words = re.sub(r"\swhere\b.*", "", plain, flags=re.S).split()
            if head.startswith("pub trait") and words[2].strip(":") in shown:
                count += len(re.findall(r"(?m)^    (?:final )?fn ", inside))
            elif head.startswith("impl") and "for" not in words and words[1] in shown:
                count += len(re.findall(r"(?m)^    pub (?:const (?=fn)|final )*(?:fn|const) ", inside))
    return count


@case
def each_public_item_is_on_the_page_of_its_crate():
    shown = {it: pages()[f"{it}.html"].count(" data-item=") for it in libraries()}
    expect(shown, {it: public_items(it) for it in libraries()})


@case
def each_crate_has_an_api_page_that_the_index_leads_to():
    expect({it.split(".")[0] for it in pages() if it.count(".") == 1 and it.endswith(".html")}, {*libraries(), "contracts", "index"})
    expect({it for it in re.findall(r'<td><a href="(\w+)\.html"', pages()["index.html"])}, libraries())


@case
def links_of_the_api_pages_lead_somewhere():
    places = {name: re.findall(r' id="([^"]*)"', text) for name, text in pages().items() if name.endswith(".html")}
    for name, ids in places.items():
        expect((name, len(ids)), (name, len({*ids})))
        for link in {*re.findall(r' (?:href|src)="([^"]*)"', pages()[name])}:
            page, _, at = html.unescape(link).partition("#")
            expect_in(page or name, [*pages()])
            if at:
                expect_in(html.escape(at), places[page or name])


@case
def the_search_of_the_api_pages_has_each_item_and_definition():
    found = json.loads(pages()["names.js"].removeprefix("const NAMES=").rstrip(";\n"))
    for page, names in found:
        ids = [html.unescape(it) for it in re.findall(r' id="([^"]*)"', pages()[page])]
        expect({it[-1] if len(it) == 3 else it[0] for it in names} - {*ids}, set())
        of_kind = "definition" if page.endswith(".definitions.html") else None
        shown = len(re.findall(r'<section class="definition"| data-item=', pages()[page]))
        expect((page, sum(1 for it in names if of_kind or it[1] not in ("crate", "mod", "variant"))), (page, shown))
    expect(sorted({page for page, _ in found} | {"index.html"}), sorted(it for it in pages() if it.endswith(".html")))


@case
def what_programs_name_comes_first_on_the_api_pages():
    first = json.loads(pages()["first.js"].removeprefix("const FIRST=").rstrip(";\n"))
    for page, places in first.items():
        ids = [html.unescape(it) for it in re.findall(r' id="([^"]*)"', pages()[page])]
        expect((page, {*places} - {*ids}), (page, set()))
    start = re.search(r'<section id="start-here">.*?</section>', pages()["index.html"], re.S)[0]
    expect(pages()["index.html"].index(start) < pages()["index.html"].index("<table"), True)
    prelude = (TOP / "crates" / "iox_hub" / "src" / "prelude.rt").read_text(encoding="utf-8")
    uses = re.findall(r"(?m)^pub use \w+(?:::\w+)*::(?:\{([^}]*)\}|(\w+);)", prelude)
    handed_on = {it for use in uses for it in re.findall(r"\w+", " ".join(use))}
    expect(handed_on - {"slice", "Global"} - {*re.findall(r"<code>(\w+)</code>", start)}, set())
    for page, place in (("iox_delivery.html", "publisher.Publisher"), ("iox_hub_base.html", "hub.Hub")):
        expect_in(place, first[page])
    for other in ("iox_lanes_base.html", "iox_domain_ports.html"):
        expect(other in first, False)


@case
def each_whole_example_stands_at_its_call():
    sys.path.insert(0, str(TOP / "docs"))
    from api.whole import whole_examples

    for (crate, place), code in whole_examples().items():
        of_call = re.search(rf'<section class="call" id="{re.escape(place)}".*?</section>', pages()[f"{crate}.html"], re.S)[0]
        shown = html.unescape(re.sub(r"<[^>]*>", "", " ".join(re.findall(r'<pre class="example".*?</pre>', of_call, re.S))))
        expect_in(code, shown)


@case
def a_contract_of_the_api_pages_says_what_its_definitions_mean():
    for crate, call, definition, said in SAID:
        page = pages()[f"{crate}.html"]
        of_call = re.search(rf'<section class="call" id="{re.escape(call)}".*?</section>', page, re.S)[0]
        file, name = definition.split(".")
        title = re.search(rf'<a href="{crate}\.definitions\.html#{re.escape(definition)}" title="([^"]*)"', of_call)[1]
        where = rf"{name}: {re.escape(said)} \(crates/{crate}/specs/{file}\.antt:(\d+)\)"
        line = int(re.fullmatch(where, html.unescape(title))[1])
        text = (TOP / "crates" / crate / "specs" / f"{file}.antt").read_text(encoding="utf-8").splitlines()
        expect(bool(re.match(rf"(?:abbrev pub|pub record|pub data) {name}\b", text[line - 1])), True)


@case
def a_name_of_iceoryx2_that_the_table_places_wrongly_is_told():
    sys.path.insert(0, str(TOP / "docs"))
    import differences

    table = """## Some
Hub | =
  id | =
Hub | =
  identity | =
Hub | Hubs
Hub | =
  id | -
LoanError | =
  OutOfMemory, ExceedsMaxLoans, ExceedsMaxLoanSize | =
Publisher of both | iox_delivery::Publisher
Link | Slots::lend
"""
    made, faults = differences.lists(differences.Names(), table)
    told = ["Hub has no public identity", "there is no public Hubs", "id is there", "LoanError has InternalFailure too"]
    told += ["there is no public Slots::lend"]
    expect([it.partition(": line ")[2].partition(": ")[2] for it in faults], told)
    expect_in("| `Hub` with `id` | the same (`iox_hub_base`) | |", made.splitlines())


@case
def an_example_that_calls_otherwise_than_the_function_is_told():
    sys.path.insert(0, str(TOP / "docs"))
    from api import examples, reading

    head = "pub fn send(self, alloc: Global, home: &mut Home, values: &[u64]) -> Result<Sent, SendError> {}"
    right = ["loan.send(alloc, home, values)?", "Loan::send(loan, alloc, &mut home, &[7, 8]).ok()", "loan.send(alloc, &mut home, &values)"]
    wrong = ["loan.sent(alloc, home, values)", "loan.send(alloc, home)", "loan.send(alloc, &home, values)"]
    wrong += ["send(loan, alloc, home, values)", "loan.send(&alloc, home, values)", "loan.send(alloc, home, &mut values)"]
    wrong += ["Loan::send(alloc, home, values)"]
    for example in right + wrong:
        item = reading.read_items([f"/// Example: `{example}`", head])[0]
        expect((example, bool([*examples.own_faults("Loan::send", item)])), (example, example in wrong))
    item = reading.read_items(["/// Example: `port.id()?`", "pub fn id(&self) -> u64 {}"])[0]
    expect(len([*examples.own_faults("Port::id", item)]), 1)


@case
def the_functions_without_an_example_are_as_many_as_the_page_says():
    ran = subprocess.run([sys.executable, SCRIPT, "--lacking"], capture_output=True, text=True)
    *functions, last = ran.stdout.splitlines()
    expect((ran.returncode, len(functions)), (0, int(last.split()[0])))
    page = (TOP / "docs" / "api" / "README.md").read_text(encoding="utf-8")
    expect(last, re.search(r"\*\*(\d+ of \d+ public functions have no example)", page)[1])


def commands(text):
    """What a page runs or names as code: its spans, and the lines of its blocks."""
    yield from re.findall(r"`([^`\n]+)`", text)
    for block in re.findall(r"(?s)```\w*\n(.*?)```", text):
        yield from block.splitlines()
    yield from re.findall(r"(?m)^ {4}(\S.*)$", text)


@case
def each_path_that_a_page_runs_is_executable():
    for page in (TOP / "README.md", *sorted(TOP.glob("*/**/*.md"))):
        for command in commands(page.read_text(encoding="utf-8")):
            path = TOP / (re.match(r"[\w./-]*", command)[0] or ".")
            if path.is_file() and path.read_bytes().startswith(b"#!"):
                expect((page.name, command, os.access(path, os.X_OK)), (page.name, command, True))


@case
def mypy_finds_nothing_wrong_in_what_is_annotated():
    if not shutil.which("mypy"):
        raise NotHere("no mypy: Debian's package has it")
    # Each program is a module of its own; what they import is found below these folders. `docs/api.py` has the name of its folder.
    scripts = [it.relative_to(TOP).as_posix() for it in sorted((TOP / "docs").glob("*.py")) if it.name != "api.py"]
    for asked in (["tool", "cases", "model", "vendor", "check", "iox"], ["docs/api.py"], scripts):
        # What was read for one is kept for the next.
        words = ["mypy", "--cache-dir", Path(KEPT.name) / "mypy", "--scripts-are-modules", *asked]
        ran = subprocess.run(words, cwd=TOP, env={**os.environ, "MYPYPATH": "model:docs"}, capture_output=True, text=True)
        expect((asked, ran.returncode, ran.stdout * (ran.returncode > 0)), (asked, 0, ""))


# What the system says of files and addresses.
REASONS = {os.strerror(it) for it in errno.errorcode}


def endings(script):
    """The texts of each call by which a part of the launcher, or `vendor`, ends with a message."""
    for it in ast.walk(ast.parse(script.read_text(encoding="utf-8"))):
        if isinstance(it, ast.Call) and ast.unparse(it.func) in ("stop", "made.error", "parser.error"):
            texts = [part.value for part in ast.walk(it) if isinstance(part, ast.Constant) and isinstance(part.value, str)]
            yield it.lineno, [text.replace("`", "") for text in texts if text.strip(" :") not in REASONS]


@case
def each_message_that_ends_the_launcher_or_vendor_is_on_the_page_of_errors():
    """Some three words of it at least, one after the other; the page leaves out what a message is about, and its end."""
    page = " ".join(re.sub(r"[`\\]", "", (TOP / "docs" / "ERRORS.md").read_text(encoding="utf-8")).split())
    found = 0
    for script in sorted((TOP / "tool").glob("*.py")):
        for line, texts in endings(script):
            words = [text.split() for text in texts]
            runs = [" ".join(it[at : at + 3]) for it in words for at in range(len(it) - 2)]
            told = [it for it in runs if "see ./" not in it]
            expect((script.name, line, texts, not told or any(it in page for it in told)), (script.name, line, texts, True))
            found += bool(told)
    expect(found > 30, True)


def numberless(text):
    """A message with one number for all that has a number, as `p1` for `p9`."""
    return re.sub(r"\b([nfpslm])\d+\b", r"\g<1>1", text.replace("`", ""))


def strings_of(script):
    """The texts in a file of Python, also those in bytes."""
    for it in ast.walk(ast.parse(script.read_text(encoding="utf-8"))):
        if isinstance(it, ast.Constant) and isinstance(it.value, (str, bytes)):
            yield it.value if isinstance(it.value, str) else it.value.decode(errors="replace")


@case
def each_message_about_a_line_on_the_page_of_errors_is_one_of_the_cases():
    """What is before and behind `..` is in a text of `cases/saying.py`, or of the module that says it."""
    page = (TOP / "docs" / "ERRORS.md").read_text(encoding="utf-8").partition("### Messages about a line")[2].partition("\n## ")[0]
    said = [numberless(it) for script in ("cases/saying.py", "tool/notes.py") for it in strings_of(TOP / script)]
    messages = [it[2] for row in re.findall(r"(?m)^\| (`.*?) \| ", page) for it in re.finditer(r"(`+)(.+?)\1(?!`)", row)]
    expect(len(messages) > 25, True)
    for message in messages:
        parts = re.sub(r"^(?:FILE:\d+(?::\d+)?: )?(?:skip: |StillInUse: )?", "", message).split("..")
        expect((message, [it for it in parts if not any(numberless(it).strip(" ):") in text for text in said)]), (message, []))


@case
def api_pages_are_not_written_among_other_files():
    with tempfile.TemporaryDirectory(prefix="iox-check-") as folder:
        (Path(folder) / "mine.html").touch()
        ran = subprocess.run([sys.executable, SCRIPT, folder], capture_output=True, text=True)
        expect((ran.returncode, ran.stdout, ran.stderr), (1, "", f"docs/api.py: {folder} has other files\n"))
        expect([it.name for it in Path(folder).iterdir()], ["mine.html"])


@case
def users_pages_have_no_more_words_than_they_may():
    """As `wc -w` counts them."""
    counts = {it: len((TOP / it).read_text(encoding="utf-8").split()) for it in MOST_WORDS}
    expect({it: count for it, count in counts.items() if count > MOST_WORDS[it]}, {})


# Pages whose readers follow links: all but the notes and the benches, which are for who works on them.
LINKED = ["README.md", "examples/README.md", *sorted(it.relative_to(TOP).as_posix() for it in (TOP / "docs").glob("*.md"))]


@case
def pages_name_other_pages_by_links_and_each_is_linked():
    leads_to = set()
    for page in LINKED:
        plain = re.sub(r"(?ms)^```.*?^```$", "", (TOP / page).read_text(encoding="utf-8"))
        expect((page, re.findall(r"(?<!\[)`((?:docs|examples|bench)/\w+\.md)`", plain)), (page, []))
        leads_to |= {(TOP / page).parent / it for it in re.findall(r"\]\(([^)\s#]+)", plain) if ":" not in it}
    expect([it for it in LINKED if it != "README.md" and (TOP / it).resolve() not in {to.resolve() for to in leads_to}], [])
