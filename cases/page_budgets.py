"""The pages for maintainers: how many words they may have, and that each link of a page leads to a file and a heading that exist."""
import re

from cases.kit import TOP, case, expect
from cases.pages import pages as api_pages

# How many words a page may have, as `wc -w` counts them.
MOST_WORDS = {
    "ARCHITECTURE": 3000,
    "CONTRIBUTING": 2500,
    "LANES": 2500,
    "MACHINE": 5000,
    "MACHINE-PROOFS": 7500,
    "PROMISES": 12000,
    "PROMISES-STEPS": 8500,
}
PAGES = [it for it in sorted(TOP.rglob("*.md")) if not {"out", ".git"} & set(it.relative_to(TOP).parts)]


def prose(page):
    """The text of a page without its code."""
    return re.sub(r"(?s)```.*?```|`[^`\n]*`", "", page.read_text(encoding="utf-8"))


def anchors(page):
    """What a link may name behind `#`: each heading in the form that GitHub gives it, and each `id` of the page."""
    text = re.sub(r"(?s)```.*?```", "", page.read_text(encoding="utf-8"))
    headings = re.findall(r"(?m)^#+ (.*)$", text)
    slugs = {re.sub(r"[^\w -]", "", it.lower()).replace(" ", "-") for it in headings}
    return slugs | set(re.findall(r'<a id="([^"]*)"></a>', text))


def targets(page):
    """Where the links of a page lead: those written in place, and those named below it."""
    text = prose(page)
    return re.findall(r"\]\(([^)\s]+)\)", text) + re.findall(r"(?m)^\[[^\]]+\]: (\S+)$", text)


def broken(page):
    """The links of a page that lead nowhere."""
    for target in targets(page):
        path, _, anchor = target.partition("#")
        if re.match(r"[a-z]+:", path):
            continue
        other = page.parent / path if path else page
        if not other.exists() or anchor and other.suffix == ".md" and anchor not in anchors(other):
            yield f"{page.relative_to(TOP)}: {target}"


@case
def pages_have_no_more_words_than_they_may():
    counts = {name: len((TOP / "docs" / f"{name}.md").read_text(encoding="utf-8").split()) for name in MOST_WORDS}
    expect({name: count for name, count in counts.items() if count > MOST_WORDS[name]}, {})


@case
def each_link_of_a_page_leads_somewhere():
    expect([it for page in PAGES for it in broken(page)], [])


@case
def each_name_that_a_page_links_is_given_a_target():
    """`[name]` alone is a link where the page gives the name a target; on the pages of promises each stands for a premise."""
    for page in (TOP / "docs" / it for it in ("PROMISES.md", "PROMISES-STEPS.md", "MACHINE-PROOFS.md")):
        text = prose(page)
        given = set(re.findall(r"(?m)^\[([^\]]+)\]: ", text))
        used = set(re.findall(r"\[([^\[\]]+)\](?![(:])", text))
        expect((page.name, given), (page.name, used))


@case
def each_definition_that_contracts_name_has_a_sentence_on_its_api_page():
    page = api_pages()["contracts.html"]
    rows = re.findall(r"<tr><td>(.*?)</td><td>(.*?)</td><td>(.*?)</td></tr>", page)
    expect([name for name, said, _ in rows if not said], [])
    expect(sorted({file for *_, file in rows if not (TOP / file).is_file()}), [])
    # Each theorem of the machine that docs/PROMISES.md names has its definitions there.
    expect(sum(file.startswith("crates/iox_machine/specs/") for *_, file in rows) > 100, True)
