"""The pages: one a crate, one of the definitions of each crate, and the index."""

import re
from html import escape

from api import reading, text
from api.text import anchor
from api.whole import whole_examples
from api.words import clause_html, file_text, href_of, path_of

OF_TYPES = ("struct", "enum", "trait", "type")
# What a first program names, in its order: the index begins with these.
OF_A_FIRST_PROGRAM = ("Hub", "HubConfig", "ServiceName", "Publisher", "Sent", "Subscriber", "Sample", "Payload", "Words")
HEADINGS = {"struct": "Structs", "enum": "Enums", "trait": "Traits", "fn": "Functions", "type": "Types", "const": "Constants"}


def page(title, body, contents=""):
    """A whole page. The search box and its list are at its head."""
    return f"""<!DOCTYPE html>
<html lang="en">
<head>
<meta charset="utf-8">
<meta name="viewport" content="width=device-width, initial-scale=1">
<meta name="color-scheme" content="light dark">
<title>{escape(title)}</title>
<link rel="stylesheet" href="style.css">
<script src="names.js" defer></script>
<script src="first.js" defer></script>
<script src="search.js" defer></script>
</head>
<body{' class="with-contents"' * bool(contents)}>
<a class="skip" href="#page-content">To the text</a>
<header>
<a class="home" href="index.html">All crates</a>
<div class="search" role="search">
<input id="page-search" type="search" placeholder="Search names ( / )" aria-label="Search items and definitions"
 autocomplete="off" spellcheck="false" role="combobox" aria-expanded="false" aria-controls="page-found" aria-autocomplete="list">
<ul id="page-found" role="listbox" aria-label="What was found" hidden></ul>
</div>
</header>
{contents}
<main id="page-content">
{body}
</main>
<p id="page-says" role="status" hidden></p>
</body>
</html>
"""


def details(summary, inner, of_class, is_open=True):
    return f'<details class="{of_class}"{" open" * is_open}><summary>{summary}</summary>{inner}</details>'


class CratePage:
    """The page of one crate."""

    def __init__(self, library, words, crate):
        self.library, self.words, self.crate = library, words, crate
        # What the search finds here: its name, its kind, where it is.
        self.names = []
        self.ids = set()
        self.whole = {place: code for (name, place), code in whole_examples().items() if name == crate.name}
        self.in_crate = self._names_of_crate()

    def _names_of_crate(self):
        """Where names in the texts of the crate lead: to modules, items and calls, where a name is that of just one."""
        found = {it: f"{it}.html" for it in self.library.crates}
        modules = [it.path for it in self.crate.modules.values() if it.path and it.is_public]
        found |= {path[-1]: f"#{'.'.join(path)}" for path in modules}
        calls = {}
        for place in self.crate.places:
            found[place.name] = f"#{place.anchor}"
            for _, it in place.impls:
                for member in (one for one in it.members if one.is_public and not it.trait):
                    calls.setdefault(member.name, []).append(f"#{place.anchor}.{member.name}")
                    found[f"{place.name}::{member.name}"] = f"#{place.anchor}.{member.name}"
            for member in (it for it in place.item.members if it.kind == "fn"):
                found[f"{place.name}::{member.name}"] = f"#{place.anchor}.{member.name}"
        return {name: hrefs[0] for name, hrefs in calls.items() if len(hrefs) == 1} | found

    # ---- links

    def name_link(self, module, owner=""):
        """Gives where a name leads in the text of a module, or of an item there: a member of the item first."""

        def link(name):
            name = name.replace("()", "")
            own = self.in_crate.get(f"{owner}::{name}".replace("::Self::", "::"))
            if own or re.fullmatch(r"[a-z]\w*", name) and module.item(name) is None:
                return own or self.in_crate.get(name)
            path = name.split("::")
            if not all(re.fullmatch(r"\w+", it) for it in path):
                return None
            place = self.library.place(module, path) or self.library.place(self.crate.root, path)
            return place.href if place else self.in_crate.get(name)

        return link

    def code_link(self, module):
        """Gives where a type leads in a signature or a block of code."""

        def link(name):
            if not re.match(r"[A-Z]\w", name):
                return None
            place = self.library.place(module, [name]) or self.library.place(self.crate.root, [name])
            return place.href if place else None

        return link

    def own_id(self, wanted):
        found, count = wanted, 1
        while found in self.ids:
            count += 1
            found = f"{wanted}-{count}"
        self.ids.add(found)
        return found

    def doc(self, module, it, owner=""):
        return text.html(it, self.name_link(module, owner), self.code_link(module), 4) if it else ""

    # ---- items

    def contract(self, item, module, own=()):
        if not item.contract:
            return ""
        link = self.words.of_file(module.text, module, own)
        lines = []
        for it in item.contract:
            label = f' <span class="label">{it.label}</span>' if it.label else ""
            inner = clause_html(it.text, link)
            lines.append(f'<span class="clause"><span class="key">{it.word}</span>{label} {{ {inner} }}</span>')
        return details("Contract", f'<pre tabindex="0"><code>{"".join(lines)}</code></pre>', "contract")

    def signature(self, head, module):
        return f'<pre class="head" tabindex="0"><code>{text.code(head, self.code_link(module))}</code></pre>'

    def call(self, item, module, before, own=()):
        """A function, a method or another member that stands by itself."""
        here = self.own_id(f"{before}.{item.name}" if before else item.name)
        owner = before.rpartition(".")[2]
        self.names.append((f"{owner}::{item.name}" if owner[:1].isupper() else item.name, item.kind, here))
        head = "\n".join([*(it for it in item.attributes if "must_use" in it), item.head])
        body = self.doc(module, item.doc, owner) + self.whole_example(here, module) + self.contract(item, module, own)
        title = f'<h4><a class="here" href="#{here}">{escape(item.name)}</a></h4>'
        return f'<section class="call" id="{here}" data-item="{item.kind}">{title}{self.signature(head, module)}{body}</section>'

    def whole_example(self, here, module):
        """A whole function with this call, where there is one."""
        if here not in self.whole:
            return ""
        return f'<pre class="example" tabindex="0"><code>{text.code(self.whole[here], self.code_link(module))}</code></pre>'

    def entries(self, place):
        """The fields of a struct that are public, or the variants of an enum."""
        item, module = place.item, place.written
        rows, link = [], self.code_link(module)
        for it in reading.read_entries(item.inside):
            if item.kind == "struct" and not it.is_public:
                continue
            here = self.own_id(f"{place.anchor}.{it.name}")
            if item.kind == "enum":
                self.names.append((f"{place.name}::{it.name}", "variant", here))
            shown = f'<dt id="{here}"><code>{text.code(without_comments(it.text), link)}</code></dt>'
            rows.append(f"{shown}<dd>{self.doc(module, it.doc, place.name)}</dd>")
        title = {"struct": "Fields", "enum": "Variants"}[item.kind]
        return f'<h4>{title}</h4><dl class="entries">{"".join(rows)}</dl>' if rows else ""

    def ghost_members(self, item, module):
        """What an implementation or a trait says to contracts: its members that only they name."""
        link, lines = self.words.of_file(module.text, module), []
        for it in item.members:
            if it.kind == "ghost" and not it.head.startswith("ghost use"):
                note = f'<span class="clause comment">// {escape(it.note)}</span>' if it.note else ""
                lines.append(f'{note}<span class="clause">{clause_html(it.head, link)}</span>')
            elif it.kind in ("type", "const"):
                lines.append(f'<span class="clause">{text.code(it.head, self.code_link(module))}</span>')
        return f'<pre tabindex="0"><code>{"".join(lines)}</code></pre>' if lines else ""

    def trait_members(self, place):
        item, module, found = place.item, place.written, []
        own = {it.name: f"#{place.anchor}" for it in item.members if it.kind == "ghost"}
        members = self.ghost_members(item, module)
        if members:
            found.append(details("What contracts name of it", members, "contract"))
        found += [self.call(it, module, place.anchor, own) for it in item.members if it.kind == "fn"]
        if place.implementors:
            rows = []
            for owner, it in place.implementors:
                shown = f"<code>{escape(one_line(it.head))}</code>"
                rows.append(f"<li>{anchor(owner.href, shown) if owner else shown}</li>")
            found.append(details(f"Implementations: {len(rows)}", f"<ul>{''.join(rows)}</ul>", "more", False))
        return "".join(found)

    def impls(self, place):
        """The methods of a type, by the modules that they are written in, and the traits that it has."""
        found, traits = [], []
        for module, it in sorted(place.impls, key=lambda it: it[0] is not place.written):
            if it.trait:
                traits.append(self.of_trait(module, it))
                continue
            calls = [member for member in it.members if member.is_public and member.kind in ("fn", "const")]
            if not calls:
                continue
            said = text.first_sentence(module.doc) if module is not place.written else ""
            title = f'<p class="from">In <code>{escape(module.name)}</code>: {text.inline(said, lambda name: None)}</p>' if said else ""
            found.append(f'{title}<pre class="of">{text.code(one_line(it.head), self.code_link(module))}</pre>')
            found += [self.call(member, module, place.anchor) for member in calls]
        shown = f'<h4>Traits</h4><ul class="traits">{"".join(traits)}</ul>' if traits else ""
        return "".join(found) + shown

    def of_trait(self, module, it):
        head = f"<code>{text.code(one_line(it.head), self.code_link(module))}</code>"
        inner = self.doc(module, it.doc) + self.ghost_members(it, module)
        return f"<li>{details(head, inner, 'more', False) if inner else head}</li>"

    def item(self, place):
        item, module = place.item, place.written
        if item.kind == "fn":
            return self.call(item, module, ".".join(place.module.path))
        here = self.own_id(place.anchor)
        self.names.append((place.name, item.kind, here))
        head = "\n".join([*(it for it in item.attributes if it.startswith("#[derive")), shown_head(item)])
        parts = [self.signature(head, module), self.doc(module, item.doc, place.name)]
        parts += [self.entries(place)] if item.kind in ("struct", "enum") else []
        parts += [self.trait_members(place)] if item.kind == "trait" else [self.impls(place)]
        title = f'<h3><span class="kind">{item.kind}</span> <a class="here" href="#{here}">{escape(place.name)}</a></h3>'
        return f'<section class="item" id="{here}" data-item="{item.kind}">{title}{"".join(parts)}</section>'

    # ---- modules

    def handed_on(self, module):
        """The names that a module hands on from where they have their place."""
        rows = []
        for name, path in module.handed_on.items():
            found = self.library.resolve(module, path)
            place = self.library.place(module, path)
            if place and place.module is module and place.crate == self.crate.name:
                continue
            href = place.href if place else f"{found.crate}.html" if found and not isinstance(found, tuple) else None
            shown = f"<code>{escape('::'.join(path))}{f' as {name}' if name != path[-1] else ''}</code>"
            rows.append(f"<li>{anchor(href, shown) if href else shown}</li>")
        title = f"<code>{escape(module.name)}</code> re-exports"
        return f'<p class="from">{title}</p><ul class="names">{"".join(rows)}</ul>' if rows else ""

    def module(self, module):
        here, parts = ".".join(module.path), []
        if module.path:
            self.ids.add(here)
            self.names.append((module.name, "mod", here))
            title = f'<h2><span class="kind">mod</span> <a class="here" href="#{here}">{escape(module.name)}</a></h2>'
            parts = [title, self.doc(module, module.doc)]
        parts.append(self.handed_on(module))
        for kind, heading in HEADINGS.items():
            of_kind = [it for it in self.crate.places if it.module is module and it.item.kind == kind]
            is_alone = kind in ("fn", "const", "type") and of_kind
            parts += [f'<h3 class="group">{heading}</h3>'] if is_alone else []
            parts += [self.item(it) for it in of_kind]
        also = [it for it in self.crate.places if it.module is not module and any(at is module and not impl.trait for at, impl in it.impls)]
        if also:
            shown = ", ".join(anchor(it.href, f"<code>{escape(it.name)}</code>") for it in also)
            parts.append(f'<p class="from">Calls of {shown} are written here.</p>')
        return f'<section class="module"{f" id={chr(34)}{here}{chr(34)}" * bool(here)}>{"".join(parts)}</section>'

    def contents(self):
        rows = []
        for module in self.crate.modules.values():
            places = [it for it in self.crate.places if it.module is module]
            if not module.is_public or not module.path and not places:
                continue
            names = "".join(f"<li>{anchor(f'#{it.anchor}', escape(it.name))}</li>" for it in places)
            title = anchor(f"#{'.'.join(module.path)}", escape(module.name)) if module.path else ""
            rows.append(f"<li>{title}<ul>{names}</ul></li>")
        inner = f'<ul>{"".join(rows)}</ul>'
        return f'<nav aria-label="On this page">{details("On this page", inner, "contents")}</nav>'

    def html(self):
        crate = self.crate
        modules = [self.module(it) for it in crate.modules.values() if it.is_public]
        calls = self.library.first_calls.get(crate.name)
        link = self.name_link(crate.root)
        words = any(it[0] == crate.name for it in self.words.known)
        parts = [
            f'<h1>{escape(crate.name)}</h1><p class="summary">{text.inline(crate.summary, link)}</p>',
            f'<p class="where">Family: {anchor(f"index.html#{crate.family.lower()}", escape(crate.family))}. '
            + f"Source: <code>crates/{crate.name}/src</code>. "
            + (f"{anchor(f'{crate.name}.definitions.html', 'Definitions')}. " if words else "")
            + '<button type="button" id="page-fold" aria-pressed="false">Fold contracts</button></p>',
            text.html(crate.root.doc, link, self.code_link(crate.root), 2),
            f"<p>First calls: {text.inline(calls, link)}</p>" if calls else "",
            *modules,
        ]
        return page(f"{crate.name}: API", "\n".join(it for it in parts if it), self.contents())


def without_comments(it):
    return re.sub(r"(?m)^\s*///?.*\n|^\s*#\[.*\n", "", it)


def one_line(it):
    return " ".join(it.split())


def shown_head(item):
    """The signature of a type; what is private in it is not named."""
    fields = reading.read_entries(item.inside) if item.kind == "struct" else []
    if item.kind == "struct" and "(" in item.head and not item.inside:
        inner = item.head[item.head.index("(") + 1 : item.head.rindex(")")]
        return item.head if "pub " in inner and "pub(" not in inner else f"{item.head[: item.head.index('(')]}(/* private */)"
    if not all(it.is_public for it in fields):
        return f"{item.head} {{ /* {'some' if any(it.is_public for it in fields) else 'all'} fields are private */ }}"
    if item.kind == "const" and len(item.head) > 400:
        return item.head.partition("=")[0].rstrip()
    return item.head


def definition(words, it, lines, link):
    """What a definition says, where it stands, and its text."""
    here, (start, end) = f"{it[1]}.{it[2]}", words.lines[it]
    inner = clause_html("\n".join(lines[start - 1 : end]).rstrip(), link)
    parts = [
        f"<h3>{anchor(f'#{here}', escape(it[2]), of_class='here')}</h3>",
        f"<p>{text.inline(words.says(it), lambda name: None)}</p>",
        f'<p class="where"><code>{path_of(it)}</code>, line {start}</p>',
        details("Text", f'<pre tabindex="0"><code>{inner}</code></pre>', "contract", False),
    ]
    return f'<section class="definition" id="{escape(here)}">{"".join(parts)}</section>'


def definitions_page(words, crate):
    """The definitions of a crate, file by file, each with what it says, where it stands and its text; and their names for the search."""
    names, parts, files = [], [], {}
    for it in words.known:
        if it[0] == crate.name and words.target(it) == it:
            files.setdefault(it[1], []).append(it)
    for stem, of_file in files.items():
        lines = file_text(of_file[0]).splitlines()
        link = words.of_file("\n".join(lines), None, {it[2]: href_of(it) for it in of_file})
        head = re.match(r"--\s*(.*)", lines[0])
        parts.append(f"<h2>{escape(stem)}</h2><p>{text.inline(head[1], lambda name: None) if head else ''}</p>")
        for it in of_file:
            names.append((it[2], "definition", f"{it[1]}.{it[2]}"))
            parts.append(definition(words, it, lines, link))
    head = f"<h1>Definitions of {anchor(f'{crate.name}.html', escape(crate.name))}</h1><p>What contracts name.</p>"
    return page(f"{crate.name}: definitions", head + "\n".join(parts), ""), names


def index_page(library, counts):
    """The crates by their families."""
    parts = [
        "<h1>API</h1><p>Each crate has a page: its items with their signatures, what they do, and the contract that is proved of them. "
        "A definition that a contract names leads to a sentence that says it in plain words; "
        '<a href="contracts.html">one page</a> has them all.</p>'
        "<p>Keys: <kbd>/</kbd> goes to the search box, <kbd>↓</kbd> and <kbd>↑</kbd> choose, <kbd>Enter</kbd> opens, "
        "<kbd>Esc</kbd> closes.</p>"
    ]
    parts.append(start_here(library))
    for family, of_it in library.families.items():
        rows = []
        for name, said in of_it.items():
            shown = text.inline(said, lambda word, name=name: f"{word}.html" if word in library.crates else item_href(library, name, word))
            cells = f'<td>{anchor(f"{name}.html", f"<code>{name}</code>")}</td><td>{shown}</td><td class="count">{counts[name]}</td>'
            rows.append(f"<tr>{cells}</tr>")
        head = "<thead><tr><th>Crate</th><th>What it has</th><th>Items</th></tr></thead>"
        shown = f'<div class="wide"><table class="crates">{head}<tbody>{"".join(rows)}</tbody></table></div>'
        parts.append(f'<section id="{family.lower()}"><h2>{family}</h2>{shown}</section>')
    return page("API of all crates", "\n".join(parts))


def start_here(library):
    """What a program needs first: the names of the prelude, and the other modules of the crate that programs depend on."""
    users = library.crates[library.FIRST]
    prelude = users.modules[("prelude",)]
    order = {name: place for place, name in enumerate(OF_A_FIRST_PROGRAM)}
    handed_on = sorted(prelude.handed_on.items(), key=lambda it: order.get(it[0], len(order)))
    named = [(name, library.place(prelude, path)) for name, path in handed_on]
    names = "".join(f"<li>{anchor(place.href, f'<code>{escape(name)}</code>')}</li>" for name, place in named if place)
    modules = [it for it in users.modules.values() if it.is_public and len(it.path) == 1]
    shown = ", ".join(anchor(f"{users.name}.html#{it.name}", f"<code>{it.name}</code>") for it in modules)
    crate, of_prelude = (anchor(href, f"<code>{name}</code>") for href, name in (
        (f"{users.name}.html", users.name), (f"{users.name}.html#prelude", f"{users.name}::prelude"),
    ))
    return (
        f'<section id="start-here"><h2>Start here</h2><p>Programs depend on {crate}. {of_prelude} has what a first program needs:</p>'
        f'<ul class="names">{names}</ul><p>Modules of {crate}: {shown}.</p></section>'
    )


def item_href(library, crate, name):
    root = library.crates[crate].root
    place = library.place(root, [name]) if re.fullmatch(r"\w+", name) else None
    named = [place.href] if place else [it.href for it in library.crates[crate].places if it.name == name]
    of_module = [f"{crate}.html#{it.name}" for it in library.crates[crate].modules.values() if it.is_public and it.path == (name,)]
    return next(iter(named if len(named) == 1 else of_module), None)
