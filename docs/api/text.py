"""The text of doc comments as HTML: paragraphs, lists, tables, blocks of code, code, links and strong words."""

import re
from html import escape

INLINE = re.compile(
    r"`(?P<code>[^`]+)`|\[`(?P<named>[^`\]]+)`\](?!\()|\[(?P<shown>[^\]]+)\]\((?P<url>[^)]+)\)|\*\*(?P<strong>[^*]+)\*\*"
    r"|<(?P<auto>https?://[^>]+)>"
)
KEYWORDS = re.compile(
    r"\b(?:as|break|const|continue|else|enum|ensures|fn|for|ghost|if|impl|in|let|loop|match|move|mut|pub|ref|requires|return|self|Self"
    r"|static|struct|trait|type|use|where|while)\b"
)
TOKENS = re.compile(r"(?P<comment>//[^\n]*)|(?P<text>b?\"(?:[^\"\\]|\\.)*\")|(?P<word>[A-Za-z_]\w*)|(?P<other>.)", re.S)


def anchor(href, shown, title="", of_class=""):
    parts = [f' href="{escape(href)}"', f' title="{escape(title)}"' * bool(title), f' class="{of_class}"' * bool(of_class)]
    return f"<a{''.join(parts)}>{shown}</a>"


def inline(text, link):
    """A line of text. `link` gives the page of a name in code, or nothing."""

    def shown(it):
        if name := it["code"] or it["named"]:
            code, href = f"<code>{escape(name)}</code>", link(name)
            return anchor(href, code) if href else code
        if it["url"]:
            href = it["url"] if "/" in it["url"] else link(it["url"])
            shown = re.sub(r"</?a\b[^>]*>", "", inline(it["shown"], link))
            return anchor(href, shown) if href else shown
        return anchor(it["auto"], escape(it["auto"])) if it["auto"] else f"<strong>{inline(it['strong'], link)}</strong>"

    found, at = [], 0
    for it in INLINE.finditer(text):
        found += [escape(text[at : it.start()]), shown(it)]
        at = it.end()
    return "".join([*found, escape(text[at:])])


def code(text, link):
    """Lines of code, with words that mean something else than a name, comments and texts told apart."""
    found = []
    for it in TOKENS.finditer(text):
        shown = escape(it[0])
        if it["comment"] or it["text"]:
            shown = f'<span class="{"comment" if it["comment"] else "text"}">{shown}</span>'
        elif it["word"] and KEYWORDS.fullmatch(it[0]):
            shown = f'<span class="key">{shown}</span>'
        elif it["word"]:
            href = link(it[0])
            shown = anchor(href, shown) if href else shown
        found.append(shown)
    return "".join(found)


def cells_of(line):
    return [it.strip().replace("\\|", "|") for it in re.split(r"(?<!\\)\|", line.strip().strip("|"))]


def table(lines, link):
    head, rows = cells_of(lines[0]), [cells_of(it) for it in lines[2:]]
    row = lambda cells, tag: "<tr>" + "".join(f"<{tag}>{inline(it, link)}</{tag}>" for it in cells) + "</tr>"
    body = "".join(row(it, "td") for it in rows)
    return f'<div class="wide"><table><thead>{row(head, "th")}</thead><tbody>{body}</tbody></table></div>'


def listing(lines, link):
    ordered = bool(re.match(r"\d", lines[0]))
    entries = []
    for line in lines:
        if it := re.match(r"(?:[-*]|\d+\.) (.*)", line):
            entries.append(it[1])
        else:
            entries[-1] += f" {line.strip()}"
    tag = "ol" if ordered else "ul"
    return f"<{tag}>" + "".join(f"<li>{inline(it, link)}</li>" for it in entries) + f"</{tag}>"


def blocks(text):
    """The parts of a text, each with its kind and its lines."""
    found, lines, at = [], text.splitlines(), 0

    def kind_of(line):
        starts = ((r"```", "code"), (r"Example: ", "example"), (r"\|", "table"), (r"#+ ", "heading"), (r"(?:[-*]|\d+\.) ", "list"))
        return next((kind for start, kind in starts if re.match(start, line)), "" if not line.strip() else "text")

    while at < len(lines):
        kind, behind = kind_of(lines[at]), at + 1
        if kind == "code":
            while behind < len(lines) and not lines[behind].startswith("```"):
                behind += 1
            found.append((kind, lines[at + 1 : behind]))
            at = behind + 1
            continue
        goes_on = {"table": ("table",), "list": ("list", "text"), "text": ("text",)}.get(kind, ())
        while behind < len(lines) and kind_of(lines[behind]) in goes_on:
            behind += 1
        if kind:
            found.append((kind, lines[at:behind]))
        at = behind
    return found


def html(text, link, code_link, level=3):
    """A doc comment, where headings begin at a level. The second link is that of names in blocks of code."""
    found = []
    for kind, lines in blocks(text):
        if kind == "code":
            shown = "\n".join(lines)
            found.append(f'<pre class="example" tabindex="0"><code>{code(shown, code_link)}</code></pre>')
        elif kind == "example":
            shown = ", ".join(f"<code>{code(it, code_link)}</code>" for it in examples_of(lines))
            found.append(f'<p class="example">Example: {shown}</p>')
        elif kind == "table" and len(lines) > 1:
            found.append(table(lines, link))
        elif kind == "list":
            found.append(listing(lines, link))
        elif kind == "heading":
            found.append(f"<h{level}>{inline(lines[0].lstrip('# '), link)}</h{level}>")
        else:
            found.append(f"<p>{inline(' '.join(lines), link)}</p>")
    return "\n".join(found)


def examples_of(lines):
    """What stands in backticks in the lines of an example."""
    return re.findall(r"`([^`]+)`", " ".join(lines))


def code_of(text):
    """All blocks of code of a text, and the code of its lines of examples."""
    parts = [(kind, lines) for kind, lines in blocks(text) if kind in ("code", "example")]
    return "\n".join("\n".join(lines if kind == "code" else examples_of(lines)) for kind, lines in parts)


def first_sentence(text):
    """The first sentence of a text, without marks."""
    for kind, lines in blocks(text):
        if kind in ("text", "list"):
            return re.split(r"(?<=[.:;])\s", " ".join(lines).replace("`", ""))[0]
    return ""
