"""Writes what a struct needs to be a payload, `Words`, `ZeroCopySend` and `Payload`, from its fields: `./vendor --struct FILE`.

`rt ci` refuses such blocks if a derive or a macro of the repository writes them, so a script does.
"""
from __future__ import annotations

import hashlib
import re
from dataclasses import dataclass
from pathlib import Path

from tool.files import put

# The first line of each file that this writes. Its sum is of the words below it, so that no file is written over that was changed since.
HEAD = "//! Written by `vendor --struct` from the fields in `{}.rt`, sum {}: write it again when they change.\n"
WRITTEN = re.compile(HEAD.replace("{}", r"(\w+)"))
PRELUDE = "Rattle.std.specs.Prelude"
HUB = "Rattle.iox_hub.specs"
# Where a name of a clause is imported from, in the order of the lines.
IMPORTS = {
    PRELUDE: "◌≡◌ ◌∷◌ [] ◌<◌ ◌^◌ ◌==◌ ℕ List length All Bool true false"
    " codes slice_index T to_bits from_bits FitsSigned refl",
    "Rattle.std.proofs.Common": "arith rules ap ◌∙◌ sym",
    "Rattle.std.proofs.lemmas.List": "drop_more drop_all",
    "Rattle.std.specs.Float": "binary32 binary64",
    "Rattle.std.specs.Float.Ieee": "fits",
    "Rattle.std.specs.Char": "IsScalar",
    "Rattle.std.specs.Int": "cast_signed cast_unsigned w8 w16 w32 w64",
    "Rattle.std.proofs.lemmas.Int": "to_z-of_z",
    f"{HUB}.QueuesBase.Coding": "narrowed narrowed-same word_of_bool char_of",
    f"{HUB}.QueuesBase.Scalars": "signed-narrowed float-narrowed float-given_back char-given_back",
    f"{HUB}.QueuesBase.Each": "first_words each_of_words many_first each_given_back",
    f"{HUB}.DescribeBase.Detail": "detail",
    f"{HUB}.DescribeBase.declared.type_detail.TypeVariant.TheVariants": "FixedSize",
}


class NotTaken(Exception):
    """Why a file isn't taken, and at which line, if one is at fault."""

    def __init__(self, why: str, line: int | None = None):
        super().__init__(why)
        self.line = line


def refuse(holds, why: str, line: int | None = None):
    if holds:
        raise NotTaken(why, line)


@dataclass(frozen=True)
class Kind:
    """A type of one word: its size, and in a clause its word, the value of a word, what holds of each value, and why it comes back.

    `X` stands for the value, `W` for the word, and `H` for what holds of it. Without a reason it comes back as it is.
    """

    size: int
    word: str
    value: str
    holds: str
    reason: str = ""


def unsigned(bits: int) -> Kind:
    if bits == 64:
        return Kind(8, "X", "W", "X < 2 ^ 64")
    return Kind(bits // 8, "X", f"narrowed {bits} (W)", f"X < 2 ^ {bits}", f"narrowed-same {bits} (X) H")


def signed(bits: int) -> Kind:
    value = "W" if bits == 64 else f"narrowed {bits} (W)"
    reason = f"to_z-of_z w{bits}" if bits == 64 else f"signed-narrowed w{bits}"
    return Kind(bits // 8, f"cast_unsigned w{bits} X", f"cast_signed w{bits} ({value})", f"FitsSigned w{bits} X", f"{reason} (X) H")


KINDS = {
    **{f"u{it}": unsigned(it) for it in (8, 16, 32, 64)},
    **{f"i{it}": signed(it) for it in (8, 16, 32, 64)},
    "usize": unsigned(64),
    "isize": signed(64),
    "f32": Kind(4, "to_bits binary32 X", "from_bits binary32 (narrowed 32 (W))", "T (fits binary32 X)", "float-narrowed (X) H"),
    "f64": Kind(8, "to_bits binary64 X", "from_bits binary64 (W)", "T (fits binary64 X)", "float-given_back (X) H"),
    "char": Kind(4, "X", "char_of (narrowed 32 (W))", "IsScalar X", "char-given_back (X) H"),
    "bool": Kind(1, "word_of_bool X", "W == 1", "Unit {0}", "flag (X)"),
}
FLAG = "let flag : (b : Bool) → (word_of_bool b == 1) ≡ b = elim [ true ↦ refl | false ↦ refl ] in "


# How many elements an array may have.
MOST = 16


@dataclass(frozen=True)
class Field:
    """A field: one value of a kind, or an array of so many."""

    name: str
    type: str
    count: int | None = None

    def kind(self) -> Kind:
        return KINDS[self.type]

    def size(self) -> int:
        return self.kind().size * (self.count or 1)

    def words(self) -> list[str]:
        """Returns its words in a clause."""
        if self.count is None:
            return [filled(self.kind().word, f"p.{self.name}")]
        return [f"slice_index ({self.first_words()}) {it}" for it in range(self.count)]

    def value(self, at: int) -> str:
        """Returns its value in a clause, of the words from a place on."""
        if self.count is None:
            return filled(self.kind().value, "", f"slice_index ws {at}")
        words = " ∷ ".join([*(f"slice_index ws {it}" for it in range(at, at + self.count)), "[]"])
        return f"each_of_words {self.of_words()} ({words})"

    def holds(self) -> str:
        """Returns what holds of its value in a clause."""
        if self.count is None:
            return filled(self.kind().holds, f"p.{self.name}")
        return f"(length p.{self.name} ≡ {self.count}) × All {self.each_holds()} p.{self.name}"

    def steps(self, holds: str) -> list[str]:
        """Returns the equations by which its words give it back."""
        if self.count is None:
            return [filled(self.kind().reason, f"p.{self.name}", holds=holds)] if self.kind().reason else []
        reason = filled(self.kind().reason or "refl", "x", holds="k")
        words = " ∷ ".join([*self.words(), "[]"])
        chain = f"drop_all {self.count} xs (Prim.search (rules, arith, k))"
        for it in reversed(range(self.count)):
            chain = f"drop_more xs {it} 0 (Prim.search (rules, arith, k)) ∙ ap (λ t. slice_index xs {it} ∷ t) ({chain})"
        listed = " ∷ ".join([*(f"slice_index xs {it}" for it in range(self.count)), "[]"])
        whole = f"let whole : (xs : List ℕ) → length xs ≡ {self.count} → {listed} ≡ xs = λ xs k. sym ({chain}) in "
        whole += f"whole ({self.first_words()}) (many_first {self.parts()} {self.count} p.{self.name})"
        each = f"each_given_back {self.parts()} {self.of_words()} {self.each_holds()} (λ x. refl) (λ x k. {reason})"
        each += f" {self.count} p.{self.name} {holds}.0 {holds}.1"
        back = f"ap (λ ws. each_of_words {self.of_words()} ws) ({whole}) ∙ {each}"
        return [f"let back : each_of_words {self.of_words()} ({words}) ≡ p.{self.name} = {back} in back"]

    def parts(self) -> str:
        return f"(λ x. {filled(self.kind().word, 'x')} ∷ [])"

    def of_words(self) -> str:
        return f"(λ ws. {filled(self.kind().value, '', 'slice_index ws 0')})"

    def each_holds(self) -> str:
        return f"(λ x. {filled(self.kind().holds, 'x')})"

    def first_words(self) -> str:
        return f"first_words {self.parts()} {self.count} p.{self.name}"

    def arms(self, at: int) -> list[str]:
        """Returns the arms of `word` for it."""
        if self.count is None:
            return [f"{at} => self.{self.name}.word(0),"]
        return [f"{at + it} => self.{self.name}.word({it})," for it in range(self.count)]

    def made(self, at: int) -> str:
        """Returns how `of_words` makes it."""
        if self.count is None:
            return f"{self.name}: {self.type}::of_words(&words[{at}..{at + 1}]),"
        words = ", ".join(f"words[{it}]" for it in range(at, at + self.count))
        return f"{self.name}: <[{self.type}; {self.count}]>::of_words(&[{words}]),"


@dataclass(frozen=True)
class Struct:
    name: str
    fields: tuple[Field, ...]

    def alignment(self) -> int:
        return max(it.kind().size for it in self.fields)

    def size(self) -> int:
        """Returns its bytes by `#[repr(C)]`, as in iceoryx2: a field is at a multiple of its kind's size, the end at one of the largest."""
        end = 0
        for it in self.fields:
            end += -end % it.kind().size + it.size()
        return end + -end % self.alignment()


# The attributes of a struct, its name, and what follows.
STRUCT = re.compile(r"(?m)^[ \t]*((?:#\[[^\]]*\]\s*)*)(?:pub(?:\([^)]*\))?\s+)?struct\s+(\w+)\s*([^\s\w])")
FIELD = re.compile(r"(pub(?:\([^)]*\))?\s+)?(\w+)\s*:\s*(.+)", re.S)


def without_comments(text: str) -> str:
    """Returns a text with blanks in the place of its comments, so that each character keeps its line."""
    return re.sub(r"//[^\n]*|/\*.*?\*/", lambda it: re.sub(r"[^\n]", " ", it[0]), text, flags=re.S)


def read_fields(inside: str, line: int) -> tuple[Field, ...]:
    fields, behind = [], 0
    for part in inside.split(","):
        at = line + inside[: behind + len(part) - len(part.lstrip())].count("\n")
        behind += len(part) + 1
        if not part.strip():
            continue
        found = FIELD.fullmatch(re.sub(r"#\[[^\]]*\]", "", part).strip())
        if not found:
            raise NotTaken(f"expected a field such as `pub x: f64`, not `{part.strip()}`", at)
        name, kind = found[2], found[3].strip()
        refuse(not found[1], f"{name} is private; write `pub(crate) {name}`, as what is written is another module", at)
        array = re.fullmatch(r"\[\s*(\w+)\s*;\s*([1-9]\d*)\s*\]", kind)
        element, count = (array[1], int(array[2])) if array else (kind, None)
        if element not in KINDS or (count or 0) > MOST:
            supported = f"these are, and arrays of 1 to {MOST} of them: {', '.join(KINDS)}"
            raise NotTaken(f"a field of type {kind} isn't supported (of an enum send its number); {supported}", at)
        fields.append(Field(name, element, count))
    return tuple(fields)


def read_structs(text: str) -> list[Struct]:
    """Returns the structs of a Rattle source file. A file without one, or with one that can't be written for, is refused."""
    plain, structs = without_comments(text), []
    for it in STRUCT.finditer(plain):
        attributes, name, opening = it.groups()
        line = plain[: it.start(2)].count("\n") + 1
        refuse(opening != "{", f"{name} has no named fields, or it has type parameters", line)
        inside, brace, _ = plain[it.end() :].partition("}")
        refuse(not brace, f"{name} has no closing brace", line)
        fields = read_fields(inside, plain[: it.end()].count("\n") + 1)
        refuse(not fields, f"{name} has no fields", line)
        refuse(not re.search(r"\bCopy\b", attributes), f"{name} isn't `Copy`; write `#[derive(Clone, Copy)]` above it", line)
        structs.append(Struct(name, fields))
    refuse(not structs, "it has no struct with named fields")
    return structs


def filled(text: str, value: str, word: str = "", holds: str = "") -> str:
    """Returns a clause of a kind with the value, the word and what holds of it in their places."""
    places = {"X": value, "W": word, "H": holds}
    return re.sub(r"\b[XWH]\b", lambda it: places[it[0]], text)


def words_block(struct: Struct) -> str:
    """Returns the block by which a struct is copied: one word for each field, in their order."""
    placed, count = [], 0
    for it in struct.fields:
        placed.append((it, count))
        count += it.count or 1
    alone = len(placed) == 1
    parts = " ∷ ".join([*(word for it in struct.fields for word in it.words()), "[]"])
    values = "".join(f"\n      {it.name} = {it.value(at)};" for it, at in placed)
    each = [it.holds() for it in struct.fields]
    holds = each[0] if alone else " × ".join(f"({it})" if re.search("[<×]", it) else it for it in each)
    steps = [step for number, it in enumerate(struct.fields) for step in it.steps("h" if alone else f"h.{number}")]
    flag = FLAG if any(it.type == "bool" for it in struct.fields) else ""
    back = flag + "".join(f"rw ({it}) " for it in steps) + "refl"
    arms = "".join(f"\n            {arm}" for it, at in placed for arm in it.arms(at))
    made = "".join(f"\n            {it.made(at)}" for it, at in placed)
    shown = "".join(f"\n        self.{it.name}.shows();" for it in struct.fields)
    return f"""\
/// One word for each field.
impl Words for {struct.name} {{
    ghost parts = {{ λ p. {parts} }};

    ghost of_parts = {{ λ ws. record {{{values}
    }} }};

    ghost is_value = {{ λ p. {holds} }};

    const WORDS: usize = {count};

    ghost WORDS = {{ {count} }};

    fn word(&self, i: usize) -> u64 {{
        match i {{{arms}
            _ => 0,
        }}
    }}

    fn of_words(words: &[u64]) -> {struct.name} {{
        {struct.name} {{{made}
        }}
    }}

    fn shows(&self) {{{shown}
    }}

    ghost as_many = {{ λ p. refl }};

    ghost given_back = {{ λ p h. {back} }};
}}
"""


def detail_blocks(struct: Struct) -> str:
    """Returns the blocks that both ends agree on: the name, the size and the alignment, as an element of slices and as a single value."""
    name, size, alignment = struct.name, struct.size(), struct.alignment()
    return f"""\
impl ZeroCopySend for {name} {{
    ghost name = {{ codes "{name}" }};

    ghost size = {{ {size} }};

    ghost alignment = {{ {alignment} }};

    fn type_detail(variant: TypeVariant) -> TypeDetail {{
        TypeDetail::known(variant, b"{name}", {size}, {alignment})
    }}
}}

impl Payload for {name} {{
    ghost detail = {{ detail FixedSize (codes "{name}") {size} {alignment} }};

    fn type_detail() -> TypeDetail {{
        <{name} as ZeroCopySend>::type_detail(TypeVariant::FixedSize)
    }}
}}
"""


def import_lines(blocks: str) -> str:
    """Returns the lines that import the names of the clauses, those alone that stand there."""
    used = {*re.findall(r"[^\s(){};,]+", re.sub(r"(?m)^.*\bfn .*$", "", blocks))}
    lines = []
    for module, names in IMPORTS.items():
        wanted = [it for it in names.split() if it == "◌≡◌" or it.strip("◌") in used or it in used]
        if [it for it in wanted if it != "◌≡◌"]:
            lines.append(f"ghost use {module}.{{{', '.join(wanted)}}};\n")
    return "".join(lines)


def written(module: str, structs: list[Struct]) -> str:
    """Returns the file that is written for the structs of a module."""
    blocks = "\n".join(f"{words_block(it)}\n{detail_blocks(it)}" for it in structs)
    names = ", ".join(sorted(it.name for it in structs))
    names = names if len(structs) == 1 else f"{{{names}}}"
    below = f"{import_lines(blocks)}\nuse super::{module}::{names};\nuse iox_hub::prelude::*;\n\n{blocks}"
    return HEAD.format(module, sum_of(below)) + below


def sum_of(text: str) -> str:
    """The sum of a text's words, in whatever lines they are."""
    return hashlib.sha256(" ".join(text.split()).encode()).hexdigest()[:16]


def is_ours(text: str) -> bool:
    """Whether this wrote a file, and nobody changed it since."""
    head = WRITTEN.match(text)
    return head is not None and head[2] == sum_of(text[head.end() :])


def write_for(source: Path, text: str) -> Path:
    """Writes what the structs of a file with this text need into a file beside it, and returns that file."""
    blocks = written(source.stem, read_structs(text))
    made = source.with_name(f"{source.stem}_words.rt")
    if made.exists() and not is_ours(made.read_text(encoding="utf-8", errors="replace")):
        raise NotTaken(f"{made} exists, and `vendor --struct` didn't write it, or it was changed since: move it away")
    put(made, blocks.encode())
    return made
