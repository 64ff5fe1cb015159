"""Out of memory comes from an allocator: docs/notes/MEMORY.md, held against the sources, and what the list must not pass over."""
import importlib
import re
import subprocess
import sys
from collections import Counter

from cases.kit import TOP, case, expect, expect_in

sys.path.insert(0, str(TOP / "docs"))


def part(name):
    """A part of docs/memory.py; it is looked for where a case needs it, since copies of this folder have no docs/."""
    return importlib.import_module(f"memory.{name}")


# The body of a function, and what the list says of it.
BODIES = [
    ("if byte > 127 { return Err(AllocError); } text.push_str(\"\\\\x{\")?;", ["if byte > 127 → return Err(AllocError)"]),
    ("let room = all.checked_mul(4).ok_or(AllocError)?;", ["let room = all.checked_mul(4).ok_or(AllocError)?"]),
    ("self.add(it).map_err(|_| HubError::OutOfMemory)", ["self.add(it).map_err(| _ | HubError::OutOfMemory)"]),
    ("let Some(sum) = of(a) else { return Err(AllocError); };", ["let Some(sum) = of(a) else → return Err(AllocError)"]),
    (
        "match self.find(it) { Ok(at) if at > 9 => { self.answer = Some(LoanAnswer::OutOfMemory); } _ => {} }",
        ["match self.find(it) → Ok(at) if at > 9 → self.answer = Some(LoanAnswer::OutOfMemory)"],
    ),
    ("if a { go() } else if b { Err(AllocError) } else { Ok(()) }", ["if not a and b → Err(AllocError)"]),
    ("if let Seen { at } = it { Stepped::NoMemory } else { Stepped::Went }", ["if let Seen { at } = it → Stepped::NoMemory"]),
    ("while more() { for it in 0..9 { return Stepped::NoMemory; } }", ["while more() → for it in 0..9 → return Stepped::NoMemory"]),
    ("Made { state: if parties > 3 { return Err(AllocError) } else { State::new()? } }", ["if parties > 3 → return Err(AllocError)"]),
    # What the condition names is told, too: a change of it changes the row.
    ("let full = self.len() > 9; if full { Err(AllocError) }", ["if full → Err(AllocError); let full = self.len() > 9"]),
    ("let mut no = false; no = add(it); if no { Err(AllocError) }", ["if no → Err(AllocError); let mut no = false; no = add(it)"]),
    ("if self.len() > MOST { return Err(AllocError); }", ["if self.len() > MOST → return Err(AllocError); MOST = 1 << HALF; HALF = 9"]),
    ("const FEW: u8 = 4; if a > FEW { Err(AllocError) }", ["if a > FEW → Err(AllocError); const FEW: u8 = 4"]),
    # A value of it that is made first is made where it is used.
    ("let error = Failed::OutOfMemory; if a { return Err(error); }", ["let error = Failed::OutOfMemory", "if a → return Err(error)"]),
    # Another refusal beside it in the arm is turned into it.
    ("match it { Err(AllocError) | Full => Err(AllocError), _ => Ok(()) }", ["match it → Err(AllocError) | Full → Err(AllocError)"]),
    # An allocator that is asked for more than there can be finds no memory, either.
    ("Vec::<u64>::with_capacity(alloc, usize::MAX)?;", ["with_capacity(alloc, usize::MAX)"]),
    ("if at > 9 { self.items.reserve(1)?; }", ["if at > 9 → reserve(1)"]),
    ("let more = if a { 9 } else { 1 }; self.items.reserve(more)?;", ["reserve(more); let more = if a { 9 } else { 1 }"]),
    ("self.items.reserve(beside(at))?;", ["reserve(beside(at))"]),
    ("let set = Set::new(alloc, self.len() << 40)?;", ["new(alloc, self.len() << 40)"]),
    ("let one = vec![in alloc; 0; self.len() + 1]?; self.items.reserve(more)?; Set::new(alloc, one)?;", []),
    # What a callee answered is handed on; a pattern, a type and a comparison make nothing.
    ("match it { Err(AllocError) => Stepped::NoMemory, Err(Full) => Stepped::Skipped }", []),
    ("if let Err(AllocError) = it { return Err(LoanError::OutOfMemory); }", []),
    ("let it: Result<u8, AllocError> = Ok::<u8, AllocError>(3);", []),
    ("matches!(it, Stepped::NoMemory) || it == Stepped::NoMemory", []),
    ("// return Err(AllocError);\n/* Err(AllocError) */ print(\"Err(AllocError)\", 'E')", []),
]
CONSTANTS = {"MOST": ["MOST = 1 << HALF"], "HALF": ["HALF = 9"]}
# A file, and what the list says of it.
FILE = '''//! Rows.
use std::alloc::{AllocError, AllocError as Want, Global};

const MOST: usize = 1 << 9;

const REFUSED: AllocError = AllocError;

impl From<AllocError> for Failed {
    fn from(_error: AllocError) -> Failed {
        Failed::OutOfMemory
    }
}

impl From<Full> for Failed {
    fn from(_error: Full) -> Failed {
        Failed::OutOfMemory
    }
}

impl Rows {
    /// Makes room, and answers `Err(AllocError)` where there is none.
    pub fn reach(&mut self, count: usize) -> Result<(), AllocError>
        requires { count < 2 ^ 64 }
        ensures { OnErr result (self.new ≡ self.old) }
    {
        if self.lacks(count) {
            return Err(AllocError);
        }
        self.items.reserve(count)
    }

    fn lacks(&self, count: usize) -> bool {
        count > MOST
    }

    fn refuse(&self, count: usize) -> Result<(), AllocError> {
        if count == 7 {
            return Err(REFUSED);
        }
        Err(Want)
    }

    fn settle<E>(&self, errors: Lacking<E>) -> Result<(), E> {
        if self.len() > 3 {
            return Err(errors.opened);
        }
        Ok(())
    }

    pub fn share(self, alloc: Global) -> Result<Shared, Rows> {
        if self.len() > 3 {
            return Err(self);
        }
        Shared::new(alloc)
    }
}
'''
PLACES = [
    ("Failed::from", "Failed::OutOfMemory"),
    ("Rows::reach", "if self.lacks(count) → return Err(AllocError); lacks() is "),
    ("Rows::refuse", "if count == 7 → return Err(REFUSED)"),
    ("Rows::refuse", "Err(Want)"),
    ("Rows::settle", "if self.len() > 3 → return Err(errors.opened)"),
    ("Rows::share", "if self.len() > 3 → return Err(self)"),
]


@case
def each_place_of_out_of_memory_stands_in_the_table_with_its_reason():
    compared = subprocess.run([sys.executable, TOP / "docs" / "memory.py"], capture_output=True, text=True)
    expect((compared.returncode, compared.stderr), (0, ""))


@case
def the_list_of_out_of_memories_sees_each_form_of_code():
    for body, wanted in BODIES:
        expect((body, [it.text for it in part("places").Body(body).places(CONSTANTS)]), (body, wanted))


@case
def the_list_of_out_of_memories_reads_a_file_by_its_functions():
    Crate = part("sources").Crate
    found = [(name, it.text) for name, it in Crate({"rows.rt": FILE}).places("rows.rt")]
    expect([(name, text[: len(wanted)]) for (name, text), (_, wanted) in zip(found, PLACES)], PLACES)
    expect(len(found), len(PLACES))
    # A function by which a condition is decided is told by a sum of its body.
    changed = Crate({"rows.rt": FILE.replace("count > MOST", "count > 3")})
    expect([*changed.places("rows.rt")][1][1].text == found[1][1], False)


@case
def a_place_a_condition_or_a_constant_that_differs_from_the_table_is_told():
    page = part("page")
    found = [("rows.rt", name, it.text) for name, it in part("sources").Crate({"rows.rt": FILE}).places("rows.rt")]
    whole = page.written(page.HEADER, found)
    expect(len(page.differences(whole, found)), len(PLACES))
    whole = whole.replace("|  |\n", "| a reason |\n")
    expect(page.differences(whole, found), [])
    expect_in("a new or changed place of out of memory: rows.rt: Rows::share", page.differences(whole, [*found, found[-1]])[0])
    expect_in("no place any longer: rows.rt: Rows::share", page.differences(whole, found[:-1])[0])
    new = found[0][:2] + ("if a | b → " + found[0][2],)
    told = [it.partition(":")[0] for it in page.differences(whole, [new, *found[1:]])]
    expect(told, ["a new or changed place of out of memory", "no place any longer"])
    expect(page.differences(page.written(page.HEADER, [new]).replace("|  |\n", "| a reason |\n"), [new]), [])


def changes(edit):
    """The changes of a planted body to sources: file, text before, text after."""
    lines = [it.partition(": ") for it in edit.read_text(encoding="utf-8").splitlines()]
    texts = {"file": [], "old": [], "new": []}
    for key, _, text in lines:
        if key in texts:
            texts[key].append(text)
    return [it for it in zip(*texts.values()) if it[0].endswith(".rt")]


@case
def each_planted_body_that_makes_an_out_of_memory_changes_the_list():
    made = re.compile(rf"\b(?:{'|'.join(part('places').WORDS)})\b(?! *=>)")
    sources, tried = part("sources"), 0
    for crate in sources.libraries():
        texts = sources.texts_of(crate)
        for edit in sorted((TOP / "planted" / crate).glob("*.edit")):
            found = [(f"{crate}/{file}", old, new) for file, old, new in changes(edit)]
            is_of_body = not re.search("requires|ensures", "".join(new for _, _, new in found))
            if not is_of_body or all(len(made.findall(new)) <= len(made.findall(old)) for _, old, new in found):
                continue
            before = {file: texts[file] for file, _, _ in found}
            after = dict(before)
            for file, old, new in found:
                after[file] = after[file].replace(old, new)
            tried += 1
            expect((edit.stem, Counter(sources.places(before)) != Counter(sources.places(after))), (edit.stem, True))
    expect(tried > 40, True)
