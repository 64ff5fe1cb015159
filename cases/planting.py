"""Planted faults: each fits the text that it changes, those of each gate fall, and the pages on them name what is there."""
import re
import subprocess

from cases.kit import LONG, TOP, Differs, case, case_behind_proofs, expect
from planted.trying import choosing, page, table, tests
from planted.trying.edits import edit_of, every_edit, fault_of

NOTES = TOP / "docs" / "notes"


@case_behind_proofs
def the_wrong_bodies_of_each_gate_fall_as_their_rows_say():
    ran = subprocess.run([TOP / "planted" / "try", "--gate", "--jobs", "2"], stdout=subprocess.PIPE, text=True, timeout=LONG)
    for line in ran.stdout.splitlines():
        if line.startswith("note: "):
            print(line, flush=True)
    if ran.returncode:
        raise Differs("; ".join(line for line in ran.stdout.splitlines() if line.startswith("FAILED")) or ran.stdout[-300:])


@case
def each_planted_fault_fits_the_text_that_it_changes():
    edits = every_edit() + [edit_of(it) for it in sorted(TOP.glob("crates/*/must-fail/*.edit"))]
    faults = ((str(it.path.relative_to(TOP)), fault_of(it, TOP / "crates" / it.crate)) for it in edits)
    expect([it for it in faults if it[1]], [])


@case
def each_law_that_a_planted_fault_names_is_a_function_of_its_crate():
    wrong = []
    for it in every_edit():
        text = "".join(file.read_text(encoding="utf-8") for file in (TOP / "crates" / it.crate / "src").rglob("*.rt")) if it.laws else ""
        wrong += [f"{it.key}: {law}" for law in it.laws if not re.search(rf"\bfn {law}\b", text)]
    expect(wrong, [])


@case
def each_test_or_case_that_a_planted_fault_names_is_there():
    wrong = [f"{it.key}: {it.case}" for it in every_edit() if it.case and not tests.is_there(it.case)]
    for it in every_edit():
        crate, name = it.test or ("", "")
        file = TOP / "crates" / crate / "src" / f"{name.rpartition('::')[0].replace('::', '/')}.rt"
        if name and not (file.exists() and f"#[test]\nfn {name.rpartition('::')[2]}(" in file.read_text(encoding="utf-8")):
            wrong.append(f"{it.key}: {crate} {name}")
    expect(wrong, [])


@case
def each_body_of_the_gate_is_planted_and_its_row_names_what_refuses_it():
    rows, there = table.read(), {it.key for it in every_edit()}
    named = [key for keys in choosing.promised().values() for key in keys]
    expect([key for key in named if key not in there or key in rows and rows[key].how not in table.HELD], [])


@case
def the_rows_of_planted_faults_are_of_bodies_that_are_there():
    there = {it.key for it in every_edit()}
    expect([key for key in table.read() if key not in there], [])


@case
def the_page_of_planted_faults_is_what_its_table_says():
    expect(page.PAGE.read_text(encoding="utf-8") == page.written(), True)


@case
def the_page_of_wrong_machines_names_each_edit_that_is_planted():
    rows = re.findall(r"(?m)^\| (`[^|]*`) \| [^|]* \| [^|]* \|$", (NOTES / "MACHINE.md").read_text(encoding="utf-8"))
    named = sorted(it for row in rows for it in re.findall(r"`([\w-]+)`", row))
    expect(named, sorted(it.stem for it in TOP.glob("planted/iox_machine/*.edit")))
