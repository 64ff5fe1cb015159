"""What iceoryx 2.0.3 replies, by the stored scripts everywhere, and by itself where it is installed."""
import re
import subprocess
import sys
from importlib import import_module

from cases.kit import TOP, Differs, NotHere, Ran, case, case_of_program, expect, expect_in

HERE = TOP / "examples" / "iceoryx"
SCRIPTS = sorted((HERE / "scripts").glob("*.iox"))
# The status where what is needed isn't installed.
NOT_BUILT = 3


@case
def the_two_models_reply_to_the_scripts_of_iceoryx_as_it_is_stored():
    sys.path[:0] = [str(TOP / "model"), str(HERE)]
    from allowed import Allowed, is_alike
    from script_model import Machine, lines_of

    Classic = import_module("classic").Classic
    expect(len(SCRIPTS), 10)
    for script in SCRIPTS:
        lines = lines_of(script.read_bytes())
        told = {end: script.with_suffix(end).read_text().splitlines() for end in (".replies", ".classic")}
        plain, classic = Machine(), Classic()
        expect((script.name, [plain.answer(it) for it in lines]), (script.name, told[".replies"]))
        ours = [classic.answer(it) for it in lines]
        expect((script.name, [a if is_alike(a, b) else b for a, b in zip(ours, told[".classic"])]), (script.name, ours))
        # Each script has a reply that iceoryx2 doesn't give, and but for the order among publishers none that it may give.
        expect((script.name, all(map(is_alike, told[".replies"], told[".classic"]))), (script.name, False))
        states = Allowed()
        differs = any([states.take(line, reply) for line, reply in zip(lines, told[".classic"])])
        expect((script.name, differs), (script.name, "-order" not in script.name))


@case_of_program
def the_program_replies_to_the_scripts_of_iceoryx_as_it_is_stored():
    for script in SCRIPTS:
        Ran("-q", script).expect(0, script.with_suffix(".replies").read_bytes())


@case
def the_pictures_of_the_scripts_of_iceoryx_are_as_they_are_drawn():
    drawn = subprocess.run([sys.executable, HERE / "draw.py", "--check"], capture_output=True, text=True)
    expect((drawn.returncode, drawn.stderr), (0, ""))
    page = (TOP / "docs" / "ICEORYX.md").read_text(encoding="utf-8")
    expect(sorted(re.findall(r"\]\(\.\./examples/iceoryx/scripts/(\S+)\.svg\)", page)), [it.stem for it in SCRIPTS])


@case
def iceoryx_replies_as_the_model_with_its_four_rules_allows():
    ran = subprocess.run([sys.executable, HERE / "compare"], capture_output=True, text=True)
    if ran.returncode == NOT_BUILT and ran.stderr.startswith("compare: "):
        raise NotHere(ran.stderr.removeprefix("compare: ").strip())
    if ran.returncode:
        raise Differs(ran.stdout + ran.stderr[-300:])
    expect_in(f"```\n{ran.stdout}```", (TOP / "docs" / "ICEORYX.md").read_text(encoding="utf-8"))
