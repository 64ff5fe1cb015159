"""What `./vendor` copies, writes, updates and refuses: from this repository, and from a small one with a history of its own."""
import json
import os
import shutil
import subprocess
import sys
import tempfile
from pathlib import Path

from cases.kit import TOP, NotHere, case, expect, expect_in

RECORD = "third_party/kohepuri/vendored.json"
HANDLES = "Handles allowed: Threads, Wait."
# The crates of the small repository: `high` stands on `low`, and `waiting` is alone.
LINES = "# Ours.\nlow: thiserror\nhigh: low\nwaiting may_wait=1: atomic_table\n"


def vendor(*words, at=TOP / "vendor", **how):
    # Without what this machine has Python load at each start, which takes longer than the script.
    return subprocess.run([sys.executable, "-S", at, *words], capture_output=True, text=True, **how)


def files_below(folder):
    return {it.relative_to(folder).as_posix(): it.read_bytes() for it in sorted(folder.rglob("*")) if it.is_file()}


class Small:
    """A small repository with `vendor` in it, and a user's folder beside it that has a licence and a crate of its own."""

    def __init__(self):
        self.kept = tempfile.TemporaryDirectory(prefix="iox-check-")
        self.top, self.user = Path(self.kept.name) / "small", Path(self.kept.name) / "user"
        (self.top / "tool").mkdir(parents=True)
        for it in ("vendor", "LICENSE", "NOTICE", "tool/__init__.py", "tool/files.py", "tool/vendor.py"):
            shutil.copy2(TOP / it, self.top / it)
        self.write(self.top, {"crates.txt": LINES, "HANDLES": f"{HANDLES}\n"})
        for it in ("low", "high", "waiting"):
            self.write(self.top, {f"crates/{it}/src/lib.rt": f"//! {it}\n", f"crates/{it}/specs/Lib.antt": f"-- {it}\n"})
        self.write(self.user, {"crates.txt": "mine: high", "LICENSE": "my own\n", "crates/mine/src/main.rt": "// mine\n"})

    def __enter__(self):
        return self

    def __exit__(self, *_):
        self.kept.cleanup()

    def write(self, top, texts):
        for path, text in texts.items():
            (top / path).parent.mkdir(parents=True, exist_ok=True)
            (top / path).write_text(text, encoding="utf-8")

    def run(self, *words, **how):
        return vendor(*words, at=self.top / "vendor", **how)

    def copy(self, *names):
        ran = self.run(self.user, *names)
        expect((ran.returncode, ran.stderr), (0, ""))
        return ran.stdout.splitlines()

    def update(self, *words):
        ran = self.run("--update", *words, self.user)
        expect((ran.returncode, ran.stderr), (0, ""))
        return ran.stdout.splitlines()

    def expect_refused(self, status, words, *parts):
        """Runs it, and expects one line with these parts on standard error alone, and that nothing is written."""
        before = files_below(self.user)
        ran = self.run(*words)
        expect((words, ran.returncode, ran.stdout, ran.stderr.count("\n")), (words, status, "", 1))
        for it in parts:
            expect_in(it, ran.stderr)
        expect(files_below(self.user), before)

    def record(self):
        return json.loads((self.user / RECORD).read_text(encoding="utf-8"))

    def commit(self):
        """Commits all, and returns the commit."""
        if not shutil.which("git"):
            raise NotHere("no git")
        git = ["git", "-C", self.top, "-c", "user.name=x", "-c", "user.email=x", "-c", "commit.gpgsign=false"]
        for words in (["init", "-q"], ["add", "--all"], ["commit", "-q", "-m", "x"]):
            subprocess.run([*git, *words], check=True, capture_output=True)
        return subprocess.run([*git, "rev-parse", "HEAD"], check=True, capture_output=True, text=True).stdout.strip()


@case
def vendor_copies_crates_with_those_below_and_keeps_what_is_there():
    with tempfile.TemporaryDirectory(prefix="iox-check-") as folder:
        (Path(folder) / "crates.txt").write_text("mine: iox_index")
        (Path(folder) / "linked").symlink_to(TOP / "vendor")
        ran = vendor(".", "iox_index", at=Path(folder) / "linked", cwd=folder)
        expect((ran.returncode, ran.stderr, ran.stdout.count("added, its line added")), (0, "", 2))
        lines = (TOP / "crates.txt").read_text(encoding="utf-8").splitlines()
        lines = [it for it in lines if it.startswith(("iox_container:", "iox_index:"))]
        expect((Path(folder) / "crates.txt").read_text(encoding="utf-8").splitlines(), ["mine: iox_index", *lines])
        expect(sorted(it.name for it in (Path(folder) / "crates").iterdir()), ["iox_container", "iox_index"])
        expect(sorted(it.name for it in (Path(folder) / "crates" / "iox_container").iterdir()), ["proofs", "specs", "src"])
        kept = vendor(folder, "iox_index").stdout.splitlines()
        expect(kept[:-1], ["LICENSE and NOTICE: kept", "iox_container: kept", "iox_index: kept"])
        expect((Path(folder) / "crates.txt").read_text(encoding="utf-8").count("\n"), 3)


@case
def vendor_refuses_in_one_line_and_then_writes_nothing():
    with tempfile.TemporaryDirectory(prefix="iox-check-") as folder:
        (Path(folder) / "crates" / "iox_container").mkdir(parents=True)
        file = Path(folder) / "file"
        file.touch()
        for status, words in (
            (64, []), (64, [folder]), (64, ["--fast", folder, "iox_line"]), (64, [folder, "iox_nothing"]),
            (64, [folder, "iox_values_rows"]), (64, [folder, "iox_queues_base", "iox_index"]),
            (66, [f"{folder}/missing", "iox_line"]), (66, [file, "iox_line"]),
        ):
            ran = vendor(*words)
            expect((ran.returncode, ran.stdout, ran.stderr.count("\n")), (status, "", 1))
        expect(sorted(it.name for it in Path(folder).rglob("*")), ["crates", "file", "iox_container"])


@case
def vendor_says_nothing_if_nobody_reads_what_it_prints_and_tells_of_a_full_disk():
    with Small() as small, open("/dev/full", "w", encoding="utf-8") as full:
        for words, status in ((["--list"], 0), (["--help"], 0), ([small.user, "low"], 0)):
            reads, nobody = os.pipe()
            os.close(reads)
            how = {"stdout": nobody, "stderr": subprocess.PIPE, "text": True}
            ran = subprocess.run([sys.executable, "-S", small.top / "vendor", *words], **how)
            os.close(nobody)
            expect((words, ran.returncode, ran.stderr), (words, status, ""))
        expect([*small.record()["copied"]], ["LICENSE and NOTICE", "low"])
        ran = subprocess.run([sys.executable, small.top / "vendor", "--list"], stdout=full, stderr=subprocess.PIPE, text=True)
        expect((ran.returncode, ran.stderr), (66, "vendor: standard output: No space left on device\n"))


@case
def vendor_refuses_options_that_do_not_fit():
    with Small() as small:
        for words in (
            ["--update"], ["--update", small.user, "low"], ["--force", small.user, "low"], ["--list", small.user], ["--list", "--update"],
            ["--upd", small.user],
        ):
            small.expect_refused(64, words, "see ./vendor --help")
        small.expect_refused(64, [small.top, "low"], "is this repository itself")
        small.expect_refused(64, ["--update", small.user], RECORD, "isn't there")
        expect(sorted(files_below(small.user)), ["LICENSE", "crates.txt", "crates/mine/src/main.rt"])


@case
def vendor_brings_the_licence_and_the_notice_beside_the_users_own():
    with Small() as small:
        expect(small.copy("low")[0], "LICENSE and NOTICE: added")
        for it in ("LICENSE", "NOTICE"):
            expect((small.user / "third_party" / "kohepuri" / it).read_bytes(), (TOP / it).read_bytes())
        expect((small.user / "LICENSE").read_text(encoding="utf-8"), "my own\n")
        expect((small.user / "NOTICE").exists(), False)


@case
def vendor_refuses_what_stands_in_its_way():
    with Small() as small:
        small.write(small.user, {"third_party/kohepuri/NOTICE": "my own\n"})
        small.expect_refused(64, [small.user, "low"], "third_party/kohepuri exists already, and its files differ from ours")
        shutil.rmtree(small.user / "third_party")
        small.write(small.user, {"third_party": "a file\n"})
        small.expect_refused(66, [small.user, "low"], "third_party: not a directory")
        (small.user / "third_party").unlink()
        (small.user / "crates.txt").write_bytes(b"mine: high  # Gr\xf6\xdfe\n")
        small.expect_refused(66, [small.user, "low"], "crates.txt has bytes that aren't UTF-8")
        (small.user / "crates.txt").unlink()
        (small.user / "crates.txt").mkdir()
        small.expect_refused(66, [small.user, "low"], "crates.txt: Is a directory")


@case
def vendor_writes_which_commit_it_took():
    with Small() as small:
        commit = small.commit()
        expect(small.copy("high")[-1], f"{RECORD}: commit {commit}, a git checkout")
        record = small.record()
        expect(sorted(record.pop("copied")), ["LICENSE and NOTICE", "high", "low"])
        expect(record, {"project": "Kohepuri", "version": "0.1.0", "commit": commit, "source": "a git checkout"})
        # A hook of another repository names that one to git.
        ran = small.run(small.user, "low", env={"PATH": "/usr/local/bin:/usr/bin:/bin", "GIT_DIR": str(small.user / "none")})
        expect((ran.returncode, small.record()["commit"]), (0, commit))


@case
def vendor_writes_that_there_are_local_changes_or_that_it_is_no_checkout():
    with Small() as small:
        commit = small.commit()
        small.write(small.top, {"README.md": "changed\n"})
        expect(small.copy("low")[-1], f"{RECORD}: commit {commit}, a git checkout with local changes")
        expect([small.record()[it] for it in ("commit", "source")], [commit, "a git checkout with local changes"])
        # It lies in a checkout, but is none itself.
        (small.top / ".git").rename(small.top.parent / ".git")
        was = f"; before: commit {commit}, a git checkout with local changes"
        expect(small.copy("low")[-1], f"{RECORD}: no git checkout{was}")
        expect([small.record()[it] for it in ("commit", "source")], [None, "no git checkout"])
        small.write(small.top, {".git": "no place\n"})
        expect(small.copy("low")[-1], f"{RECORD}: a git checkout whose commit git doesn't tell; before: no git checkout")


@case
def vendor_updates_what_was_copied_and_says_what_changed():
    with Small() as small:
        first = small.commit()
        small.copy("high", "waiting")
        # What the user has beside it: a comment on a line, a crate of their own, what rt made, a planted fault.
        listed = small.user / "crates.txt"
        listed.write_text(listed.read_text(encoding="utf-8").replace("high: low\n", "high: low  # of ours\n"), encoding="utf-8")
        small.write(small.user, {"crates/low/out/built": "x", "crates/low/must-fail/mine.edit": "x"})
        low = small.top / "crates" / "low"
        small.write(low, {"src/lib.rt": "//! low, anew\n", "proofs/sum/Proof.antt": "-- new\n"})
        shutil.rmtree(low / "specs")
        small.write(small.top, {"crates/new/src/lib.rt": "//! new\n"})
        shutil.rmtree(small.top / "crates" / "waiting")
        lines = "low: thiserror\nnew:\nhigh: low new\n"
        small.write(small.top, {"crates.txt": lines, "NOTICE": "anew\n", "HANDLES": "Handles allowed: none.\n"})
        second = small.commit()
        expect(small.update(), [
            "LICENSE and NOTICE: updated, files: 1 changed",
            "low: updated, files: 1 changed, 1 new, 1 removed",
            "new: added, its line added to crates.txt",
            "high: kept, its line changed in crates.txt",
            "waiting: left, as this repository no longer has it",
            f"{RECORD}: commit {second}, a git checkout; before: commit {first}, a git checkout",
        ])
        expect(listed.read_text(encoding="utf-8").splitlines(), [
            "mine: high",
            "low: thiserror",
            "high: low new  # of ours",
            "waiting may_wait=1: atomic_table",
            "new:",
        ])
        there = files_below(small.user)
        expect(sorted(it for it in there if it.startswith("crates/")), [
            "crates/high/specs/Lib.antt", "crates/high/src/lib.rt", "crates/low/must-fail/mine.edit", "crates/low/out/built",
            "crates/low/proofs/sum/Proof.antt", "crates/low/src/lib.rt", "crates/mine/src/main.rt", "crates/new/src/lib.rt",
            "crates/waiting/specs/Lib.antt", "crates/waiting/src/lib.rt",
        ])
        expect((there["crates/low/src/lib.rt"], there["crates/high/src/lib.rt"]), (b"//! low, anew\n", b"//! high\n"))
        expect((small.user / "crates" / "low" / "specs").exists(), False)
        expect((there["third_party/kohepuri/NOTICE"], there["LICENSE"]), (b"anew\n", b"my own\n"))
        expect(sorted(small.record()["copied"]), ["LICENSE and NOTICE", "high", "low", "new"])
        expect([it.rpartition(": ")[2] for it in small.update()[:-1]], ["kept"] * 4)
        expect(files_below(small.user), there)


@case
def vendor_copies_again_what_was_taken_away():
    with Small() as small:
        small.copy("low")
        shutil.rmtree(small.user / "crates" / "low")
        (small.user / "crates.txt").write_text("mine: high\n", encoding="utf-8")
        expect(small.update()[1], "low: added, its line added to crates.txt")
        expect((small.user / "crates" / "low" / "src" / "lib.rt").read_text(encoding="utf-8"), "//! low\n")


@case
def vendor_refuses_to_update_what_was_edited_and_names_all_of_it():
    with Small() as small:
        small.copy("high", "waiting")
        small.write(small.top, {"crates/low/src/lib.rt": "//! low, anew\n"})
        kept = files_below(small.user)
        listed = kept["crates.txt"].decode()
        for texts, names in (
            ({"crates/low/src/lib.rt": "mine\n", "crates/waiting/src/lib.rt": "mine\n"}, "from what ./vendor copied there: low, waiting;"),
            ({"crates/high/src/mine.rt": "mine\n"}, "from what ./vendor copied there: high;"),
            ({"crates.txt": listed.replace("high: low", "high: low mine")}, "from what ./vendor copied there: high;"),
            ({"third_party/kohepuri/NOTICE": "mine\n"}, "from what ./vendor copied there: LICENSE and NOTICE;"),
        ):
            small.write(small.user, texts)
            small.expect_refused(64, ["--update", small.user], names, "--force")
            for it in texts:
                (small.user / it).unlink()
            small.write(small.user, {it: kept[it].decode() for it in texts if it in kept})
        (small.user / "crates" / "high" / "specs" / "Lib.antt").unlink()
        small.expect_refused(64, ["--update", small.user], "from what ./vendor copied there: high;")


@case
def vendor_forced_takes_ours_and_leaves_what_the_user_added():
    with Small() as small:
        small.copy("high")
        small.write(small.user, {"crates/low/src/lib.rt": "mine\n", "crates/low/src/added.rt": "mine\n"})
        small.write(small.top, {"crates/low/src/new.rt": "// new\n"})
        shutil.rmtree(small.top / "crates" / "low" / "specs")
        said = "low: updated over what was edited, specs/Lib.antt left, src/added.rt left, files: 1 changed, 1 new"
        expect(small.update("--force")[1:3], [said, "high: kept"])
        there = files_below(small.user / "crates" / "low")
        expect(there["src/lib.rt"] + there["src/added.rt"] + there["src/new.rt"], b"//! low\nmine\n// new\n")
        expect_in("specs/Lib.antt", there)


@case
def vendor_forced_takes_no_crate_that_is_the_users_own():
    with Small() as small:
        small.copy("high")
        small.write(small.user, {"crates/new/src/lib.rt": "mine\n"})
        small.write(small.top, {"crates/new/src/lib.rt": "// new\n", "crates.txt": LINES.replace("high: low", "new:\nhigh: low new")})
        small.expect_refused(64, ["--update", "--force", small.user], "crates/new exists already, and its files differ from ours")


@case
def vendor_mixes_no_crates_of_two_texts():
    with Small() as small:
        small.copy("low")
        small.write(small.top, {"crates/low/src/lib.rt": "//! low, anew\n"})
        told = ("this repository's text of low differs from the one that ./vendor copied", f"./vendor --update {small.user} first")
        small.expect_refused(64, [small.user, "waiting"], *told)
        small.update()
        expect(small.copy("waiting")[1], "waiting: added, its line added to crates.txt")
        expect(sorted(small.record()["copied"]), ["LICENSE and NOTICE", "low", "waiting"])


@case
def vendor_refuses_a_record_that_it_did_not_write():
    with Small() as small:
        no_sums = json.dumps({it: "" for it in ("project", "version", "commit", "source", "copied")})
        for text, words in (
            ("", [small.user, "low"]), ("[]", ["--update", small.user]), ('{"copied": {}}', ["--update", small.user]),
            (no_sums, [small.user, "low"]),
        ):
            small.write(small.user, {RECORD: text})
            small.expect_refused(66, words, f"{RECORD}: not as ./vendor wrote it")


@case
def vendor_tells_which_line_of_handles_a_crate_needs_and_leaves_it_to_the_user():
    with Small() as small:
        expect([it for it in small.copy("high") if "HANDLES" in it], [])
        line = f"{small.user / 'HANDLES'}: write the line '{HANDLES}' into it, since waiting may wait or start threads"
        expect(small.copy("waiting")[-1], line)
        expect((small.user / "HANDLES").exists(), False)
        small.write(small.user, {"HANDLES": "Handles allowed: none.\n"})
        expect(small.update()[-1], line)
        expect((small.user / "HANDLES").read_text(encoding="utf-8"), "Handles allowed: none.\n")
        for it in (HANDLES, "Handles allowed: Threads, Wait, Net."):
            small.write(small.user, {"HANDLES": f"{it}\n"})
            expect([it for it in small.copy("waiting") if "HANDLES" in it], [])


@case
def vendor_tells_of_handles_for_the_lanes_in_threads():
    with tempfile.TemporaryDirectory(prefix="iox-check-") as folder:
        ran = vendor(folder, "iox_lanes_threads")
        expect((ran.returncode, ran.stdout.count("HANDLES")), (0, 1))
        line = (TOP / "HANDLES").read_text(encoding="utf-8").strip()
        expect_in(f"HANDLES: write the line '{line}' into it, since iox_lanes_threads_ports, iox_lanes_threads may ", ran.stdout)
