"""The plain hub in Rust, beside which lines are measured."""
import shutil
import subprocess
import sys

from cases.kit import LONG, TOP, NotHere, case, expect


@case
def the_plain_hub_of_the_bench_replies_as_the_model_does():
    if not shutil.which("rustc"):
        raise NotHere("no rustc: Debian's package has it")
    words = [sys.executable, TOP / "bench" / "peers" / "compare", "30"]
    ran = subprocess.run(words, stdout=subprocess.PIPE, stderr=subprocess.STDOUT, text=True, timeout=LONG)
    expect((ran.returncode, ran.stdout * (ran.returncode > 0)), (0, ""))
