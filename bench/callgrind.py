"""How many instructions a program takes, as callgrind of valgrind counts them. They say the same on a busy machine."""
import os
import re
import subprocess

# An instruction that repeats itself over bytes would count once a byte, so the C library is told to clear and copy without it.
WITHOUT_REPEATS = "glibc.cpu.x86_rep_stosb_threshold=1000000000:glibc.cpu.x86_rep_movsb_threshold=1000000000"
ENVIRONMENT = {**os.environ, "GLIBC_TUNABLES": WITHOUT_REPEATS}


def counted(words, given=b""):
    """The instructions of a run of a program, which reads these bytes, and what it prints."""
    words = ["valgrind", "--tool=callgrind", "--callgrind-out-file=/dev/null", *map(str, words)]
    ran = subprocess.run(words, input=given, capture_output=True, check=True, env=ENVIRONMENT)
    return int(re.search(rb"Collected : (\d+)", ran.stderr)[1]), ran.stdout
