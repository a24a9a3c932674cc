"""Compiles programs without proofs, with `rt try`. Because `rt try` deletes the program at its end, the program is copied while it runs."""
import glob
import os
import shutil
import subprocess
import sys
import tempfile
import time

from crates import TOP, spell

# A compilation takes a few minutes, or ten times as long on a busy computer. If it takes longer than this, it counts as hanging.
PATIENCE = 3_600
LAST_LINES = 20


def running_below(folder):
    """Returns the compiled program below the directory, if it is running."""
    for file in glob.glob("/proc/[0-9]*/cmdline"):
        try:
            with open(file, encoding="utf-8", errors="replace") as stream:
                words = stream.read().split("\0")
        except OSError:
            continue
        for word in words:
            if word.startswith(f"{folder}/") and os.path.basename(word) == "program":
                return word
    return None


def wait_for_program(folder, compiling, who):
    """Waits until the compiled program runs, and shows the time on a terminal. Returns the path of the program, or None."""
    began, running = time.monotonic(), None
    while compiling.poll() is None and time.monotonic() - began < PATIENCE and not running:
        if sys.stderr.isatty():
            print(f"\r{who}: compiling, {spell(time.monotonic() - began)} ", end="", file=sys.stderr, flush=True)
        time.sleep(0.2)
        running = running_below(folder)
    if sys.stderr.isatty():
        print("\r\033[K", end="", file=sys.stderr)
    return running


def compile_unproved(crate, kept, flags=(), arguments=(), given=b"", top=TOP):
    """Compiles a program crate with these flags of `rt try`, and copies it to `kept` while it runs with these arguments and this input. The
    program must run for at least a second. Returns whether it was compiled. If it was not, prints the last lines of `rt try`."""
    room_of = os.path.dirname(kept)
    os.makedirs(room_of, exist_ok=True)
    with tempfile.TemporaryDirectory(prefix="unproved-", dir=room_of) as directory:
        with open(f"{directory}/given", "wb") as file:
            file.write(given)
        call = [f"{TOP}/tools/try-alone", "--steps", "1", *flags, "--", *arguments]
        with open(f"{directory}/given", "rb") as stdin, open(f"{directory}/log", "w+", errors="replace") as log:
            how = {"cwd": f"{top}/crates/{crate}", "env": {**os.environ, "TMPDIR": directory}, "stdin": stdin}
            compiling = subprocess.Popen(call, **how, stdout=log, stderr=log)
            try:
                running = wait_for_program(directory, compiling, crate)
                if running:
                    shutil.copyfile(running, f"{directory}/kept")
            finally:
                compiling.terminate()
                compiling.wait()
            if not running:
                log.seek(0)
                print(*log.read().splitlines()[-LAST_LINES:], sep="\n", file=sys.stderr)
                print(f"{crate}: not compiled; the lines above are the last that `rt try` printed", file=sys.stderr)
                return False
        os.chmod(f"{directory}/kept", 0o755)
        os.replace(f"{directory}/kept", kept)
    return True
