"""Running the proved programs as they are shipped, and ./plan: for the tests that do."""
import concurrent.futures
import os
import pathlib
import platform
import shutil
import subprocess
import sys

ROOT = pathlib.Path(__file__).resolve().parent.parent
PLAN = ROOT / "plan"


def program(name):
    """The words that run a program: the kit's emulator before it where the machine is another."""
    binary = ROOT / "crates" / name / "out" / name
    if platform.machine() == "x86_64":
        return [binary]
    kit = os.environ.get("RATTLE_HOME") or pathlib.Path(shutil.which("rt")).resolve().parent.parent
    tools = pathlib.Path(kit) / "on" / platform.machine() / "toolchain"
    return [tools / "bin/qemu-x86_64", tools / "lib/ld-linux-x86-64.so.2", "--library-path", tools / "lib", binary]


def expect(true, words):
    if not true:
        raise SystemExit(f"{sys.argv[0]}: not so: {words}")


def ran(words, **how):
    """The exit status and what was written."""
    how = {"stdout": subprocess.PIPE, "stderr": subprocess.PIPE, **how}
    done = subprocess.run(words, check=False, timeout=60, **how)
    return done.returncode, done.stdout


def each(test, items):
    """Tries the items, as many at a time as the machine has cores; how many there were."""
    with concurrent.futures.ThreadPoolExecutor(os.cpu_count()) as pool:
        return len(list(pool.map(test, items)))


def as_new(*names):
    """The programs are those of the sources, as rt ci or ./plan leaves them."""
    for name in names:
        newer = ["find", ROOT / "crates", ROOT / "crates.txt", "-type", "f", "-not", "-path", "*/out/*", "-newer", ROOT / "crates" / name / "out" / name]
        expect(ran(newer) == (0, b""), f"crates/{name}/out/{name} is as new as its sources")
