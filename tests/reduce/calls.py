"""How the tests of ./reduce call it, and count what they find."""
import atexit
import importlib.machinery
import importlib.util
import os
import re
import shutil
import signal
import subprocess
import sys
import tempfile

ROOT = os.path.dirname(os.path.dirname(os.path.dirname(os.path.abspath(__file__))))
KIT = os.path.dirname(os.path.dirname(os.path.realpath(subprocess.getoutput("command -v rt"))))


def folder():
    """A folder for this test, which is gone after it, however it ends."""
    path = tempfile.mkdtemp()
    atexit.register(shutil.rmtree, path, True)
    return path


# Where the launcher puts what it copies; it must leave nothing there.
TEMPORARY = os.environ["TMPDIR"] = folder()
TWO_BUS = open(os.path.join(ROOT, "crates/reduce/stdin"), "rb").read()
HALF = b"kept 1\nbus 0\n3fe0000000000000 0000000000000000\n"

# A signal that is ignored where the tests are started would be ignored by what they start; one that is handled is not.
SIGNALS = signal.SIGHUP, signal.SIGINT, signal.SIGQUIT, signal.SIGTERM
for number in SIGNALS:
    signal.signal(number, lambda number, _: sys.exit(128 + number))

agreed, all_of_them = 0, 0


def start(*args, root=ROOT, **more):
    pipes = dict.fromkeys(["stdin", "stdout", "stderr"], subprocess.PIPE)
    return subprocess.Popen([os.path.join(root, "reduce"), *args], **{**pipes, **more})


def end(process, data=None):
    """Its exit status and what it wrote."""
    out, err = process.communicate(data, timeout=60)
    return process.returncode, out, err


def call(*args, data=b"", **more):
    return end(start(*args, **more), data if "stdin" not in more else None)


def expect(name, so):
    """One thing that must be so."""
    global agreed, all_of_them
    all_of_them += 1
    agreed += bool(so)
    if not so:
        print(f"reduce: not so: {name}")


def unheard():
    """For standard error: a pipe whose reader is gone."""
    side, ours = os.pipe()
    os.close(side)
    return ours


def other_locales():
    """Those that this machine has."""
    return [name for name in subprocess.getoutput("locale -a").split() if name not in ("C", "POSIX")][:3]


def told(result, status, words):
    """Nothing on standard output and one line with these words on standard error."""
    return result[:2] == (status, b"") and result[2].find(b"\n") == len(result[2]) - 1 and words in result[2]


def refused(number, bus):
    """How ./reduce ends where a bus is refused: the program's line, and the header's words."""
    with open(os.path.join(ROOT, "include/jeturipe.h")) as f:
        words, = re.findall(rf"= {number},? +/\* (.*) \*/$", f.read(), re.M)
    return 1, f"refused {number} {bus}\n".encode(), f"reduce: bus {bus} cannot be removed: {words}\n".encode()


def load(path):
    """A script of the tree as a module."""
    path = os.path.join(ROOT, path)
    sys.path.insert(0, os.path.dirname(path))
    loader = importlib.machinery.SourceFileLoader(os.path.basename(path).replace("-", "_"), path)
    module = importlib.util.module_from_spec(importlib.util.spec_from_loader(loader.name, loader))
    loader.exec_module(module)
    return module


def finish(what):
    expect(f"{what}: nothing is left in the folder of temporary files", not os.listdir(TEMPORARY))
    print(f"reduce: {what}: {agreed} of {all_of_them} are so")
    sys.exit(agreed != all_of_them)
