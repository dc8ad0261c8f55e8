"""The built program, for the checks that run it."""
import os
import subprocess
import sys

ROOT = os.path.join(os.path.dirname(os.path.abspath(__file__)), "..")
CRATE = os.path.join(ROOT, "crates", "morsel")
LIMIT = 60


def newest_source():
    """When the program's sources, or those of a crate below it, were last changed."""
    times = [0.0]
    for at, folders, files in os.walk(os.path.join(ROOT, "crates")):
        folders[:] = [it for it in folders if it not in ("out", "must-fail", "data")]
        times += [os.path.getmtime(f"{at}/{it}") for it in files if it.endswith((".rt", ".antt"))]
    return max(times)


def built():
    """The program as each compiler built it: by `rt ci` both, by `rt run` the first. MORSEL names another one instead."""
    if os.environ.get("MORSEL"):
        return [os.path.abspath(os.environ["MORSEL"])]
    found = [f"{CRATE}/out/morsel{it}" for it in ("", ".by-rattle")]
    found = [os.path.abspath(it) for it in found if os.path.isfile(it) and os.path.getmtime(it) > newest_source()]
    if not found:
        sys.exit("there is no program in crates/morsel/out that is newer than its sources: `rt ci`, or `rt run` in crates/morsel, builds it")
    return found


def run(words, folder, **how):
    """The status, the standard output and the standard error of a run in the folder."""
    how = {"stdin": subprocess.DEVNULL, "stdout": subprocess.PIPE, "stderr": subprocess.PIPE, **how}
    ran = subprocess.run(words, cwd=folder, timeout=LIMIT, env={"PATH": os.environ["PATH"]}, **how)
    return ran.returncode, ran.stdout, ran.stderr


def files_in(folder):
    """The bytes of each file of the folder, by its name."""
    found = {}
    for name in sorted(os.listdir(folder)):
        with open(f"{folder}/{name}", "rb") as it:
            found[name] = it.read()
    return found


def difference(what, has, wanted):
    """A line for what is not as it is wanted; none where it is."""
    if has == wanted:
        return []
    if not isinstance(has, bytes) or not isinstance(wanted, bytes):
        return [f"{what} is {has!r}, and not {wanted!r}"]
    at = next((i for i, (a, b) in enumerate(zip(has, wanted)) if a != b), min(len(has), len(wanted)))
    return [f"{what} differs first at byte {at}: {has[at:at + 40]!r} stands there, and not {wanted[at:at + 40]!r}"]
