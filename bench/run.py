#!/usr/bin/env python3
"""Makes the data and the queries, builds the program, and times it beside each peer that is installed.

usage: python3 bench/run.py [--size MEGABYTES] [--rounds N] [--folder FOLDER] [--program FILE] [--memory | --shapes]

The queries are q1, all rows of a CSV file as NDJSON, q2, two columns of the rows whose v is above 900, q3 and q4, the sum of v and the number
of rows by g and by name, q5, the same by the labels that a second file has for g, and q6, all rows with these labels. They are written into
FOLDER as query files, and run by `morsel local`.

The data and the outputs lie in FOLDER (none: morsel-bench in the folder for temporary files; best one in memory, as /dev/shm/morsel-bench).
The program is the one that `rt ci` or `rt run` has built, if it is newer than its sources; else `rt run` proves and builds it first, which
takes long from nothing. --program names another. Each round runs each of them once, in turn, on the same file; one that takes more than
5 seconds runs three times at most. With --memory no peer is run, but morsel on files that are hard on memory, once each; with --shapes
on files of other shapes, all rows and columns of each. CLICKHOUSE names the URL of a server of ClickHouse, CLICKHOUSE_FILES its folder of
users' files, CLICKHOUSE_PID its process.

Printed: which peers are missing, and a table in Markdown: the median and the best time by the clock, the processor's time, MB of the
file a second, the peak of resident memory, how many times morsel's seconds it took, and whether it wrote the same bytes, or at least the
same lines in another order.
"""
import argparse
import datetime
import hashlib
import json
import math
import os
import re
import shutil
import statistics
import subprocess
import sys
import tempfile
import time

sys.dont_write_bytecode = True
HERE = os.path.dirname(os.path.abspath(__file__))
sys.path.append(f"{HERE}/../tools")
import gen
import peers
import program

SCHEMA = [["id", "int"], ["g", "int"], ["v", "int"], ["name", "text"]]
QUERIES = {
    "q1": ("CSV to NDJSON", {}),
    "q2": ("two columns of the rows with v > 900", {"filter": ["gt", "v", {"lit": 900}], "columns": ["id", "name"]}),
    "q3": ("v summed and rows counted by g", {}),
    "q4": ("v summed and rows counted by name", {}),
    "q5": ("the rows joined with the dims on g, v summed and rows counted by label", {}),
    "q6": ("the rows joined with the dims on g", {}),
}
# The keys of the queries with a group-by.
KEYS = {"q3": "g", "q4": "name", "q5": "label"}
DIMS_SCHEMA = [["g", "int"], ["label", "text"]]
SLOW = 5


def query_file(folder, name, files, schema, join=None, group=None, **parts):
    """The path of a query file over these files, with further parts of its scan, and with this join and this group-by."""
    path = f"{folder}/{name}.json"
    query = {"left": {"format": "csv", "files": files, "schema": schema, **parts}, "sink": {"format": "ndjson"}}
    if join:
        query["join"] = join
    if group:
        query["group"] = group
    with open(path, "w", encoding="utf-8") as it:
        json.dump(query, it)
    return path


def join_with(dims):
    """The join of the facts with the dims, which are kept while the facts are read."""
    return {"right": {"format": "csv", "files": [dims], "schema": DIMS_SCHEMA}, "on": [["g", "g"]], "order": "left"}


def group_by(key):
    """The sum of v and the number of rows for each key."""
    return {"keys": [key], "aggs": [["sum", "v", "s"], ["len", None, "n"]]}


def build():
    """The path of the program, proved and built first where that is to be done."""
    try:
        return program.built()[0]
    except SystemExit:
        print("proving and building the program ..", file=sys.stderr, flush=True)
    words = ["rt", "run", "--", "--version"]
    if subprocess.run(words, cwd=program.CRATE, stdout=sys.stderr).returncode:
        sys.exit("rt run in crates/morsel failed")
    return program.built()[0]


def server_use(pid):
    """The seconds of the processor that the server's process took so far, and the peak of its resident memory in MB."""
    with open(f"/proc/{pid}/stat", encoding="utf-8") as it:
        fields = it.read().rpartition(")")[2].split()
    with open(f"/proc/{pid}/status", encoding="utf-8") as it:
        peak = int(re.search(r"VmHWM:\s+(\d+)", it.read())[1]) / 1024
    return (int(fields[11]) + int(fields[12])) / os.sysconf("SC_CLK_TCK"), peak


def run(words, folder, is_server):
    """One run: seconds by the clock and of the processor, and the peak of resident memory in MB; None where it failed.

    Of a server these are its own, and not known where CLICKHOUSE_PID does not name its process.
    """
    told, pid = f"{folder}/times", os.environ.get("CLICKHOUSE_PID") if is_server else None
    if pid:
        with open(f"/proc/{pid}/clear_refs", "w", encoding="utf-8") as it:
            it.write("5")
        before, _ = server_use(pid)
    # GNU time starts it, since what Python starts is told to have at least Python's memory
    words = [shutil.which("time"), "-q", "-o", told, "-f", "%U %S %M", *words]
    began = time.monotonic()
    ran = subprocess.run(words, stdin=subprocess.DEVNULL, stdout=subprocess.DEVNULL, stderr=subprocess.PIPE)
    wall = time.monotonic() - began
    if ran.returncode:
        print(f"{' '.join(words[6:9])} ..: status {ran.returncode}: {ran.stderr.decode(errors='replace')[:300]}", file=sys.stderr)
        return None
    if pid:
        taken, peak = server_use(pid)
        return wall, taken - before, peak
    if is_server:
        return wall, math.nan, math.nan
    with open(told, encoding="utf-8") as it:
        user, system, peak = it.read().split()
    return wall, float(user) + float(system), int(peak) / 1024


def digest(path):
    """What tells whether two outputs have the same bytes, and whether they have the same lines; None where there is none."""
    if not os.path.exists(path):
        return None
    whole, lines = hashlib.sha256(), 0
    with open(path, "rb") as it:
        for line in it:
            whole.update(line)
            lines += hash(line)
    return whole.digest(), lines


def measure(runs, out, folder, rounds):
    """The figures of each of the runs, round by round, and the digest of what it wrote."""
    seen, wrote = {name: [] for name, _ in runs}, {}
    for _ in range(rounds):
        for name, words in runs:
            figures = seen[name]
            if None in figures or len(figures) >= 3 and statistics.median(it[0] for it in figures) > SLOW:
                continue
            if os.path.exists(out):
                os.remove(out)
            figures.append(run(words, folder, "server" in name))
            if name not in wrote:
                wrote[name] = digest(out)
    return {name: figures for name, figures in seen.items() if None not in figures}, wrote


def machine():
    with open("/proc/cpuinfo", encoding="utf-8") as it:
        model = re.search(r"model name\s*: (.*)", it.read())
    memory = os.sysconf("SC_PAGE_SIZE") * os.sysconf("SC_PHYS_PAGES") / 2**30
    return f"{os.cpu_count()} cores of {model[1] if model else 'an unknown processor'}, {memory:.0f} GiB, {os.uname().sysname} {os.uname().release.partition('-')[0]}; {datetime.date.today()}"


def compared(wrote, ours):
    if wrote is None:
        return "none"
    return "the same bytes" if wrote == ours else "the same lines" if wrote[1] == ours[1] else "others"


def table(seen, wrote, size):
    ours = statistics.median(it[0] for it in seen["morsel"])
    print("| program | median s | best s | processor s | MB/s | peak MB | times morsel | output |")
    print("|---|---:|---:|---:|---:|---:|---:|---|")
    known = lambda number, form: "?" if math.isnan(number) else format(number, form)
    for name, figures in sorted(seen.items(), key=lambda it: statistics.median(run[0] for run in it[1])):
        wall, processor, peak = (statistics.median(part) for part in zip(*figures))
        best = min(it[0] for it in figures)
        text = "" if name == "morsel" else compared(wrote[name], wrote["morsel"])
        print(f"| {name} | {wall:.2f} | {best:.2f} | {known(processor, '.2f')} | {size / wall:.0f} | {known(peak, '.0f')} | {wall / ours:.2f} | {text} |")


def time_query(morsel, query, facts, dims, given):
    """Runs one query beside the peers, and prints its table."""
    says, parts = QUERIES[query]
    out = f"{given.folder}/out.ndjson"
    join = join_with(dims) if query in peers.JOINED else None
    group = group_by(KEYS[query]) if query in KEYS else None
    runs = [("morsel", [morsel, "local", query_file(given.folder, query, [facts], SCHEMA, join, group, **parts), out])]
    for name, words, why in peers.all_peers(given.folder, facts, dims, query, out):
        if words:
            runs.append((name, words))
        else:
            print(f"missing: {name} ({why})", flush=True)
    size = os.path.getsize(facts) / 1e6
    print(f"\n{query}: {says}; {size:.0f} MB, {given.rounds} rounds; {machine()}\n", flush=True)
    seen, wrote = measure(runs, out, given.folder, given.rounds)
    if "morsel" not in seen:
        sys.exit("morsel itself failed")
    table(seen, wrote, size)


def measure_memory(morsel, given):
    """Runs morsel on files that are hard on memory, and prints the peak of each beside the longest record."""
    print("| file | MB | longest record, bytes | peak MB | s | answer |")
    print("|---|---:|---:|---:|---:|---|")
    for name, path, schema in gen.hard_files(given.folder, given.size):
        words = [morsel, "local", query_file(given.folder, "hard", [path], schema), "/dev/null"]
        told = f"{given.folder}/times"
        began = time.monotonic()
        ran = subprocess.run([shutil.which("time"), "-q", "-o", told, "-f", "%M", *words], stdin=subprocess.DEVNULL, capture_output=True, text=True)
        wall = time.monotonic() - began
        with open(told, encoding="utf-8") as it:
            peak = int(it.read()) / 1024
        print(f"| {name} | {os.path.getsize(path) / 1e6:.0f} | {gen.longest_record(path):,} | {peak:.0f} | {wall:.2f} | {ran.stdout.strip()} |", flush=True)


def measure_shapes(morsel, given):
    """Runs morsel on files of other shapes, and prints how many MB it reads and writes in a second of the processor."""
    out, told = f"{given.folder}/out.ndjson", f"{given.folder}/times"
    print(f"{machine()}\n")
    print("| file | MB read | MB written | processor s | MB a second | peak MB | answer |")
    print("|---|---:|---:|---:|---:|---:|---|")
    for name, path, schema in gen.shaped_files(given.folder, given.size):
        words = [morsel, "local", query_file(given.folder, "shape", [path], schema), out]
        best, peak = math.inf, 0
        for _ in range(min(given.rounds, 3)):
            ran = subprocess.run([shutil.which("time"), "-q", "-o", told, "-f", "%U %S %M", *words], stdin=subprocess.DEVNULL, capture_output=True, text=True)
            with open(told, encoding="utf-8") as it:
                user, system, most = it.read().split()
            best, peak = min(best, float(user) + float(system)), max(peak, int(most) / 1024)
        read, wrote = os.path.getsize(path) / 1e6, os.path.getsize(out) / 1e6
        print(f"| {name} | {read:.0f} | {wrote:.0f} | {best:.2f} | {(read + wrote) / max(best, 0.01):.0f} | {peak:.0f} | {ran.stdout.strip()} |", flush=True)
        os.remove(out)


def main():
    wanted = argparse.ArgumentParser(description=__doc__, formatter_class=argparse.RawDescriptionHelpFormatter)
    wanted.add_argument("--size", type=int, default=100)
    wanted.add_argument("--rounds", type=int, default=5)
    wanted.add_argument("--folder", default=f"{tempfile.gettempdir()}/morsel-bench")
    wanted.add_argument("--program")
    wanted.add_argument("--memory", action="store_true")
    wanted.add_argument("--shapes", action="store_true")
    given = wanted.parse_args()
    if not shutil.which("time"):
        sys.exit("GNU time is not installed: it tells the memory")
    given.folder = os.path.abspath(given.folder)
    morsel = os.path.abspath(given.program) if given.program else build()
    facts = gen.make(given.folder, given.size)
    if given.memory:
        measure_memory(morsel, given)
        return
    if given.shapes:
        measure_shapes(morsel, given)
        return
    dims = gen.make_dims(given.folder)
    for query in QUERIES:
        time_query(morsel, query, facts, dims, given)


if __name__ == "__main__":
    main()
