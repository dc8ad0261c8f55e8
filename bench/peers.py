"""What else answers the queries over the facts file: each peer with its words for a query, or why it is missing."""
import functools
import os
import re
import shutil
import subprocess
from urllib.parse import quote

HERE = os.path.dirname(os.path.abspath(__file__))
DEBIAN_CRATES = "/usr/share/cargo/registry"

# The queries that join the facts with the dims.
JOINED = ("q5", "q6")

SQLITE = """create table f(id int, g int, v int, name text);
.import --csv --skip 1 {facts} f
{join}.mode list
.once {out}
{select};
"""

SQLITE_DIMS = """create table d(g integer primary key, label text);
.import --csv --skip 1 {dims} d
"""

SELECTS = {
    "q1": "select json_object('id', id, 'g', g, 'v', nullif(v, ''), 'name', name) from f",
    "q2": "select json_object('id', id, 'name', name) from f where nullif(v, '') > 900",
    "q3": "select json_object('g', g, 's', coalesce(sum(nullif(v, '')), 0), 'n', count(*)) from f group by g",
    "q4": "select json_object('name', name, 's', coalesce(sum(nullif(v, '')), 0), 'n', count(*)) from f group by name",
    "q5": "select json_object('label', label, 's', coalesce(sum(nullif(v, '')), 0), 'n', count(*)) from f join d using (g) group by label",
    "q6": "select json_object('id', id, 'g', g, 'v', nullif(v, ''), 'name', name, 'label', label) from f join d using (g)",
}

PANDAS = """
import sys, pandas
facts = pandas.read_csv(sys.argv[1], dtype={"v": "Int64", "name": str}, keep_default_na=False, na_values={"v": [""]})
if sys.argv[3] == "q2":
    facts = facts.loc[facts.v > 900, ["id", "name"]]
if sys.argv[3] in ("q5", "q6"):
    facts = facts.merge(pandas.read_csv(sys.argv[4]), on="g")
by = {"q3": "g", "q4": "name", "q5": "label"}.get(sys.argv[3])
if by:
    facts = facts.groupby(by, sort=False)["v"].agg(s="sum", n="size").reset_index()
facts.to_json(sys.argv[2], orient="records", lines=True, force_ascii=False)
"""

MAWK = {
    "q1": r"""NR > 1 { print "{\"id\":" $1 ",\"g\":" $2 ",\"v\":" ($3 == "" ? "null" : $3) ",\"name\":\"" $4 "\"}" }""",
    "q2": r"""NR > 1 && $3 > 900 { print "{\"id\":" $1 ",\"name\":\"" $4 "\"}" }""",
    "q3": r"""NR > 1 { s[$2] += $3; n[$2]++ } END { for (k in n) print "{\"g\":" k ",\"s\":" s[k] ",\"n\":" n[k] "}" }""",
    "q4": r"""NR > 1 { s[$4] += $3; n[$4]++ } END { for (k in n) print "{\"name\":\"" k "\",\"s\":" s[k] ",\"n\":" n[k] "}" }""",
    "q5": r"""NR == FNR { l[$1] = $2; next } FNR > 1 && $2 in l { k = l[$2]; s[k] += $3; n[k]++ } END { for (k in n) print "{\"label\":\"" k "\",\"s\":" s[k] ",\"n\":" n[k] "}" }""",
    "q6": r"""NR == FNR { l[$1] = $2; next } FNR > 1 && $2 in l { print "{\"id\":" $1 ",\"g\":" $2 ",\"v\":" ($3 == "" ? "null" : $3) ",\"name\":\"" $4 "\",\"label\":\"" l[$2] "\"}" }""",
}

MILLER = {
    "q1": ["cat"],
    "q2": ["filter", 'is_not_empty($v) && $v > 900', "then", "cut", "-f", "id,name"],
    "q3": ["stats1", "-a", "sum,count", "-f", "v", "-g", "g"],
    "q4": ["stats1", "-a", "sum,count", "-f", "v", "-g", "name"],
    "q5": ["join", "-j", "g", "-f", "{dims}", "then", "stats1", "-a", "sum,count", "-f", "v", "-g", "label"],
    "q6": ["join", "-j", "g", "-f", "{dims}"],
}

CLICKHOUSE = {
    "q1": "SELECT id, g, v, name FROM {table} FORMAT JSONEachRow",
    "q2": "SELECT id, name FROM {table} WHERE v > 900 FORMAT JSONEachRow",
    "q3": "SELECT g, ifNull(sum(v), 0) AS s, count() AS n FROM {table} GROUP BY g FORMAT JSONEachRow",
    "q4": "SELECT name, ifNull(sum(v), 0) AS s, count() AS n FROM {table} GROUP BY name FORMAT JSONEachRow",
    "q5": "SELECT label, ifNull(sum(v), 0) AS s, count() AS n FROM {table} ANY INNER JOIN {dims} USING g GROUP BY label FORMAT JSONEachRow",
    "q6": "SELECT id, g, v, name, label FROM {table} ANY INNER JOIN {dims} USING g FORMAT JSONEachRow",
}
COLUMNS = "id Int64, g Int64, v Nullable(Int64), name String"
DIMS_COLUMNS = "g Int64, label String"


def said(words):
    """What a program says, or None where it fails."""
    try:
        ran = subprocess.run(words, stdin=subprocess.DEVNULL, capture_output=True, text=True, timeout=60)
    except (OSError, subprocess.TimeoutExpired):
        return None
    return ran.stdout.strip() if ran.returncode == 0 else None


@functools.cache
def build_csv_crate(folder):
    """The Rust program over the crate csv, built without a network: from cargo's own store, or from Debian's packages."""
    words = ["cargo", "build", "--release", "--offline", "--manifest-path", f"{folder}/csv_crate/Cargo.toml"]
    debian = ["--config", 'source.crates-io.replace-with="debian"', "--config", f'source.debian.directory="{DEBIAN_CRATES}"']
    shutil.rmtree(f"{folder}/csv_crate", ignore_errors=True)
    shutil.copytree(f"{HERE}/csv_crate", f"{folder}/csv_crate", ignore=shutil.ignore_patterns("target", "Cargo.lock"))
    for more in ([], debian):
        if said([*words, *more]) is not None:
            return f"{folder}/csv_crate/target/release/csv_crate"
    return None


def with_nulls(folder, facts):
    """The facts as ClickHouse reads them fastest: a copy that has \\N for an empty number."""
    path = f"{folder}/nulls-of-{os.path.basename(facts)}"
    if not os.path.exists(path):
        with open(facts, "rb") as it:
            text = re.sub(rb"(?m)^(\d+,\d+,),", rb"\1\\N,", it.read())
        with open(f"{path}.part", "wb") as it:
            it.write(text)
        os.rename(f"{path}.part", path)
    return path


def csv_crate(folder, facts, dims, query, out):
    if not shutil.which("cargo"):
        return "Rust, crate csv", None, "no cargo"
    program = build_csv_crate(folder)
    return "Rust, crate csv", program and [program, query, facts, dims, out], "cargo has no package csv"


def sqlite(folder, facts, dims, query, out):
    version = said(["sqlite3", "--version"])
    script = f"{folder}/{query}.sql"
    with open(script, "w", encoding="utf-8") as it:
        join = SQLITE_DIMS.format(dims=dims) if query in JOINED else ""
        it.write(SQLITE.format(facts=facts, join=join, out=out, select=SELECTS[query]))
    return f"sqlite3 {(version or '').partition(' ')[0]}, in memory", version and ["sh", "-c", 'exec sqlite3 :memory: < "$1"', "", script], "no sqlite3"


def miller(folder, facts, dims, query, out):
    version = (said(["mlr", "--version"]) or "").split(" ")[-1]
    script = 'facts="$1"; out="$2"; shift 2; exec mlr --icsv --ojsonl "$@" "$facts" > "$out"'
    verbs = [it.format(dims=dims) for it in MILLER[query]]
    return f"Miller {version}", version and ["sh", "-c", script, "", facts, out, *verbs], "no mlr"


def pandas(folder, facts, dims, query, out):
    for python in (os.environ.get("PANDAS_PYTHON", "python3"), "/usr/bin/python3"):
        version = said([python, "-c", "import pandas; print(pandas.__version__)"])
        if version:
            return f"pandas {version}", [python, "-c", PANDAS, facts, out, query, dims], None
    return "pandas", None, "no python3 with pandas; PANDAS_PYTHON names one"


def mawk(folder, facts, dims, query, out):
    is_there, files = shutil.which("mawk"), [dims, facts] if query in JOINED else [facts]
    script = 'out="$1"; shift; exec mawk -F, "$@" > "$out"'
    return "mawk, splitting at each comma", is_there and ["sh", "-c", script, "", out, MAWK[query], *files], "no mawk"


def clickhouse_local(folder, facts, dims, query, out):
    for words in (["clickhouse", "local"], ["clickhouse-local"]):
        version = said([*words, "--version"])
        if version:
            words += ["--structure", COLUMNS, "--input-format", "CSVWithNames", "--query", CLICKHOUSE[query].format(table="table", dims=f"file('{dims}', 'CSVWithNames', '{DIMS_COLUMNS}')")]
            facts = with_nulls(folder, facts)
            return "ClickHouse, local", ["sh", "-c", 'facts="$1"; out="$2"; shift 2; exec "$@" < "$facts" > "$out"', "", facts, out, *words], None
    return "ClickHouse, local", None, "no clickhouse-local"


def clickhouse_server(folder, facts, dims, query, out):
    """The server that CLICKHOUSE names, as http://127.0.0.1:8123. It reads a copy of the file in its own folder for users' files, which
    CLICKHOUSE_FILES names; where that is not set, the file is sent with the query, which takes longer."""
    url, files = os.environ.get("CLICKHOUSE"), os.environ.get("CLICKHOUSE_FILES")
    name = "ClickHouse, a server"
    if not url or not shutil.which("curl"):
        return name, None, "no server's URL in CLICKHOUSE, or no curl"
    version = said(["curl", "-sf", f"{url}/?query={quote('SELECT version()')}"])
    if not version:
        return name, None, "CLICKHOUSE does not answer"
    facts = with_nulls(folder, facts)
    if query in JOINED and not files:
        return name, None, "CLICKHOUSE_FILES names no folder for the dims"
    words, table, more = [], f"file('{os.path.basename(facts)}', 'CSVWithNames', '{COLUMNS}')", {}
    if files:
        shutil.copy(facts, files)
        shutil.copy(dims, files)
    else:
        words, table, more = ["-F", f"f=@{facts}"], "f", {"f_structure": COLUMNS, "f_format": "CSVWithNames"}
    dims = f"file('{os.path.basename(dims)}', 'CSVWithNames', '{DIMS_COLUMNS}')"
    query = {"query": CLICKHOUSE[query].format(table=table, dims=dims), "output_format_json_quote_64bit_integers": "0", **more}
    url += "/?" + "&".join(f"{it}={quote(text)}" for it, text in query.items())
    name = f"ClickHouse {version}, a server that {'reads the file' if files else 'is sent the file'}"
    return name, ["curl", "-sf", *words, "-o", out, url], None


def plain_read(folder, facts, dims, query, out):
    return "dd, a plain read", ["dd", f"if={facts}", "of=/dev/null", "bs=1M", "status=none"], None


def all_peers(folder, facts, dims, query, out):
    """Each peer's name, its words for the query, or None and the reason; the plain read last."""
    makers = (csv_crate, sqlite, miller, pandas, mawk, clickhouse_local, clickhouse_server, plain_read)
    return [make(folder, facts, dims, query, out) for make in makers]
