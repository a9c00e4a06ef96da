"""The engines that are measured: each loads a folder of tables, and answers queries over them in one thread."""

import os
import re
import shlex
import shutil
import signal
import socket
import subprocess
import sys
import time
from collections import defaultdict
from contextlib import contextmanager
from pathlib import Path
from typing import Callable, Iterator, NamedTuple

from repository import OTHERS, TABLES, THIRTEEN, TOP, run

KEYS = dict(zip(TABLES, ("d_datekey", "c_custkey", "s_suppkey", "p_partkey", "lo_orderkey, lo_linenumber")))
REFERRED = {"lo_custkey": "customer", "lo_partkey": "part", "lo_suppkey": "supplier", "lo_orderdate": "date", "lo_commitdate": "date"}
COLUMN = re.compile(r"\| \d+ \| `(\w+)` \| (number|text)s")
NAMES = re.compile(r"\b(?:lo|[cspd])_\w+")
QUERY = re.compile(r"select (.*?) from (.*?)(?: where (.*?))?(?: group by (?:(cube|rollup)\()?(.*?)\)?)?(?: order by (.*))?$")
Answer = tuple[float, bytes]


class Engine(NamedTuple):
    """An engine with loaded tables: what answers a query with a time and a report, and time and peak of the load."""

    ask: Callable[[str], Answer | None]
    load: float
    peak: int = 0


class Query(NamedTuple):
    """The parts of a query of `star`. Its sort keys are all its keys in the end."""

    items: str
    tables: str
    condition: str
    shape: str
    keys: list[str]
    order: list[str]

    def text(self, shape: str = "") -> str:
        """Returns the query without its order, as standard SQL."""
        where, keys = f" where {self.condition}" * bool(self.condition), ", ".join(self.keys)
        return f"select {self.items} from {self.tables}{where}" + f" group by {f'{shape}({keys})' if shape else keys}" * bool(keys)

    def null(self) -> str:
        return "ALL" if self.shape else "NULL"

    def sort(self, key: str = "{}") -> str:
        return f" order by {', '.join(map(key.format, self.order))}" * bool(self.order)


def query_of(text: str) -> Query:
    """Reads a query. An unnamed sum gets star's name."""
    items, tables, condition, shape, *lists = (it or "" for it in QUERY.match(text).groups())
    keys, order = (it.split(", ") if it else [] for it in lists)
    order += [key for key in keys if key not in {it.split()[0] for it in order}]
    return Query(items.replace("sum(lo_revenue), ", "sum(lo_revenue) as sum1, "), tables, condition, shape, keys, order)


def creations(number: str, text: str, keys: Callable[[str], str] = lambda name: "") -> dict[str, str]:
    """Returns the columns of each table, as docs/TABLES.md lists them, for `create table`."""
    found = re.findall(r"### `(\w+)\.tbl`((?:.|\n)*?)(?=\n##|\Z)", (TOP / "docs/TABLES.md").read_text())
    column = lambda name, kind: f"{name} {number if kind == 'number' else text}{keys(name)}"
    return {table: ", ".join(column(*it) for it in COLUMN.findall(rows)) for table, rows in found}


def call(words: list, text: str = "") -> str:
    """Runs a client with a text as its input, and returns both of its streams."""
    ran = subprocess.run(words, input=text, text=True, stdout=subprocess.PIPE, stderr=subprocess.STDOUT)
    if ran.returncode:
        sys.exit(f"{words[0]} failed: {ran.stdout[:500]}")
    return ran.stdout


@contextmanager
def running(words: list, client: list, stop: int, room: Path) -> Iterator[None]:
    """Runs a server in a folder, from when it answers a client."""
    with subprocess.Popen(words, cwd=room, stdout=subprocess.DEVNULL, stderr=subprocess.DEVNULL) as process:
        try:
            while subprocess.run(client, input=b"select 1", capture_output=True).returncode:
                if process.poll() is not None:
                    sys.exit(f"{words[0]} ended")
                time.sleep(0.2)
            yield
        finally:
            process.send_signal(stop)


@contextmanager
def session(words: list, end: str, room: Path) -> Iterator[Callable[[str], Answer]]:
    """Runs a client that reads statements. An answer ends with a line that begins with `end`; its report is in a file."""
    report = room / "report"
    with subprocess.Popen(words, stdin=subprocess.PIPE, stdout=subprocess.PIPE, stderr=subprocess.STDOUT, text=True) as child:
        def ask(text: str) -> Answer:
            report.write_bytes(b"")
            start = time.perf_counter()
            child.stdin.write(text)
            child.stdin.flush()
            while not (line := child.stdout.readline()).startswith(end):
                if not line.startswith("quote"):
                    sys.exit(f"{words[0]}: no report of {text}: {line}")
            return time.perf_counter() - start, report.read_bytes()
        yield ask
        child.stdin.close()


@contextmanager
def star(folder: str, room: Path, command: str) -> Iterator[Engine]:
    load = run([*shlex.split(command), "check", folder])
    with session(["sh", "-c", f'exec {command} session "$0" 2>&1 >>"$1"', folder, room / "report"], "visits", room) as ask:
        def answer(text: str) -> Answer:
            took, report = ask(f"{text};\n")
            # The empty line after a report may follow the note.
            while not report.endswith(b"\n\n"):
                report = (room / "report").read_bytes()
            return took, report[:-1]
        yield Engine(answer, load.wall, load.peak)


@contextmanager
def processes(folder: str, room: Path, command: str, counts: bool) -> Iterator[Engine]:
    """A process of `star` for each report: its processor time or its instructions, less a load's."""
    load, file = run([*shlex.split(command), "check", folder], counts), room / "query"
    def answer(text: str) -> Answer:
        file.write_text(text)
        ran = run([*shlex.split(command), "exec" if text.startswith("star program") else "query", folder, str(file)], counts)
        above, lines = max(0, ran.peak - load.peak), len(ran.out.splitlines())
        print(f"peak above the load's: {above / 2**20:.1f} MiB, {above / lines:.0f} bytes a line of {text}", file=sys.stderr)
        return ran.spent - load.spent, ran.out
    yield Engine(answer, load.spent, load.peak)


@contextmanager
def hand_written(folder: str, room: Path, command: str) -> Iterator[Engine]:
    """A program of the thirteen queries, which writes reports and prints `load SECONDS` and `query NAME BEST`."""
    words = [it.split() for it in call([*shlex.split(command), folder, "--runs", "5", "--reports", room]).splitlines()]
    answers = {THIRTEEN[it[1]]: (float(it[2]), (room / it[1]).read_bytes()) for it in words if it[0] == "query"}
    yield Engine(answers.get, min(float(it[1]) for it in words if it[0] == "load"))


@contextmanager
def postgres(folder: str, room: Path, command: str) -> Iterator[Engine]:
    binaries = max(Path("/usr/lib/postgresql").glob("*/bin"))
    user = []
    if os.getuid() == 0:
        # It refuses to run as root.
        user = ["setpriv", "--reuid=postgres", "--regid=postgres", "--clear-groups"]
        shutil.chown(room, "postgres")
    call([*user, binaries / "initdb", "-D", room / "data", "-A", "trust", "-U", "star", "-N", "--locale=C"])
    settings = "listen_addresses= fsync=off shared_buffers=2GB work_mem=512MB maintenance_work_mem=1GB max_wal_size=8GB jit=off"
    settings += " max_parallel_workers_per_gather=0"
    words = [*user, binaries / "postgres", "-D", room / "data", "-k", room, *(f"--{it}" for it in settings.split())]
    psql = ["psql", "-h", room, "-U", "star", "-d", "postgres", "-X", "-q", "-v", "ON_ERROR_STOP=1"]
    with running(words, psql, signal.SIGINT, room):
        started = time.perf_counter()
        for table, columns in creations("bigint not null", "text not null").items():
            copy = f"\\copy {table} from '{folder}/{table}.tbl' with (delimiter '|', null '\\N')"
            call(psql, f"create table {table} ({columns}, bar text);\n{copy}\n")
        keys = [f"alter table {table} add primary key ({key});" for table, key in KEYS.items()]
        keys += [f"alter table lineorder add foreign key ({name}) references {table};" for name, table in REFERRED.items()]
        call(psql, "\n".join([*keys, "vacuum (freeze, analyze);"]))
        load = time.perf_counter() - started
        with session(["stdbuf", "-oL", *psql, "-A", "-F", "|", "-P", "footer=off"], "done", room) as ask:
            def answer(text: str) -> Answer:
                query = query_of(text)
                return ask(f"\\pset null {query.null()}\n\\o {room}/report\n{query.text(query.shape)}{query.sort()};\n\\o\n\\echo done\n")
            yield Engine(answer, load)


def in_sqlite(query: Query) -> str:
    """Returns a query with a cube or a rollup as a union of groupings over its base groups."""
    if not query.shape:
        return query.text() + query.sort()
    keys, (value,) = query.keys, re.findall(r"sum\(\w+\) as (\w+)", query.items)
    kept = [[it for at, it in enumerate(keys) if n >> at & 1] for n in range(2 ** len(keys) - 1)]
    kept = [it for it in kept if query.shape == "cube" or it == keys[: len(it)]]
    shown = lambda some: ", ".join(it if it in some else "null" for it in keys)
    groupings = [f"select {shown(it)}, sum({value}) from base" + f" group by {', '.join(it)}" * bool(it) for it in kept]
    rows = " union all ".join(["select * from base", *groupings])
    return f"with base as materialized ({query.text()}) select * from ({rows}){query.sort('{} nulls last')}"


@contextmanager
def sqlite(folder: str, room: Path, command: str) -> Iterator[Engine]:
    settings = "pragma journal_mode = off; pragma synchronous = off; pragma cache_size = -4000000; pragma mmap_size = 30000000000;"
    settings = f".output /dev/null\n{settings} pragma temp_store = memory;\n.output stdout\n"
    keys = lambda name: f" references {REFERRED[name]}" if name in REFERRED else " primary key" * (name in KEYS.values())
    texts = [f"create table {table} ({columns});" for table, columns in creations("integer not null", "text not null", keys).items()]
    texts += [".mode ascii", '.separator "|" "\\n"']
    texts += [f""".import "|LC_ALL=C sed 's/|$//' '{folder}/{table}.tbl'" {table}""" for table in TABLES]
    texts += [f"create unique index line on lineorder ({KEYS['lineorder']});", "pragma foreign_key_check;", "analyze;\n"]
    started = time.perf_counter()
    if absent := call(["sqlite3", "-batch", "-bail", room / "data"], settings + "\n".join(texts)):
        sys.exit(f"sqlite3: {absent[:300]}")
    load = time.perf_counter() - started
    with session(["stdbuf", "-oL", "sqlite3", "-batch", room / "data"], "done", room) as ask:
        ask(f'{settings}.mode list\n.separator | "\\n"\n.headers on\n.print done\n')
        def answer(text: str) -> Answer:
            query = query_of(text)
            if text in OTHERS.values():
                # Otherwise it may scan lineorder once for each date.
                query = query._replace(tables=query.tables.replace(", ", " cross join "))
            took, report = ask(f".nullvalue {query.null()}\n.once {room}/report\n{in_sqlite(query)};\n.print done\n")
            # It prints no names above no rows.
            return took, report or ("|".join(it.split(" as ")[-1] for it in query.items.split(", ")) + "\n").encode()
        yield Engine(answer, load)


def nested(query: Query) -> str:
    """Returns a query as ClickHouse 18 needs it: nested joins of two, and dimensions without shown columns as sets of keys."""
    # Tables go by the first letters of their columns.
    shown, joins, conditions = set(NAMES.findall(query.items)), {}, defaultdict(list)
    for it in re.sub(r"(between \S+) and ", r"\1 AND ", query.condition).split(" and "):
        if pair := re.fullmatch(r"(lo_\w+) = (([cspd])_\w+)", it):
            joins[pair[3]] = (pair[1], pair[2])
        elif it:
            conditions[NAMES.search(it)[0][0]].append(it)
    where = lambda some: f" where {' and '.join(some)}" * bool(some)
    source = lambda letter: "from " + next(it for it in TABLES if it[0] == letter) + where(conditions.get(letter, []))
    own = conditions.pop("l", []) + [f"{joins[it][0]} in (select {joins[it][1]} {source(it)})" for it in conditions]
    joined = [it for it in joins if any(name.startswith(f"{it}_") for name in shown)]
    columns = sorted({it for it in shown if it.startswith("lo_")} | {joins[it][0] for it in joined})
    body = f"select {', '.join(columns)} from lineorder{where(own)}"
    for letter in joined:
        foreign, key = joins[letter]
        names = sorted(it for it in shown if it.startswith(f"{letter}_"))
        columns += names
        side = f"select {key} as {foreign}, {', '.join(names)} {source(letter)}"
        body = f"select {', '.join(columns)} from ({body}) any inner join ({side}) using {foreign}"
    text = query._replace(tables=f"({body})", condition="").text()
    # A key that is ALL is 0 or empty.
    in_order = query.sort("toString({0}) in ('', '0'), {0}" if query.shape else "{}")
    return f"select * from ({text} with {query.shape}){in_order}" if query.shape else text + in_order


def xml(value) -> str:
    """Returns nested settings as ClickHouse reads them."""
    return "".join(f"<{name}>{xml(it)}</{name}>" for name, it in value.items()) if isinstance(value, dict) else str(value)


@contextmanager
def clickhouse(folder: str, room: Path, command: str) -> Iterator[Engine]:
    with socket.socket() as free:
        free.bind(("127.0.0.1", 0))
        port = free.getsockname()[1]
    settings = {"max_memory_usage": 10**10, "allow_experimental_low_cardinality_type": 1, "use_uncompressed_cache": 1, "max_threads": 1}
    user = {"password": "", "networks": {"ip": "127.0.0.1"}, "profile": "default", "quota": "default"}
    users = {"profiles": {"default": settings}, "users": {"default": user}, "quotas": {"default": ""}}
    config = {"logger": {"level": "none"}, "tcp_port": port, "listen_host": "127.0.0.1", "users_config": f"{room}/users.xml"}
    config |= {"mark_cache_size": 10**9, "uncompressed_cache_size": 4 * 10**9, "default_profile": "default", "default_database": "default"}
    for name in ("path", "tmp_path", "user_files_path", "format_schema_path"):
        (room / name).mkdir()
        config[name] = f"{room}/{name}/"
    for file, values in (("config.xml", config), ("users.xml", users)):
        (room / file).write_text(xml({"yandex": values}))
    client = ["clickhouse-client", "--port", str(port), "-n"]
    with running(["clickhouse-server", "--config-file", room / "config.xml"], client, signal.SIGTERM, room):
        started = time.perf_counter()
        for table, columns in creations("UInt32", "LowCardinality(String)").items():
            order = "lo_orderdate, lo_orderkey" if table == "lineorder" else KEYS[table]
            call(client, f"create table {table} ({columns}) engine = MergeTree order by ({order})")
            insert = shlex.join([*client, "--query", f"insert into {table} format TabSeparated"])
            call(["sh", "-c", f"LC_ALL=C sed 's/|$//' '{folder}/{table}.tbl' | tr '|' '\\t' | {insert}"])
            call(client, f"optimize table {table} final")
        load = time.perf_counter() - started
        def answer(text: str) -> Answer:
            query, words = query_of(text), [*client, "--time", "--format", "TabSeparatedWithNames", "--query"]
            ran = subprocess.run([*words, nested(query)], stdin=subprocess.DEVNULL, capture_output=True)
            if ran.returncode:
                sys.exit(f"ClickHouse: {ran.stderr[:500]}")
            report = ran.stdout.replace(b"\t", b"|")
            return float(ran.stderr.split()[-1]), re.sub(rb"(?m)(^0?|(?<=\|)0?)(?=\|)", b"ALL", report) if query.shape else report
        yield Engine(answer, load)


# Each engine's function, and a command that prints the version of an installed peer.
ENGINES = {
    "star": (star, ""), "before": (star, ""), "hand-written": (hand_written, ""),
    "ClickHouse": (clickhouse, "command -v clickhouse-server && clickhouse-client --version"),
    "SQLite": (sqlite, "sqlite3 --version"), "PostgreSQL": (postgres, "psql --version"),
}  # fmt: skip
