"""The auction in PostgreSQL, for bench/run alone: a server of its own in a folder of its own, over a socket, with
nothing durable unless that is asked for, and `pgbench` with a client for each worker."""
import glob
import os
import re
import shutil
import subprocess
import tempfile

from loads import Record, Script

HERE = os.path.dirname(os.path.abspath(__file__))
# The tables, and what a request does over them.
CODE = [f"{HERE}/auction.postgres.sql", f"{HERE}/../examples/sql/views.sql", f"{HERE}/../examples/sql/transactions.sql"]

SETTINGS = {
    "listen_addresses": "",
    "fsync": "off",
    "synchronous_commit": "off",
    "full_page_writes": "off",
    "wal_level": "minimal",
    "max_wal_senders": "0",
    "shared_buffers": "1GB",
    "max_wal_size": "16GB",
    "checkpoint_timeout": "1h",
    "jit": "off",
    # Tables are empty as their first plans are made, which are kept: each look-up is to go by an index from the first.
    "enable_seqscan": "off",
    "enable_bitmapscan": "off",
}

DURABLE = SETTINGS | {"fsync": "on", "synchronous_commit": "on", "full_page_writes": "on"}

# One request a transaction: the client's next one.
SCRIPT = "\\set place :place + 1\nSELECT act(:client_id, :place);\n"

# So many requests of each client are done before the clock counts.
FIRST = 200

# What --report shows of categories and users.
CLOSING = """SELECT line FROM (
    SELECT 0 AS part, id, 'category ' || id || ' ' || view_category(id) AS line FROM categories
    UNION ALL
    SELECT 1, id, format('user %s rating=%s comments=%s', id, rating, comments) FROM users WHERE comments > 0
) AS lines ORDER BY part, id"""


def tools() -> str | None:
    """The folder of the server's programs, or None."""
    found = sorted(glob.glob("/usr/lib/postgresql/*/bin/initdb"), key=lambda path: int(path.split("/")[4]))
    initdb = found[-1] if found else shutil.which("initdb")
    if initdb is None:
        return None
    folder = os.path.dirname(initdb)
    has_client = os.path.exists(f"{folder}/pgbench") or shutil.which("pgbench")
    return folder if os.path.exists(f"{folder}/postgres") and has_client else None


class Server:
    """A server that lives as long as a `with` over it."""

    def __init__(self, settings: dict[str, str] = SETTINGS) -> None:
        self.settings, self.tools = settings, tools()
        # The server does not run as root: Debian's package has made a user for it.
        self.leave = ["runuser", "-u", "postgres", "--"] if os.geteuid() == 0 else []

    def __enter__(self) -> "Server":
        self.folder = tempfile.mkdtemp(prefix="bench-")
        if self.leave:
            shutil.chown(self.folder, "postgres")
        data = f"{self.folder}/data"
        self.call("initdb", "-D", data, "-A", "trust", "-U", "bench", "--no-sync", "--locale=C", "-E", "UTF8")
        settings = self.settings | {"unix_socket_directories": self.folder}
        words = " ".join(f"-c {name}='{value}'" for name, value in settings.items())
        self.call("pg_ctl", "-D", data, "-w", "-l", f"{self.folder}/log", "-o", words, "start")
        return self

    def __exit__(self, *_: object) -> None:
        self.call("pg_ctl", "-D", f"{self.folder}/data", "-m", "immediate", "stop")
        shutil.rmtree(self.folder, ignore_errors=True)

    def call(self, tool: str, *words: str, text: str | None = None) -> str:
        path = f"{self.tools}/{tool}"
        path = path if os.path.exists(path) else shutil.which(tool) or tool
        ran = subprocess.run([*self.leave, path, *words], input=text, capture_output=True, text=True, cwd="/")
        if ran.returncode != 0:
            raise SystemExit(f"{tool}: {ran.stdout}{ran.stderr}")
        return ran.stdout

    def ask(self, text: str) -> str:
        words = ("-h", self.folder, "-U", "bench", "-d", "postgres", "-qAtX", "-v", "ON_ERROR_STOP=1")
        return self.call("psql", *words, text=text)

    def version(self) -> str:
        return self.ask("SHOW server_version").split()[0]

    def open(self, rows: list[Record], scripts: list[Script], users: int, categories: int) -> None:
        """A new auction with these rows, whose input has the scripts."""
        code = "".join(map(text_of, CODE))
        if self.settings["fsync"] == "on":
            code = code.replace("UNLOGGED TABLE", "TABLE")
        self.ask("DROP SCHEMA public CASCADE; CREATE SCHEMA public;" + code)
        records = (record for own in (rows, *scripts) for record in own)
        lines = "".join("\t".join(map(column, record)) + "\n" for record in records)
        self.ask(f"COPY input FROM stdin;\n{lines}\\.\n")
        filling = f"""
            INSERT INTO users SELECT generate_series(0, {users - 1});
            INSERT INTO categories SELECT generate_series(0, {categories - 1});
            SELECT make_serials({len(scripts)});
            SELECT count(act(r)) FROM (SELECT * FROM input WHERE is_row ORDER BY place) AS r;
            ANALYZE users, categories, items, input;"""
        self.ask(filling)

    def perform_anew(
        self, rows: list[Record], scripts: list[Script], users: int, categories: int, seconds: float
    ) -> tuple[int, float]:
        self.open(rows, scripts, users, categories)
        return self.perform(scripts, seconds)

    def perform(self, scripts: list[Script], seconds: float) -> tuple[int, float]:
        """Performs the scripts, each by a client of pgbench, or as much of them as it does in about so many seconds.
        Gives how many requests were done, and how many a second after the first ones, which fill the server's caches.
        """
        each = min(map(len, scripts))
        first = min(FIRST, each // 2)
        rate = self.clients(len(scripts), first, 0)
        rest = max(1, min(each - first, int(rate * seconds / len(scripts))))
        return (first + rest) * len(scripts), self.clients(len(scripts), rest, first)

    def waits(self, script: Script, seconds: float) -> list[float]:
        """Of one client the microseconds of each request, sorted, of as much of a script as it does in about so many
        seconds."""
        first = min(FIRST, len(script) // 2)
        rest = max(1, min(len(script) - first, int(self.clients(1, first, 0) * seconds)))
        self.clients(1, rest, first, "-l", f"--log-prefix={self.folder}/waits")
        lines = [line for path in glob.glob(f"{self.folder}/waits.*") for line in text_of(path).splitlines()]
        return sorted(float(line.split()[2]) for line in lines)

    def clients(self, workers: int, each: int, place: int, *words: str) -> float:
        """Requests a second where each worker's client does so many from a place of its script on."""
        path = f"{self.folder}/script"
        with open(path, "w") as script:
            script.write(SCRIPT)
        os.chmod(path, 0o644)
        many = ("-c", str(workers), "-j", str(workers), "-t", str(each), "-D", f"place={place - 1}")
        how = ("-h", self.folder, "-U", "bench", "-n", "-M", "prepared", *many, *words, "-f", path)
        said = self.call("pgbench", *how, "postgres")
        rate = re.search(r"tps = ([0-9.]+) \(without initial connection time\)", said)
        if f"actually processed: {each * workers}/{each * workers}" not in said or rate is None:
            raise SystemExit(said)
        return float(rate[1])

    def replies(self, script: Script) -> str:
        """One worker's replies, as the auction writes them, a transaction for each."""
        said = self.ask("".join(f"SELECT act(0, {place});\n" for place in range(len(script))))
        return "".join(f"0,{place},{line}\n" for place, line in enumerate(said.splitlines()))

    def closing(self) -> str:
        return self.ask(CLOSING)


def text_of(path: str) -> str:
    with open(path) as text:
        return text.read()


def column(value: object) -> str:
    return "\\N" if value is None else "t" if value is True else "f" if value is False else str(value)
