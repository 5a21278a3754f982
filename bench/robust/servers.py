"""The sides of bench/robust: what each is given, and a session that says when each of its answers arrived.

A side prepares its databases from the CSV files of a folder. A session is a process of its client, `bouquet`, `sqlite3`
or `psql`, that is given one script: it loads or opens the database, and then asks queries. Behind each answer the client
prints a line, the marker.

- `bouquet` loads the files and makes the indexes in each session. A query's time goes from the arrival of the marker
  before its answer to that of its own.
- `sqlite3` copies the database from a file into memory (`.restore`). Its time goes from marker to marker too.
- `psql` says itself how long a query took, from sending it until all rows were fetched (`\\timing`): that is the time.

The server of PostgreSQL runs in a temporary folder, on a socket there and on no port, with SETTINGS. It is stopped at
the end, and by `timeout` after LIFETIME seconds whatever happens. Where this is root, the server is the user postgres.
"""
import collections
import os
import re
import select
import shutil
import signal
import subprocess
import sys
import tempfile
import time

BINARIES = "/usr/lib/postgresql/15/bin"
LIFETIME = 7200
LOADING_SECONDS = 600
FIRST_TIMES = 20
PRAGMAS = {"temp_store": "MEMORY"}
SETTINGS = {
    "shared_buffers": "2GB",
    "work_mem": "256MB",
    "maintenance_work_mem": "512MB",
    "effective_cache_size": "4GB",
    "random_page_cost": "1.1",
    "max_parallel_workers_per_gather": "0",
    "max_parallel_maintenance_workers": "0",
    "jit": "off",
    "autovacuum": "off",
    "fsync": "off",
    "max_wal_size": "8GB",
    "listen_addresses": "",
    "client_connection_check_interval": "1s",
}

# An answer's seconds, None where they can't be told; its text; and the match of its marker.
Answer = collections.namedtuple("Answer", "seconds, text, marker")


def finished(words, script="", folder=None, **identity):
    """What a process prints that has to succeed without a complaint."""
    done = subprocess.run(words, input=script, cwd=folder, capture_output=True, text=True, **identity)
    if done.returncode or done.stderr:
        sys.exit(f"robust: {os.path.basename(words[0])} failed: {done.stderr.strip()[-500:]}")
    return done.stdout


class Session:
    """A process over a script, and the answers that have arrived from it."""

    def __init__(self, words, script, folder, marker):
        self.marker = marker
        self.name = os.path.basename(words[0])
        self.errors = tempfile.TemporaryFile()
        with tempfile.TemporaryFile() as given:
            given.write(script.encode())
            given.seek(0)
            self.process = subprocess.Popen(words, cwd=folder, stdin=given, stdout=subprocess.PIPE, stderr=self.errors)
        self.arrived = collections.deque()
        self.rest = b""
        self.begun = False
        self.since = time.perf_counter()

    def __enter__(self):
        return self

    def __exit__(self, *_):
        self.process.kill()
        self.process.wait()
        self.process.stdout.close()
        self.errors.close()

    def answer(self, seconds):
        """The next answer, or None where it hasn't arrived after so many seconds."""
        while not self.arrived:
            left = self.since + seconds - time.perf_counter()
            if left <= 0 or not select.select([self.process.stdout], [], [], left)[0]:
                return None
            piece = os.read(self.process.stdout.fileno(), 1 << 20)
            if not piece:
                self.errors.seek(0)
                said = (self.rest + self.errors.read()).decode(errors="replace").strip()
                sys.exit(f"robust: {self.name} ended before its last answer: {said[-500:]}")
            self.take(piece, time.perf_counter())
        return self.arrived.popleft()

    def take(self, piece, now):
        """Cuts what has arrived behind each marker. Answers that arrive in one piece share the time. Those that arrive with
        the first one have none, since the time before it went into loading."""
        self.rest += piece
        found = list(self.marker.finditer(self.rest))
        begin = 0
        for it in found:
            seconds = (now - self.since) / len(found) if self.begun else None
            self.arrived.append(Answer(seconds, self.rest[begin : it.start()].decode(), it))
            begin = it.end()
        if found:
            self.rest, self.since, self.begun = self.rest[begin:], now, True


class Side:
    """What all sides share. `ask` runs queries in their order, in a new session after each that took too long."""

    def ask(self, database, first, texts, seconds):
        """The answers, with None for those that didn't come in these seconds. `first` is asked before, some times so that
        whoever reads is awake, and isn't measured."""
        answers = []
        while len(answers) < len(texts):
            words, script = self.session(database, [first] * FIRST_TIMES + texts[len(answers) :])
            with Session(words, script, database.folder, self.marker) as session:
                answer = True
                for _ in range(FIRST_TIMES):
                    if session.answer(LOADING_SECONDS) is None:
                        sys.exit(f"robust: {self.name} didn't load {database.name} in {LOADING_SECONDS} s")
                while answer is not None and len(answers) < len(texts):
                    answer = session.answer(seconds)
                    answers.append(answer and self.measured(answer, seconds))
        return answers

    @staticmethod
    def measured(answer, seconds):
        return answer


class Bouquet(Side):
    name = "bouquet"
    marker = re.compile(rb"^-- rows=\d+ work=(\d+) runs=(\d+) contour=(\d+) plan=(\S+)\n", re.MULTILINE)

    def __init__(self, program):
        self.program = program

    def prepare(self, database):
        """Nothing is kept between sessions."""

    def session(self, database, texts):
        script = "".join(f"{it.created()}LOAD '{it.name}.csv' INTO {it.name};\n" for it in database.tables)
        script += "".join(it.indexes(with_key=True) for it in database.tables)
        return [self.program], script + "".join(f"{it};\n" for it in texts)

    @staticmethod
    def measured(answer, seconds):
        """Without the header of the rows."""
        return answer._replace(text=answer.text.partition("\n")[2])


class Learning(Bouquet):
    """A query is compiled, and then run by LEARN: both are in its time."""

    name = "bouquet, LEARN"

    def session(self, database, texts):
        compiled = [f"COMPILE Q{number} AS {it};\nLEARN Q{number}" for number, it in enumerate(texts)]
        return super().session(database, compiled)

    @staticmethod
    def measured(answer, seconds):
        """Without the line of the COMPILE, the header of the rows, and the skips behind them."""
        lines = answer.text.splitlines(keepends=True)[2:]
        while lines and lines[-1].startswith("-- skip "):
            lines.pop()
        return answer._replace(text="".join(lines))


class Sqlite(Side):
    marker = re.compile(rb"^-- end\r?\n", re.MULTILINE)

    def __init__(self, analysed):
        self.analysed = analysed
        self.name = "sqlite3" + ", ANALYZE" * analysed

    def file(self, database):
        return os.path.join(database.folder, "analysed.db" if self.analysed else "plain.db")

    def prepare(self, database):
        """Makes the file of the database, unless it is there. An empty field is loaded as an empty text, and means NULL."""
        path = self.file(database)
        if os.path.exists(path):
            return
        script = "PRAGMA journal_mode = OFF;\nPRAGMA synchronous = OFF;\n.mode csv\n"
        for it in database.tables:
            script += it.created(" PRIMARY KEY") + f".import --csv --skip 1 {it.name}.csv {it.name}\n"
            script += "".join(
                f"UPDATE {it.name} SET {column.name} = NULL WHERE {column.name} = '';\n"
                for column in it.columns
                if column.optional
            )
            script += it.indexes(with_key=False)
        script += "ANALYZE;\n" * self.analysed
        finished(["sqlite3", "-bail", path + ".part"], script, database.folder)
        os.rename(path + ".part", path)

    def session(self, database, texts):
        script = f".restore {self.file(database)}\n.mode csv\n"
        script += "".join(f"PRAGMA {name} = {value};\n" for name, value in PRAGMAS.items())
        return ["sqlite3", ":memory:"], script + "".join(f"{it};\n.print -- end\n" for it in texts)


class Postgres(Side):
    marker = re.compile(rb"^Time: ([\d.]+) ms.*\n", re.MULTILINE)

    def __init__(self, analysed, server):
        self.analysed = analysed
        self.server = server
        self.name = "PostgreSQL" + ", ANALYZE" * analysed

    def database(self, database):
        return database.name + ("_analysed" if self.analysed else "_plain")

    def prepare(self, database):
        """Loads the database into the server. VACUUM takes no statistics of columns."""
        self.server.query("postgres", f"CREATE DATABASE {self.database(database)};\n")
        script = ""
        for it in database.tables:
            script += it.created() + f"\\copy {it.name} FROM '{it.name}.csv' CSV HEADER\n"
            script += f"ALTER TABLE {it.name} ADD PRIMARY KEY (ID);\n" * it.has_key + it.indexes(with_key=False)
        script += "VACUUM;\n" + "ANALYZE;\n" * self.analysed
        self.server.query(self.database(database), script, database.folder)

    def session(self, database, texts):
        return self.server.client(self.database(database)), "\\timing on\n" + "".join(f"{it};\n" for it in texts)

    @staticmethod
    def measured(answer, seconds):
        """With the time that psql says; None where that is past the limit."""
        took = float(answer.marker[1]) / 1000
        return answer._replace(seconds=took) if took < seconds else None


class Server:
    """A server of PostgreSQL, between __enter__ and __exit__."""

    def __init__(self):
        self.identity = {"user": "postgres", "group": "postgres", "extra_groups": []} if os.geteuid() == 0 else {}
        self.process = None

    def binary(self, name):
        return os.path.join(BINARIES, name)

    def client(self, database):
        return [self.binary("psql"), "-XqAt", "--csv", "-h", self.folder, "-U", "postgres", "-d", database]

    def query(self, database, script, folder=None):
        return finished([*self.client(database), "-v", "ON_ERROR_STOP=1"], script, folder)

    def __enter__(self):
        self.folder = tempfile.mkdtemp(prefix="robust-")
        if self.identity:
            shutil.chown(self.folder, self.identity["user"])
        try:
            self.start(os.path.join(self.folder, "data"))
        except BaseException:
            self.__exit__()
            raise
        return self

    def start(self, data):
        made = [self.binary("initdb"), "-D", data, "-U", "postgres", "-A", "trust", "-E", "UTF8", "--locale=C", "--no-sync"]
        finished(made, folder="/", **self.identity)
        words = [self.binary("postgres"), "-D", data, "-k", self.folder]
        for name, value in SETTINGS.items():
            words += ["-c", f"{name}={value}"]
        bounded = ["timeout", "--signal=INT", "--kill-after=60", str(LIFETIME), *words]
        with open(os.path.join(self.folder, "log"), "w") as log:
            self.process = subprocess.Popen(bounded, cwd="/", stdout=log, stderr=log, **self.identity)
        ready = [self.binary("pg_isready"), "-q", "-h", self.folder]
        for _ in range(300):
            if subprocess.run(ready).returncode == 0:
                return
            time.sleep(0.1)
        sys.exit("robust: the server of PostgreSQL isn't ready after 30 s")

    def __exit__(self, *_):
        """Stops the server: at first fast, after 30 s at once, and then with `timeout`'s whole group."""
        for number in (signal.SIGINT, signal.SIGQUIT, signal.SIGKILL):
            if self.process and self.process.poll() is None:
                os.killpg(self.process.pid, number)
                try:
                    self.process.wait(30)
                except subprocess.TimeoutExpired:
                    continue
        shutil.rmtree(self.folder, ignore_errors=True)
