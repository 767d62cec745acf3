"""Servers of the tests' own, the rows that they hold, what a query takes, and just enough of PostgreSQL's client library."""
import ctypes
import ctypes.util
import os
import pathlib
import random
import re
import resource
import subprocess
import sys

HERE = pathlib.Path(__file__).resolve().parent
WORDS = [word for word in sys.argv[1:] if not word.startswith("--")]
FOLDER, PREFIX, PROGRAM = pathlib.Path(WORDS[0]), WORDS[1], (WORDS + [None])[2]
SMALL = "--small" in sys.argv
ROWS = 20_000 if SMALL else 1_000_000
STRINGS = 10_000
LISTS = ["", ">=1.0,<2.0,!=1.5.*", "==2.1.0+cu118", "<=2.1.0", "<1.0.post1,>=1.0", "~=1.4.2", "===1.10", "!=1.0", ">2.0,<1.0", "==1.*", ">1!0", ">=4.29.100", "==3.9.post1,!=3.9", "==1.4.*,!=1.4.2"]
NARROW = ["==2.1.0+cu118", "~=1.4.2", "<1.0.post1,>=1.0", ">2.0,<1.0", ">1!0", ">=4.29.100", "==3.9.post1,!=3.9"]
RECHECKED = ["===1.10", "==1.4.*,!=1.4.2"]
NO_INDEX = "SET enable_indexscan = off; SET enable_indexonlyscan = off; SET enable_bitmapscan = off;"
NO_TABLE = "SET enable_seqscan = off;"
OUT_OF_MEMORY = "53200"
INVALID_REGULAR_EXPRESSION = "2201B"  # the server's own, of a request of its compiler of regular expressions
USER = ["setpriv", "--reuid=postgres", "--regid=postgres", "--clear-groups"] if os.geteuid() == 0 else []

# ---- the client library: queries, and parameters in binary form

LIBRARY = ctypes.CDLL(ctypes.util.find_library("pq") or "libpq.so.5")
for name in ("PQconnectdb", "PQexec", "PQexecParams"):
    getattr(LIBRARY, name).restype = ctypes.c_void_p
for name in ("PQerrorMessage", "PQresultErrorField", "PQresultErrorMessage", "PQgetvalue"):
    getattr(LIBRARY, name).restype = ctypes.c_void_p
PROCESSOR = ctypes.CFUNCTYPE(None, ctypes.c_void_p, ctypes.c_char_p)
COMMAND_OK, TUPLES_OK = 1, 2
SQLSTATE = ord("C")


class Refused(Exception):
    """An error of the server: its code, and what it says."""

    def __init__(self, code, message):
        super().__init__(f"{code}: {message}")
        self.code = code


class Connection:
    def __init__(self, where):
        self.connection = ctypes.c_void_p(LIBRARY.PQconnectdb(where.encode()))
        self.notices = []
        self.processor = PROCESSOR(lambda _, message: self.notices.append(message.decode()))
        LIBRARY.PQsetNoticeProcessor(self.connection, self.processor, None)
        if LIBRARY.PQstatus(self.connection) != 0:
            message = ctypes.string_at(LIBRARY.PQerrorMessage(self.connection)).decode()
            self.close()
            raise Refused(None, message)

    def close(self):
        LIBRARY.PQfinish(self.connection)

    def rows(self, query):
        """The rows of a query, or of the last of several, as tuples of str or None."""
        return self.taken(LIBRARY.PQexec(self.connection, query.encode()))

    def value(self, query):
        return self.rows(query)[0][0]

    def with_binary(self, query, kind, given):
        """The same of a query with one parameter in binary form, of the type with this number."""
        kinds, values = (ctypes.c_uint * 1)(kind), (ctypes.c_char_p * 1)(given)
        lengths, forms = (ctypes.c_int * 1)(len(given)), (ctypes.c_int * 1)(1)
        return self.taken(LIBRARY.PQexecParams(self.connection, query.encode(), 1, kinds, values, lengths, forms, 0))

    def taken(self, address):
        result = ctypes.c_void_p(address)
        try:
            if LIBRARY.PQresultStatus(result) not in (COMMAND_OK, TUPLES_OK):
                code = LIBRARY.PQresultErrorField(result, SQLSTATE)
                message = ctypes.string_at(LIBRARY.PQresultErrorMessage(result)).decode(errors="replace")
                raise Refused(ctypes.string_at(code).decode() if code else None, message)
            return [tuple(field(result, row, column) for column in range(LIBRARY.PQnfields(result))) for row in range(LIBRARY.PQntuples(result))]
        finally:
            LIBRARY.PQclear(result)


def field(result, row, column):
    if LIBRARY.PQgetisnull(result, row, column):
        return None
    return ctypes.string_at(LIBRARY.PQgetvalue(result, row, column)).decode()


# ---- servers


class Server:
    """A server of its own, in a folder of its own, of the programs in a folder."""

    def __init__(self, name, *options, home=FOLDER):
        self.home = home
        self.folder = home / name
        self.data = self.folder / "data"
        self.log = self.folder / "log"
        subprocess.run(USER + ["mkdir", str(self.folder)], check=True)
        self.run("initdb", "-D", self.data, "-U", "tester", "-E", "UTF8", "--locale=C.UTF-8", "--no-sync", *options)

    def run(self, program, *words, environment=None, limit=None):
        def limited():
            if limit:
                resource.setrlimit(resource.RLIMIT_AS, (limit, limit))

        command = USER + [str(self.home / "bin" / program), *map(str, words)]
        output = (self.folder / "output") if program == "pg_ctl" else None
        with open(output or os.devnull, "wb") as file:
            ran = subprocess.run(command, cwd=self.folder, env={**os.environ, "LC_ALL": "C", **(environment or {})}, preexec_fn=limited, check=False,
                                 stdout=file if output else subprocess.PIPE, stderr=subprocess.STDOUT)
        assert ran.returncode == 0, (program, ran.stdout, output and output.read_text())
        return ran.stdout

    def start(self, environment=None, limit=None):
        settings = f"-c listen_addresses= -c unix_socket_directories={self.folder} -c fsync=off -c shared_buffers=64MB -c max_wal_size=4GB -c jit=off -c wal_level=logical"
        self.run("pg_ctl", "-D", self.data, "-l", self.log, "-w", "-s", "-o", settings, "start", environment=environment, limit=limit)

    def stop(self):
        if (self.data / "postmaster.pid").exists():
            self.run("pg_ctl", "-D", self.data, "-w", "-s", "-m", "fast", "stop")

    def where(self, database="postgres"):
        return f"host={self.folder} user=tester dbname={database}"

    def connect(self, database="postgres"):
        return Connection(self.where(database))

    def environment(self, database="postgres"):
        return {"PGHOST": str(self.folder), "PGUSER": "tester", "PGDATABASE": database}

    def is_sound(self):
        """Whether no process of the server ended as none should."""
        found = re.findall(r"^.*(?:terminated by signal|PANIC|TRAP|server process .* exited).*$", self.log.read_text(errors="replace"), re.M)
        assert not found, found
        return True


def version(rng):
    """A version as indexes have them: mostly plain, some with suffixes, some local, a few with an epoch or written in another way."""
    text = ".".join(str(rng.randrange(limit)) for limit in (5, 30, 150)[: rng.choice((1, 2, 3, 3))])
    kind = rng.randrange(12)
    suffix = {0: f"rc{rng.randrange(3)}", 1: f".post{rng.randrange(3)}", 2: f".dev{rng.randrange(3)}", 3: f"+cu{rng.randrange(120)}", 4: f"a{rng.randrange(2)}.dev1"}
    text += suffix.get(kind, "")
    return f"1!{text}" if kind == 5 and rng.randrange(20) == 0 else f"V{text}" if kind == 6 else text


def fill(server):
    """The table of all tests: what was written, and the version."""
    rng = random.Random(20261123)
    lines = FOLDER / "lines"
    lines.write_text("".join(version(rng) + "\n" for _ in range(ROWS)))
    db = server.connect()
    db.rows("CREATE EXTENSION pep440")
    db.rows('CREATE TABLE releases (id serial, written text COLLATE "C", version pep440 GENERATED ALWAYS AS (pep440(written)) STORED)')
    db.rows(f"COPY releases (written) FROM '{lines}'")
    db.rows("CREATE INDEX by_version ON releases (version)")
    db.rows("CREATE INDEX by_hash ON releases USING hash (version)")
    db.rows("VACUUM ANALYZE releases")
    db.close()


def plan_of(db, query):
    return "\n".join(line for (line,) in db.rows("EXPLAIN (COSTS OFF) " + query))


def both_ways(db, query, index):
    """The rows of the query are by the index those that they are without one."""
    query = f"SELECT count(*), md5(string_agg(found::text, ' ' ORDER BY found::text)) FROM ({query}) AS found"
    alone = db.rows("RESET ALL;" + NO_INDEX + query)
    db.rows("RESET ALL;" + NO_TABLE)
    assert index in plan_of(db, query) and db.rows(query) == alone, query


def copied(db, query, name):
    """What the query gives, as COPY writes it."""
    file = db.folder / name
    db.rows(f"COPY ({query}) TO '{file}'")
    return file.read_bytes()


def milliseconds(db, query):
    return float(re.search(r"Execution Time: ([\d.]+)", "\n".join(line for (line,) in db.rows("EXPLAIN (ANALYZE, TIMING OFF) " + query)))[1])


def processor_time(db):
    """What the backend has taken, in seconds: on a loaded machine it waits longer, and takes no more."""
    return int(pathlib.Path(f"/proc/{db.value('SELECT pg_backend_pid()')}/schedstat").read_text().split()[0]) / 1e9


def instructions(server, query):
    """Of the query, by valgrind, in a server that runs it alone: what two runs take more than one."""
    settings = ("work_mem=1GB", "jit=off", "max_parallel_workers_per_gather=0")
    counts = []
    for turns in (1, 2):
        command = USER + ["valgrind", "--vgdb=no", "--tool=callgrind", "--callgrind-out-file=/dev/null", str(FOLDER / "bin" / "postgres"), "--single", "-D", str(server.data)]
        ran = subprocess.run(command + [word for setting in settings for word in ("-c", setting)] + ["postgres"], cwd=FOLDER, env={**os.environ, "LC_ALL": "C"},
                             input=(query + "\n") * turns, capture_output=True, text=True, check=True)
        counts.append(int(re.search(r"Collected : (\d+)", ran.stderr)[1]))
    return counts[1] - counts[0]
