"""Holds the extension against real servers: python3 test.py FOLDER PREFIX [PROGRAM] [--small] [--only=NAME]

FOLDER has `bin`, the programs of a server in which the extension is installed; `src`, where it was built; and `refuse.so`, built of refuse.c. The servers
run there as an ordinary user, on a socket, and are ended. PREFIX is that of the C library; PROGRAM, if given, is `pep440`, whose `filter` must print
what `@>` finds. With --small there are fewer rows, and nothing is timed; --only=NAME runs one test; --from=FOLDER is that of an older server, to be upgraded.
The last line is `N passed, M failed`.
"""
import ctypes
import os
import pathlib
import random
import re
import signal
import subprocess
import sys
import threading
import time

import test_hostile
import test_plans
import test_values
from server import (FOLDER, HERE, INVALID_REGULAR_EXPRESSION, LISTS, NARROW, NO_INDEX, NO_TABLE, OUT_OF_MEMORY, PREFIX, PROGRAM, RECHECKED, ROWS, SMALL, STRINGS, USER, Refused, Server, both_ways, copied,
                    fill, instructions, milliseconds, plan_of, version)
from test_plans import EXCLUSION_VIOLATION
from test_values import refused

# ---- what a running server is asked


def test_installcheck(server):
    ran = subprocess.run(USER + ["make", "-s", "installcheck", f"PG_CONFIG={FOLDER}/bin/pg_config", f"PEP440={PREFIX}"], cwd=FOLDER / "src",
                         env={**os.environ, **server.environment()}, capture_output=True, text=True, check=False)
    differences = FOLDER / "src" / "regression.diffs"
    assert ran.returncode == 0, differences.read_text()[:2000] if differences.exists() else ran.stdout + ran.stderr
    return re.search(r"All \d+ tests passed", ran.stdout)[0]


def run_commands(server, block):
    """Runs the page's commands, but for the one that installs packages, in a copy of the folder, for this server and its database `page`."""
    commands = re.sub(r"^sudo apt-get .*$|^sudo ", "", block, flags=re.M).replace("/usr/local", PREFIX)
    ran = subprocess.run(USER + ["sh", "-e"], input=f"cp -r src page && cd page && make -s clean PEP440={PREFIX}\n{commands}", cwd=FOLDER, capture_output=True, text=True, check=False,
                         env={**os.environ, **server.environment("page"), "PATH": f"{FOLDER}/bin:{os.environ['PATH']}"})
    assert ran.returncode == 0 and ran.stdout.endswith("CREATE EXTENSION\n"), ran.stdout[-1000:] + ran.stderr[-1000:]


def test_page(server):
    """The page's commands install the extension, and each query gives what stands under it."""
    server.connect().rows("CREATE DATABASE page")
    page = (HERE / "README.md").read_text(encoding="utf-8")
    (block,) = re.findall(r"```sh\n(.*?)```", page, re.S)
    run_commands(server, block)
    db, count = server.connect("page"), 0
    for block in re.findall(r"```sql\n(.*?)```", page, re.S):
        for query in re.findall(r"(?:^[^-\n].*\n)+(?:^-- .*\n)*", block, re.M):
            wanted = re.findall(r"^-- (.*)$", query, re.M)
            found = ["|".join(value or "" for value in row) for row in db.rows(re.sub(r"^-- .*$", "", query, flags=re.M))]
            assert not wanted or found == wanted, (query, found)
            count += bool(wanted)
    db.close()
    assert count == 4, count
    return f"4 commands, {count} queries"


def test_lists(server):
    """Of each list: by the index, without one, and by the program."""
    db = server.connect()
    db.folder, found = server.folder, 0
    lines = (FOLDER / "lines").read_bytes()
    for specs in LISTS:
        query = f"SELECT version FROM releases WHERE '{specs}' @> version ORDER BY version, id"
        other = f"SELECT version FROM releases WHERE version <@ '{specs}' ORDER BY version, id"
        db.rows(NO_INDEX)
        alone = copied(db, query, "alone")
        assert "by_version" not in plan_of(db, query), specs
        db.rows("RESET ALL")
        if specs in NARROW + RECHECKED:
            plan = plan_of(db, query)
            assert "by_version" in plan and re.search(r"Index Cond: \(+version >=", plan), plan
            db.rows(NO_TABLE + "SET enable_bitmapscan = off")
            plan = plan_of(db, query)
            assert "by_version" in plan and ("Filter: " in plan) == (specs in RECHECKED), plan
        db.rows(NO_TABLE)
        assert copied(db, query, "by_index") == alone == copied(db, other, "by_index"), specs
        assert "by_version" in plan_of(db, query), specs
        db.rows("RESET ALL")
        found += alone.count(b"\n")
        if PROGRAM:
            ran = subprocess.run([PROGRAM, "filter", specs], input=lines, capture_output=True, check=True)
            assert ran.stdout == alone, specs
    db.close()
    return f"{len(LISTS)} lists over {ROWS} rows, {found} versions found, by the index as without" + (", and as `filter`" if PROGRAM else "")


def test_order(server):
    """Comparisons, equality by both indexes, the ends, and distinct ones: by an index and without."""
    db = server.connect()
    queries = ["SELECT count(*), pep440_key(min(version)), pep440_key(max(version)) FROM releases", "SELECT version FROM releases ORDER BY version DESC, id LIMIT 20",
               "SELECT count(*) FROM (SELECT DISTINCT version FROM releases) AS distinct_ones", "SELECT pep440_key(version) FROM releases ORDER BY version LIMIT 1 OFFSET 5000"]
    rng = random.Random(7)
    for _ in range(60 if SMALL else 12):
        one, other = version(rng), version(rng)
        queries += [f"SELECT count(*), sum(id) FROM releases WHERE version {operator} '{one}'" for operator in ("<", "<=", "=", ">=", ">")]
        queries.append(f"SELECT count(*), sum(id) FROM releases WHERE version >= '{one}' AND version < '{other}'")
    for query in queries:
        answers = []
        for setting in ("", NO_TABLE, NO_INDEX):
            db.rows("RESET ALL;" + setting)
            answers.append(db.rows(query))
        assert answers[0] == answers[1] == answers[2], (query, answers)
    db.rows("RESET ALL; DROP INDEX by_version")
    for _ in range(60):
        both_ways(db, f"SELECT count(*), sum(id) FROM releases WHERE version = '{version(rng)}'", "by_hash")
    db.rows("RESET ALL; CREATE INDEX by_version ON releases (version); ANALYZE releases")
    db.close()
    return f"{len(queries)} queries by an index as without, 60 by the hash index"


def test_older(server):
    """Values as older releases stored them: key and compiled bytes, then the normal form. They are what those are that are stored now."""
    server.connect().rows("CREATE DATABASE older")
    db = server.connect("older")
    db.rows("CREATE EXTENSION pep440; CREATE CAST (bytea AS pep440) WITHOUT FUNCTION; CREATE CAST (bytea AS pep440_specs) WITHOUT FUNCTION; CREATE CAST (pep440_specs AS bytea) WITHOUT FUNCTION")
    key, packed = bytes([0, 2, 1, 0, 80, 0, 16, 0]), bytes([1, 2, 0, 1, 0, 0, 0, 0xA0, 0, 0])
    local_key = key[:-1] + b"\x01cu118\0\0"
    unpacked = bytes([2]) + b"".join(number.to_bytes(8, "big") for number in (0, 2, 1, 0)) + bytes(5) + (1).to_bytes(8, "big") + b"\x01" + (5).to_bytes(8, "big") + b"cu118"
    older = {"1.0": (key, packed), "1.0+cu118": (local_key, unpacked)}
    for normal, (own, compiled) in older.items():
        stored = b"".join(len(part).to_bytes(2, "little") for part in (own, compiled)) + own + compiled + normal.encode()
        found = db.rows(f"SELECT v, v = w, v < w, pep440_key(v) = pep440_key(w), pep440_release(v), pep440_local(v), v <@ '==1.0', v <@ '>1.0', v <@ '>=1.0,<1.1' "
                        f"FROM (SELECT '\\x{stored.hex()}'::bytea::pep440 AS v, '{normal}'::pep440 AS w) AS pair")
        assert found == db.rows(f"SELECT v, true, false, true, pep440_release(v), pep440_local(v), v <@ '==1.0', v <@ '>1.0', v <@ '>=1.0,<1.1' FROM (SELECT '{normal}'::pep440 AS v) AS one"), found
    old_list = bytes([3]) + (1).to_bytes(8, "big") + bytes([9]) + packed
    stored = len(old_list).to_bytes(4, "little") + old_list + b">=1.0"
    found = db.rows(f"SELECT s, s @> '1.0', s @> '0.9', pep440_any_prerelease(s) FROM (SELECT '\\x{stored.hex()}'::bytea::pep440_specs AS s) AS one")
    assert found == [(">=1.0", "t", "f", "f")], found
    members = bytes([5, 16 + 9]) + key + bytes([1])
    for name, made in (("older", f"'\\x{members.hex()}'::bytea::pep440_specs"), ("newer", "'>=1.0'::pep440_specs")):
        db.rows(f"CREATE TABLE {name} (specs pep440_specs); INSERT INTO {name} SELECT {made} FROM generate_series(1, 100)")
    found = db.rows("SELECT DISTINCT o.specs, o.specs = n.specs, o.specs < n.specs, pep440_specs_hash(o.specs) = pep440_specs_hash(n.specs), o.specs * n.specs, o.specs @> '1.0.post1', o.specs @> '1.0rc1', "
                    "isempty(o.specs), pep440_any_prerelease(o.specs) FROM older o, newer n")
    assert found == [(">=1.0", "t", "f", "t", ">=1.0, >=1.0", "t", "f", "f", "f")], found
    interval = bytes([1, len(key)]) + key + bytes(1)
    assert db.value("SELECT encode(specs::bytea, 'hex') FROM newer LIMIT 1") == (bytes([6, 1, len(interval)]) + interval + members).hex()
    db.rows("CREATE INDEX ON older (specs); CREATE INDEX ON older USING hash (specs); INSERT INTO older SELECT * FROM newer;" + NO_TABLE)
    assert db.value("SELECT count(*) FROM older WHERE specs = '>= 1.0'") == "200" and db.value("SELECT count(DISTINCT specs) FROM older") == "1"
    db.close()
    return f"{len(older)} versions and two lists of older releases"


def test_joins(server):
    """Lists in a table: a nested loop over the index finds what a join without one does."""
    db = server.connect()
    db.rows("CREATE TABLE lists (specs pep440_specs)")
    for specs in LISTS:
        db.rows(f"INSERT INTO lists SELECT '{specs}' WHERE '{specs}' <> ''")
    db.rows("ANALYZE lists")
    query = "SELECT specs::text, count(*), pep440_key(min(version)), pep440_key(max(version)), sum(r.id) FROM lists JOIN releases r ON specs @> version GROUP BY 1 ORDER BY 1"
    db.rows(NO_TABLE)
    plan = plan_of(db, query)
    assert "pep440_cover_start" in plan and "pep440_cover_end" in plan, plan
    by_index = db.rows(query)
    assert by_index == db.rows("RESET ALL;" + NO_INDEX + query)
    array = "'{~=1.4.2,==2.1.0+cu118,===3.9}'::pep440_specs[]"  # no version is in two of its lists
    alone = db.rows(f"SELECT count(*), sum(id) FROM releases WHERE version <@ ANY ({array})")
    db.rows("RESET ALL;" + NO_TABLE)
    query = f"SELECT count(*), sum(id) FROM unnest({array}) AS specs JOIN releases ON version <@ specs"
    assert "by_version" in plan_of(db, query) and db.rows(query) == alone != [("0", None)], (plan_of(db, query), alone)
    merged = "SELECT count(*) FROM (SELECT version FROM releases WHERE id <= 3000) a JOIN (SELECT version FROM releases WHERE id > 3000 AND id <= 9000) b USING (version)"
    counts = set()
    for off in (("hash", "merge"), ("hash", "nest"), ("merge", "nest")):
        names = {"hash": "enable_hashjoin", "merge": "enable_mergejoin", "nest": "enable_nestloop"}
        db.rows("RESET ALL;" + "".join(f"SET {names[word]} = off;" for word in off))
        counts.add(db.value(merged))
    assert len(counts) == 1, counts
    db.close()
    return f"{len(by_index)} lists joined, and those of an array; hash, merge and nested loop joins agree"


def test_dump(server):
    """A dump that is restored, and a copy in binary form, have the same rows."""
    all_rows = "SELECT md5(string_agg(id || ' ' || version || ' ' || encode(pep440_key(version), 'hex'), ',' ORDER BY id)), count(*) FROM releases"
    lists = "SELECT string_agg(specs::text || encode(pep440_specs_send(specs), 'hex'), ' ' ORDER BY specs::text) FROM lists"
    db = server.connect()
    wanted, wanted_lists = db.rows(all_rows), db.rows(lists)
    db.rows(f"COPY (SELECT id, version FROM releases) TO '{server.folder}/binary' (FORMAT binary)")
    db.rows(f"CREATE TABLE taken (id int, version pep440); COPY taken FROM '{server.folder}/binary' (FORMAT binary)")
    assert db.rows(all_rows.replace("releases", "taken")) == wanted
    db.rows("DROP TABLE taken")
    db.rows("CREATE DATABASE restored")
    dump = server.folder / "dump"
    server.run("pg_dump", "-Fc", "-Z1", "-h", server.folder, "-U", "tester", "-f", dump, "postgres")
    server.run("pg_restore", "-e", "-h", server.folder, "-U", "tester", "-d", "restored", dump)
    restored = server.connect("restored")
    assert restored.rows(all_rows) == wanted and restored.rows(lists) == wanted_lists
    assert "by_version" in plan_of(restored, "SELECT version FROM releases ORDER BY version LIMIT 3")
    restored.close()
    db.rows("DROP DATABASE restored")
    db.close()
    return f"{wanted[0][1]} rows restored, and copied in binary form"


def test_parallel(server):
    db = server.connect()
    queries = ["SELECT count(*), sum(id) FROM releases WHERE '>=1.0,<2.0,!=1.5.*' @> version", "SELECT pep440_key(max(version)), pep440_key(min(version)) FROM releases WHERE id % 3 = 0",
               "SELECT md5(string_agg(v, ',')) FROM (SELECT version::text AS v FROM releases ORDER BY version, id) AS sorted"]
    for query in queries:
        db.rows("RESET ALL; SET max_parallel_workers_per_gather = 0;" + NO_INDEX)
        alone = db.rows(query)
        db.rows("SET max_parallel_workers_per_gather = 3; SET parallel_setup_cost = 0; SET parallel_tuple_cost = 0; SET min_parallel_table_scan_size = 0")
        plan = plan_of(db, query)
        assert "Workers Planned" in plan and "Parallel Seq Scan" in plan, plan
        assert db.rows(query) == alone, query
    db.close()
    return f"{len(queries)} queries in parallel as alone"


def test_encodings(server):
    """In a database of another encoding: versions as ever, and a reason that is written in it."""
    db = server.connect()
    db.rows("CREATE DATABASE latin ENCODING 'LATIN1' LC_COLLATE 'C' LC_CTYPE 'C' TEMPLATE template0")
    other = server.connect("latin")
    other.rows("CREATE EXTENSION pep440; SET client_encoding = 'UTF8'")
    assert other.value("SELECT ' v1.0+A '::pep440") == "1.0+a"
    for text in ("1.0+é", "é"):
        assert text in refused(other, f"SELECT '{text}'::pep440", "22P02")
    other.close()
    db.rows("CREATE DATABASE no_encoding ENCODING 'SQL_ASCII' LC_COLLATE 'C' LC_CTYPE 'C' TEMPLATE template0")
    other = server.connect("no_encoding")
    other.rows("CREATE EXTENSION pep440; SET client_encoding = 'SQL_ASCII'")
    assert other.rows("SELECT pep440_valid(E'caf\\xe9'), pep440_specs_valid(E'>=1\\xe9'), pep440_valid('1.0')") == [("f", "f", "t")]
    for kind, text in (("pep440", "caf\\xe9"), ("pep440_specs", ">=1\\xe9")):
        refused(other, f"SELECT E'{text}'::{kind}", "22P02")
    other.close()
    db.close()
    return "LATIN1, SQL_ASCII"


def library():
    found = ctypes.CDLL(f"{PREFIX}/lib/libpep440.so")
    room, written = ctypes.create_string_buffer(100_000), ctypes.c_size_t()

    def normal(call, text):
        status = getattr(found, call)(text, ctypes.c_size_t(len(text)), room, ctypes.c_size_t(len(room)), ctypes.byref(written))
        return room.raw[: written.value].decode() if status == 0 else None

    return normal


def changed(rng, text):
    """The bytes with some changed, left out or put in."""
    text = bytearray(text)
    for _ in range(rng.randrange(1, 4)):
        place = rng.randrange(len(text) + 1)
        text[place : place + rng.randrange(2)] = rng.choice((b"", bytes([rng.randrange(256)]), rng.choice([b".", b"1", b"+", b"rc", b"!", b" ", b","])))
    return bytes(text)


def random_bytes(rng, valid):
    kind = rng.randrange(4)
    if kind == 0:
        return rng.randbytes(rng.randrange(60))
    text = b"\1" + valid.encode()
    if kind == 1:
        return text[: rng.randrange(len(text) + 1)]
    return text if rng.randrange(5) == 0 else changed(rng, text)


def test_receive(server):
    """Random bytes in binary form: what the library takes as the text of a version is that version, all else an error."""
    db, normal, rng, taken = server.connect(), library(), random.Random(440), 0
    kinds = [("pep440", "pep440_normalize", lambda: version(rng)), ("pep440_specs", "pep440_normalize_list", lambda: f"{rng.choice(['>=', '==', '~=', '!=', '<'])}{version(rng)}" + rng.choice(["", ",!=1.5.*"]))]
    for kind, call, make in kinds:
        number = int(db.value(f"SELECT '{kind}'::regtype::oid"))
        for _ in range(STRINGS):
            given = random_bytes(rng, make())
            is_text = given[:1] == b"\1" and b"\0" not in given and given[1:2] not in (b"\4", b"\5", b"\6", b"\7")
            wanted = normal(call, given[1:]) if is_text else None
            try:
                ((found,),) = db.with_binary("SELECT $1", number, given)
            except Refused as error:
                assert error.code in ("22P02", "22P03", "22021", "08P01", "54000"), (given, error)
                found = None
            assert found == wanted, (given, found, wanted)
            taken += found is not None
    db.close()
    assert server.is_sound() and taken > 1000, taken
    return f"{STRINGS} byte strings for each type, {taken} taken, the others errors"


def test_sort(server):
    """A sort of versions executes no more than one of the strings that they were written as."""
    if SMALL:
        return "left out"
    db = server.connect()
    db.rows("CREATE TABLE unsorted AS SELECT written, version FROM releases WHERE id <= 100000")
    db.close()
    server.stop()
    versions, strings = (instructions(server, f"SELECT count(*) FROM (SELECT {name} FROM unsorted ORDER BY {name} OFFSET 0) AS sorted") for name in ("version", "written"))
    server.start()
    assert versions <= strings, (versions, strings)
    return f"100000 versions take {versions} instructions, their strings {strings}"


# What a table of one column `it` is asked, and how much of the instructions of strings a table of versions may execute. A join of debversion is left out: a server
# that makes it a nested loop takes minutes for it.
FIGURES = {
    "sort": ("SELECT count(*) FROM (SELECT it FROM figures_{0} ORDER BY it OFFSET 0) AS sorted", 1.0), "group": ("SELECT count(*) FROM (SELECT it, count(*) FROM figures_{0} GROUP BY it) AS grouped", 1.15),
    "join": ("SELECT count(*) FROM figures_{0} JOIN joined_{0} USING (it)", 1.2), "scan of a range": ("SELECT count(*) FROM figures_{0} WHERE it >= '1' AND it < '2'", 1.1),
}


def test_figures(server):
    """What sorts, groups, joins and scans of versions execute beside the strings that they were written as, and the type debversion where the server has it."""
    if SMALL:
        return "left out"
    db = server.connect()
    kinds = {"version": "version", "string": "written"}
    if db.value("SELECT count(*) FROM pg_available_extensions WHERE name = 'debversion'") == "1":
        db.rows("CREATE EXTENSION debversion")
        kinds["debversion"] = "written::debversion"
    for kind, column in kinds.items():
        db.rows(f"CREATE TABLE figures_{kind} AS SELECT {column} AS it FROM releases WHERE id <= 4000 AND written ~ '^[0-9][0-9a-z.+]*$'; CREATE TABLE joined_{kind} AS SELECT DISTINCT it FROM figures_{kind} ORDER BY it LIMIT 20")
    db.rows("VACUUM FREEZE ANALYZE")
    db.close()
    server.stop()
    counts = {kind: {name: instructions(server, query.format(kind)) for name, (query, _) in FIGURES.items() if (kind, name) != ("debversion", "join")} for kind in kinds}
    server.start()
    ratios = {kind: {name: counts["version"][name] / count for name, count in those.items()} for kind, those in counts.items() if kind != "version"}
    told = "; ".join(f"of {kind} " + ", ".join(f"{name} {ratio:.2f}" for name, ratio in those.items()) for kind, those in ratios.items())
    assert all(ratios["string"][name] <= most for name, (_, most) in FIGURES.items()) and all(ratio <= 1 for ratio in ratios.get("debversion", {}).values()), told
    return told


def test_speed(server):
    if SMALL:
        return "left out"
    db = server.connect()
    db.rows("SET max_parallel_workers_per_gather = 0; SET work_mem = '1GB'")
    newest = "SELECT version FROM releases ORDER BY version DESC LIMIT 10"
    by_index = min(milliseconds(db, newest) for _ in range(50))
    db.rows(NO_INDEX)
    without = min(milliseconds(db, newest) for _ in range(5))
    db.close()
    assert without / by_index >= 1000, (without, by_index)
    return f"ORDER BY with LIMIT {without / by_index:.0f} times faster by the index"


# The conditions of filters, and the most that each may execute of the instructions of a LIKE that finds about as many rows: each row found adds a step of the aggregate.
FILTERS = [
    ("'>=1.0' @> version", "NOT LIKE '0.%'", 1.0), ("'>=1.0,<2.0,!=1.5.*' @> version", "LIKE '1.%'", 1.0), ("version <@ '~=1.4.2'", "LIKE '1.4.%'", 1.0),
    ("version <@ '{[1, 1.5), [1.6, 2.dev0)}'::pep440_set", "LIKE '1.%'", 1.0), ("version >= '1.0'", "NOT LIKE '0.%'", 1.1), ("version >= '1' AND version < '2'", "LIKE '1.%'", 1.1),
    ("pep440_is_prerelease(version)", "LIKE '1.%'", 1.1),
]


def test_filters(server):
    """What filters execute of the instructions of a LIKE, with all else that a row takes; each reads a table of one column."""
    if SMALL:
        return "left out"
    db = server.connect()
    db.rows("CREATE TABLE filtered AS SELECT version FROM releases WHERE id <= 20000; CREATE TABLE filtered_strings AS SELECT written FROM releases WHERE id <= 20000")
    db.rows("VACUUM FREEZE ANALYZE filtered, filtered_strings")
    db.close()
    server.stop()
    strings = {like: instructions(server, f"SELECT count(*) FROM filtered_strings WHERE written {like}") for like in dict.fromkeys(like for _, like, _ in FILTERS)}
    ratios = {condition: instructions(server, f"SELECT count(*) FROM filtered WHERE {condition}") / strings[like] for condition, like, _ in FILTERS}
    server.start()
    told = "; ".join(f"{condition} {ratio:.2f}" for condition, ratio in ratios.items())
    assert all(ratios[condition] <= most for condition, _, most in FILTERS), told
    return told


# ---- refused memory, in servers of their own

SMALL_TABLE = "CREATE TABLE kept (id int, version pep440); CREATE INDEX ON kept (version);"
LIST_TABLE = [
    "CREATE TABLE lists (id int, specs pep440_specs)", "CREATE INDEX ON lists USING gist (specs)",
    "INSERT INTO lists SELECT n, ('>=' || n % 7 || ',!=1.' || n || '.*' || CASE n % 3 WHEN 0 THEN ',<9' ELSE '' END)::pep440_specs FROM generate_series(1, 700) AS n",
]
QUERIES = [
    "SELECT ' 1!1.0.300-rc1.post2+Ubuntu-1 '::text::pep440",
    "SELECT count(*) FROM kept WHERE '>=1.0,!=1.5.*,!=1!2.0+a' @> version",
    "SELECT count(*) FROM kept WHERE version <@ '===1!2.300rc1.post1+ubuntu.7'::text::pep440_specs",
    "SELECT pep440_release(v), pep440_pre(v), pep440_local(v), pep440_public(v), pep440_base(v), v::text FROM (SELECT '1!1.2.3rc4.post5+u'::text::pep440 AS v) AS one",
    "SELECT count(*), count(high), bool_and(high IS NULL OR low < high) FROM pep440_cover('!=1.5,!=1.7.*,!=2.0+a')",
    "SELECT string_agg(version::text, ' ' ORDER BY version) FROM kept",
    "SELECT s * t, s = t, pep440_specs_hash(s), s < t, pep440_specs_valid('>=1,' || s::text) FROM (SELECT '>=1,!=1.5+a'::text::pep440_specs AS s, '<2.0rc1'::text::pep440_specs AS t) AS one",
    "SELECT count(*) FROM kept WHERE ' ' || version::text <@ '>=1,!=1.5.*' OR pep440_specs_without_empty_items('>=1,,' || version::text) IS NULL OR pep440_is_prerelease(version)",
    "SET LOCAL enable_seqscan = off; SELECT string_agg(specs::text, ' ' ORDER BY id) FROM lists WHERE specs && '>=1,!=1.5' AND specs @> '1.7'",
    "CREATE INDEX ON lists USING gist (specs)",
    "SELECT count(*) FROM lists, kept WHERE kept.version <@ lists.specs",
    "SELECT union_agg(specs) - '>2,!=3+a', intersect_agg(specs), '{[1.0, 2+a], (1.post*, *)}'::text::pep440_set, (SELECT string_agg(bounds, ' ') FROM unnest('!=1'::text::pep440_specs)) FROM lists",
    "SELECT count(*) FROM kept WHERE version <@ (SELECT union_agg(specs) * '!=3' FROM lists)",
    "UPDATE kept SET version = (version::text || '.dev1')::pep440 WHERE version <@ '>=1,!=1.5+a' AND version::text !~ 'dev|[+]' RETURNING version",
]

# A backend that knows the statistics of all tables makes no entry for them later. A server has a fault there: where memory for one is refused, its place in a hash
# table has the bytes of another one, which is then freed twice, and the backend ends by a signal.
KNOWN_STATISTICS = "SELECT sum(pg_stat_get_numscans(oid)) FROM pg_class"


def outcome(db, query):
    """The rows, or None where memory was refused."""
    try:
        return db.rows(query)
    except Refused as error:
        assert error.code == OUT_OF_MEMORY or error.code == INVALID_REGULAR_EXPRESSION and "out of memory" in str(error), error
        return None


def refuse_each(server, query, own):
    """Each request of the query refused in a backend of its own (a hundred of many): it gives its rows or says that memory is out, and no row changes."""
    counter = server.connect()
    counter.rows("LOAD 'pep440'")
    counter.rows(KNOWN_STATISTICS)
    counter.rows("BEGIN")
    counter.rows(f"SELECT refuse(0, {own})")
    wanted = counter.rows(query)
    requests = int(counter.value("SELECT requests()"))
    counter.rows("ROLLBACK")
    kept, refused = counter.rows("SELECT id, version FROM kept ORDER BY id"), 0
    for number in range(1, requests + 1, 1 + requests // 100):
        db = server.connect()
        db.rows("LOAD 'pep440'")
        db.rows(KNOWN_STATISTICS)
        db.rows("BEGIN")
        db.rows(f"SELECT refuse({number}, {own})")
        found = outcome(db, query)
        assert found in (None, wanted), (query, number, found)
        refused += found is None
        for query_after in ("ROLLBACK", "SELECT requests()"):
            if outcome(db, query_after) is None:
                db.rows(query_after)
        db.rows("BEGIN")
        assert db.rows(query) == wanted, (query, number)
        db.close()
    assert counter.rows("SELECT id, version FROM kept ORDER BY id") == kept
    counter.close()
    return refused


def test_refused(unused):
    """A preloaded allocator refuses request N of a backend."""
    server, refused = Server("refusing"), {}
    try:
        server.start(environment={"LD_PRELOAD": str(FOLDER / "refuse.so")})
        db = server.connect()
        db.rows("CREATE EXTENSION pep440;" + SMALL_TABLE)
        db.rows(f"CREATE FUNCTION refuse(bigint, boolean) RETURNS void AS '{FOLDER}/refuse.so' LANGUAGE C STRICT")
        db.rows(f"CREATE FUNCTION requests() RETURNS bigint AS '{FOLDER}/refuse.so' LANGUAGE C STRICT")
        rng = random.Random(5)
        db.rows("INSERT INTO kept VALUES " + ",".join(f"({row}, '{version(rng)}')" for row in range(40)))
        db.rows("INSERT INTO kept VALUES (40, '1!2.300rc1.post1+ubuntu.7');" + ";".join(LIST_TABLE) + "; ANALYZE")
        db.close()
        for own in ("true", "false"):
            refused[own] = sum(refuse_each(server, query, own) for query in QUERIES)
        assert server.is_sound() and min(refused.values()) > 50, refused
    finally:
        server.stop()
    return f"{refused['true']} requests of the library and {refused['false']} of a backend refused: errors, and no row changed"


def test_limited(unused):
    """A server that may have little memory."""
    server = Server("limited")
    try:
        server.start(limit=600_000_000)
        db = server.connect()
        db.rows("CREATE EXTENSION pep440;" + SMALL_TABLE)
        db.rows("INSERT INTO kept SELECT n, ('1!' || n || '.300rc1+ubuntu.' || n % 7)::pep440 FROM generate_series(1, 3000) AS n")
        kept = db.rows("SELECT md5(string_agg(version::text, ' ' ORDER BY id)) FROM kept")
        refused = 0
        big = "(SELECT count(*) FROM (SELECT array_agg(a.version) AS all_of FROM kept a, generate_series(1, %d)) AS one WHERE all_of IS NOT NULL)"
        for times in (1, 300, 1000, 4000):
            query = f"UPDATE kept SET version = (version::text || '.' || {big % times})::pep440 WHERE '>=1!0' @> version"
            db.rows("BEGIN")
            refused += outcome(db, query) is None
            db.rows("ROLLBACK")
            assert db.rows("SELECT md5(string_agg(version::text, ' ' ORDER BY id)) FROM kept") == kept
        db.close()
        assert server.is_sound() and 1 <= refused <= 3, refused
    finally:
        server.stop()
    return f"{refused} of 4 queries out of memory, and no row changed"


KEPT = ("CREATE EXTENSION pep440; CREATE EXTENSION amcheck; CREATE TABLE kept (client int, number int, version pep440, specs pep440_specs, versions pep440_set); CREATE INDEX by_version ON kept (version); "
        "CREATE INDEX by_hash ON kept USING hash (version); CREATE INDEX by_specs ON kept USING gist (specs); CREATE INDEX by_versions ON kept USING gist (versions)")
WRITES = """INSERT INTO kept SELECT {0}, {1}, v, '>=' || v, '>=0,!=' || v FROM (SELECT ('{0}.' || {1} || '.' || n || CASE n % 3 WHEN 0 THEN 'rc1' ELSE '' END)::text AS v FROM generate_series(1, 20) AS n) AS new;
    UPDATE kept SET version = (version::text || '.dev1')::pep440, versions = versions - '==2.*' WHERE client = {0} AND number = {1} - 1 AND version::text !~ 'dev'"""


def write_until_killed(server, client, first, written):
    """Numbered transactions, until there is no server; the last that was committed."""
    db, written[client] = server.connect(), first
    try:
        while True:
            db.rows(WRITES.format(client, written[client] + 1))
            written[client] += 1
    except Refused:
        db.close()


def kill(server):
    """Ends each process of the server at once."""
    postmaster = int((server.data / "postmaster.pid").read_text().split()[0])
    children = subprocess.run(["ps", "-o", "pid=", "--ppid", str(postmaster)], capture_output=True, text=True, check=True).stdout.split()
    for process in [postmaster, *map(int, children)]:
        os.kill(process, signal.SIGKILL)
    while any(os.path.exists(f"/proc/{process}") for process in [postmaster, *children]):
        time.sleep(0.05)


def test_killed(unused):
    """A server whose processes are all killed while clients write: what was committed is there, and each index finds what is in the table."""
    server, written, turns = Server("killed"), {}, 2 if SMALL else 5
    try:
        server.start()
        db = server.connect()
        db.rows(KEPT)
        db.close()
        for _ in range(turns):
            clients = [threading.Thread(target=write_until_killed, args=(server, client, written.get(client, 0), written)) for client in range(4)]
            for client in clients:
                client.start()
            time.sleep(2)
            kill(server)
            for client in clients:
                client.join()
            server.start()
            db = server.connect()
            for client, found, least in db.rows("SELECT client, max(number), min(count) FROM (SELECT client, number, count(*) FROM kept GROUP BY 1, 2) AS each GROUP BY 1"):
                assert written[int(client)] <= int(found) <= written[int(client)] + 1 and least == "20", (client, found, written)
                written[int(client)] = int(found)
            db.rows("SELECT bt_index_check('by_version', true)")
            for condition in ("version <@ '~=1.7'", "version = '2.8.1'", "specs @> '1.9.3'", "versions @> '1.9.3'::pep440", "versions && '==3.*'"):
                both_ways(db, f"SELECT count(*), sum(number) FROM kept WHERE {condition}", "by_")
            db.close()
    finally:
        server.stop()
    return f"{turns} times, with {sum(written.values())} transactions"


# What else has the types: a domain, arrays, partitions, a constraint, an index on an expression, and a view with an aggregate.
MORE = """CREATE EXTENSION btree_gist; CREATE DOMAIN numbered AS pep440 CHECK (VALUE <@ '>=1'); CREATE INDEX by_key ON kept (pep440_key(version));
    CREATE TABLE several AS SELECT number, array_agg(version) AS versions, array_agg(specs) AS lists, min(version)::numbered AS first FROM kept GROUP BY number;
    CREATE TABLE parts (version pep440 PRIMARY KEY) PARTITION BY RANGE (version); CREATE TABLE parts_0 PARTITION OF parts FOR VALUES FROM (MINVALUE) TO ('1.50'); CREATE TABLE parts_1 PARTITION OF parts DEFAULT;
    INSERT INTO parts SELECT DISTINCT version FROM kept; CREATE TABLE rules (name text, specs pep440_specs, EXCLUDE USING gist (name WITH =, specs WITH &&)); INSERT INTO rules VALUES ('a', '<1'), ('a', '>=1,!=1.5'), ('b', '<2');
    CREATE VIEW allowed AS SELECT number, intersect_agg(specs) AS shared, union_agg(versions) AS either FROM kept GROUP BY number"""
HELD = ["SELECT * FROM kept ORDER BY version, number", "SELECT count(*), sum(number) FROM kept WHERE version <@ '~=1.7'", "SELECT count(*), sum(number) FROM kept WHERE specs @> '1.9.3'",
        "SELECT count(*), sum(number) FROM kept WHERE versions && '==1.*'", "SELECT count(*) FROM kept WHERE version = '1.8.1.dev1'", "SELECT versions - '>=1.5' FROM kept ORDER BY versions, 1 LIMIT 50",
        "SELECT * FROM several ORDER BY first", "SELECT *, tableoid::regclass FROM parts WHERE version <@ '>=1.40,<1.60' ORDER BY version", "SELECT * FROM rules WHERE specs && '==1.0' ORDER BY name",
        "SELECT * FROM allowed ORDER BY number", "SELECT version FROM kept ORDER BY pep440_key(version), number LIMIT 50"]


def upgrade(old, new):
    """The tables of a server in those of another one, by pg_upgrade; the errors, where it ends with some."""
    try:
        new.run("pg_upgrade", "-b", old.home / "bin", "-B", new.home / "bin", "-d", old.data, "-D", new.data, "-U", "tester", "-s", new.folder)
    except AssertionError as failure:
        logs = "".join(file.read_text(errors="replace") for file in new.data.glob("pg_upgrade_output.d/*/log/*"))
        errors = set(re.findall(r"(?:ERROR|error): +(.*)", logs))
        assert errors, failure
        return errors
    return set()


def upgrade_without_extension(home):
    """The errors where a table has none but the server's own types."""
    old, new = Server("plain", "-k", home=home), Server("plainly", "-k")
    try:
        old.start()
        db = old.connect()
        db.rows("CREATE TABLE plain (number int)")
        db.close()
    finally:
        old.stop()
    return upgrade(old, new)


def test_pg_upgrade(unused):
    """The tables and indexes of another server, by pg_upgrade; left out where that ends with the same errors without the extension."""
    homes = [pathlib.Path(word[7:]) for word in sys.argv if word.startswith("--from=")]
    if not homes:
        return "left out"
    old, new = Server("upgraded", "-k", home=homes[0]), Server("upgrading", "-k")
    try:
        old.start()
        db = old.connect()
        db.rows(KEPT + ";" + ";".join(WRITES.format(1, number) for number in range(1, 101)))
        db.rows(MORE)
        held, version = [db.rows(query) for query in HELD], db.value("SHOW server_version_num")
        db.close()
        old.stop()
        errors = upgrade(old, new)
        if errors:
            others = upgrade_without_extension(homes[0])
            assert errors == others, (errors, others)
            return f"left out: without the extension, too, pg_upgrade ends with: {min(errors)}"
        new.start()
        db = new.connect()
        for setting in (NO_TABLE, NO_INDEX):
            assert [db.rows("RESET ALL;" + setting + query) for query in HELD] == held, setting
        for index in ("by_version", "by_key", "parts_0_pkey", "parts_1_pkey"):
            db.rows(f"SELECT bt_index_check('{index}', true)")
        assert db.rows("SELECT relname, e.* FROM pg_class, verify_heapam(oid) AS e WHERE relkind = 'r' AND relnamespace = 'public'::regnamespace") == []
        refused(db, "INSERT INTO rules VALUES ('a', '==1.0')", EXCLUSION_VIOLATION)
        db.rows("INSERT INTO kept VALUES (2, 1, '7.0', '>=7', '==7'); REINDEX TABLE kept")
        assert db.value("SELECT count(*) FROM kept WHERE versions @> '7.0'::pep440 AND version <@ '>=7'") == "1"
        versions = version, db.value("SHOW server_version_num")
        db.close()
    finally:
        old.stop()
        new.stop()
    return f"{len(held[0])} rows of {versions[0]} in {versions[1]}, {len(HELD)} queries by indexes as without, 4 indexes and each table checked"


def test_valgrind(unused):
    """No query reads or writes what it may not in the extension or the library: a server under valgrind that runs them alone."""
    server, log = Server("checked"), FOLDER / "valgrind"
    failing = ["SELECT '1.0.x'::text::pep440", "SELECT '=<1'::text::pep440_specs", f"SELECT ('1+' || repeat('a', 3000))::pep440 <> '{'1' + '.1' * 1000}'"]
    rows = [f"INSERT INTO kept SELECT n, ('{'1!' if epoch else ''}1.' || n || '{suffix}')::pep440 FROM generate_series(1, 50) AS n" for epoch, suffix in enumerate(("", ".0rc1+ubuntu.7", ".0.0"))]
    queries = ["CREATE EXTENSION pep440", *SMALL_TABLE.split(";")[:2], *rows, *LIST_TABLE, "ANALYZE", "SET enable_seqscan = off", *QUERIES, *failing, "ANALYZE kept", "SELECT * FROM kept WHERE version <@ '~=1.5' ORDER BY version"]
    command = USER + ["valgrind", "--vgdb=no", f"--log-file={log}", "--num-callers=30", str(FOLDER / "bin" / "postgres"), "--single", "-D", str(server.data), "postgres"]
    subprocess.run(command, cwd=FOLDER, env={**os.environ, "LC_ALL": "C"}, input="\n".join(queries) + "\n", capture_output=True, text=True, check=True)
    found = [block for block in log.read_text().split("== \n") if re.search(r"pep440|\((version|stored|specs|set|parts|plan|estimate|gist)\.c", block) and "Command:" not in block]
    assert not found, found[0]
    return f"{len(queries)} queries"


def main():
    failed = passed = 0
    server = Server("server")
    try:
        server.start()
        fill(server)
        only = [f"test_{word[7:]}" for word in sys.argv if word.startswith("--only=")]
        tests = {**globals(), **vars(test_values), **vars(test_plans), **vars(test_hostile)}
        for name, test in [(name, test) for name, test in tests.items() if name.startswith("test_") and callable(test) and (not only or name in only)]:
            try:
                print(f"postgresql: {name.removeprefix('test_')}: {test(server)}", flush=True)
                passed += 1
            except Exception as error:  # pylint: disable=broad-except
                print(f"postgresql: {name.removeprefix('test_')}: FAILED: {type(error).__name__}: {error}", flush=True)
                failed += 1
        server.is_sound()
    finally:
        server.stop()
    print(f"{passed} passed, {failed} failed")
    sys.exit(bool(failed))


main()
