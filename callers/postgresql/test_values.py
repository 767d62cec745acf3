"""Tests of lists and sets as values, of what values take, and of updates from older releases; test.py runs them."""
import importlib
import os
import random
import re
import subprocess
import sys
import time
import unittest

from server import FOLDER, HERE, LISTS, NO_TABLE, ROWS, SMALL, Connection, Refused, instructions, plan_of, processor_time, version

UNIQUE_VIOLATION, CANCELED, NO_PRIVILEGE = "23505", "57014", "42501"
SPELLINGS = [">=1.0,<2.0", "<2.0 , >=1.0", ">=v1.0, <2.0"]  # of one list
SUFFIXES = ["", "rc1", "a1", ".post1", ".dev0", "rc1.dev1", "rc1.post1", ".post1.dev0", "+a", ".post1+a", "rc1+a.1"]
NEAR = [f"{release}{suffix}" for release in ("0.0", "0.1", "1.0", "1.0.5", "1.1", "2.0") for suffix in SUFFIXES]
OPERATORS = [">=", "<", "==", "!=", "~=", "<=", ">", "==="]


def specifiers(rng, most=3):
    """A list with blanks, of few versions, so that lists repeat."""
    members = []
    for _ in range(rng.randrange(most + 1)):
        members.append(f"{rng.choice(OPERATORS)}{rng.choice(['', ' '])}{rng.randrange(3)}.{rng.choice(['0', '1', '1rc1', '0.0'])}")
    return rng.choice([",", ", ", " ,"]).join(members)


def refused(db, query, code):
    try:
        db.rows(query)
    except Refused as error:
        assert error.code == code, error
        return str(error)
    raise AssertionError(query)


def database(server, name, *commands):
    db = server.connect()
    db.rows(f"CREATE DATABASE {name}")
    db.close()
    made = server.connect(name)
    for command in commands or ("CREATE EXTENSION pep440",):
        made.rows(command)
    return made


def test_values(server):
    """Lists are equal exactly if their normal forms are, whatever asks: operators, sorts, hashes, joins, DISTINCT, UNION, GROUP BY, UNIQUE."""
    db, rng = database(server, "listed"), random.Random(651)
    db.rows("CREATE TABLE listed (id serial, specs pep440_specs)")
    count = 500 if SMALL else 3000
    db.rows("INSERT INTO listed (specs) VALUES " + ",".join(f"('{specifiers(rng)}')" for _ in range(count)))
    db.rows("CREATE TABLE sample AS SELECT * FROM listed WHERE id <= 300")
    wrong = db.value("""SELECT count(*) FROM sample a, sample b WHERE (a.specs = b.specs) <> (a.specs::text = b.specs::text)
        OR (a.specs <> b.specs) = (a.specs = b.specs) OR (a.specs IS DISTINCT FROM b.specs) = (a.specs = b.specs) OR (a.specs < b.specs) <> (b.specs > a.specs)
        OR (a.specs <= b.specs) = (a.specs > b.specs) OR (a.specs >= b.specs) = (a.specs < b.specs) OR (pep440_specs_cmp(a.specs, b.specs) = 0) <> (a.specs = b.specs)""")
    assert wrong == "0", wrong
    for query in ("SELECT count(*) FROM (SELECT DISTINCT specs FROM listed) AS s", "SELECT count(*) FROM (SELECT specs FROM listed UNION SELECT specs FROM sample) AS s",
                  "SELECT count(*) FROM (SELECT specs, count(*) FROM listed GROUP BY specs) AS s", "SELECT count(*) FROM listed a JOIN sample b USING (specs)"):
        wanted, found = db.value(re.sub(r"USING \(specs\)", "ON a.specs::text = b.specs::text", query.replace("specs FROM", "specs::text AS specs FROM"))), set()
        for setting in ("enable_hashagg = off; SET enable_hashjoin = off", "enable_sort = off; SET enable_mergejoin = off"):
            found.add(db.value(f"SET {setting}; {query}"))
            db.rows("RESET ALL")
        assert found == {wanted}, (query, wanted, found)
    for kind in ("btree", "hash"):
        db.rows(f"CREATE INDEX by_specs ON listed USING {kind} (specs); ANALYZE listed;" + NO_TABLE)
        assert "by_specs" in plan_of(db, "SELECT id FROM listed WHERE specs = '>=1.0'")
        assert db.value("SELECT count(*) FROM listed WHERE specs = '>= 1.0'") == db.value("SELECT count(*) FROM listed WHERE specs::text = '>=1.0'") != "0"
        db.rows("DROP INDEX by_specs; RESET ALL")
    db.rows(f"CREATE TABLE single (specs pep440_specs PRIMARY KEY); INSERT INTO single VALUES ('{SPELLINGS[0]}')")
    for other in SPELLINGS[1:]:
        refused(db, f"INSERT INTO single VALUES ('{other}')", UNIQUE_VIOLATION)
    db.rows("INSERT INTO single VALUES ('>=1.0.0,<2.0')")
    assert db.rows("SELECT pep440_specs_valid('>=1, <2'), pep440_specs_valid(''), pep440_specs_valid('=<1'), pep440_specs_valid(NULL)") == [("t", "t", "f", None)]
    db.close()
    return f"{count} lists, 90000 pairs"


def test_both(server):
    """A version is in `a * b` exactly if it is in both."""
    db, rng = server.connect("listed"), random.Random(652)
    db.rows("CREATE TABLE candidate (version pep440); INSERT INTO candidate VALUES " + ",".join(f"('{version(rng)}')" for _ in range(200)))
    wrong = db.value("SELECT count(*) FROM (SELECT * FROM sample LIMIT 60) a, (SELECT * FROM sample OFFSET 240) b, candidate WHERE (a.specs * b.specs @> version) <> (a.specs @> version AND b.specs @> version)")
    assert wrong == "0", wrong
    assert db.rows("SELECT '<2'::pep440_specs * '>=1', ''::pep440_specs * '', '>1'::pep440_specs * ''") == [(">=1, <2", "", ">1")]
    db.close()
    return "720000 triples"


def test_emptiness(server):
    """Two lists overlap if a version is found in both; where none is found, no candidate is in both."""
    db = server.connect("listed")
    db.rows("CREATE TABLE pair AS SELECT a.specs AS one, b.specs AS other, a.specs * b.specs AS joined FROM (SELECT * FROM sample LIMIT 100) a, (SELECT * FROM sample OFFSET 200) b")
    wrong = db.value("SELECT count(*) FROM pair WHERE (one && other) = isempty(joined) OR (one && other) <> (other && one) OR isempty(joined) <> (pep440_version_in(joined) IS NULL)")
    assert wrong == "0", wrong
    wrong = db.value("SELECT count(*) FROM pair WHERE NOT (one @> pep440_version_in(joined) AND other @> pep440_version_in(joined))")
    assert wrong == "0", wrong
    wrong = db.value("SELECT count(*) FROM pair, candidate WHERE joined @> version AND isempty(joined)")
    assert wrong == "0", wrong
    empty = db.value("SELECT count(*) FROM pair WHERE isempty(joined)")
    assert 100 < int(empty) < 9900, empty
    db.close()
    return f"{empty} of 10000 pairs have no version in common"


def without_exact(rng):
    """A list that has a set."""
    return ",".join(filter(None, (specifiers(rng).replace("===", "=="), rng.choice(["", "", "", "==1.0+a", "!=1.0+a.1", "<=1.0.post1", ">1.0rc1", "==1.0.*"]))))


RELATIONS = [
    "(one <@ other) <> isempty(rest)", "(other @> one) <> isempty(rest)", "(one && other) = isempty(shared)", "(other && one) = isempty(shared)", "shared + rest <> one", "either - other <> rest",
    "shared <> other * one", "either <> other + one", "(one = other) <> (one <@ other AND other <@ one)", "isempty(one) <> isempty(a)", "NOT shared <@ one", "NOT either @> other",
    "either::text::pep440_set <> either", "rest::text::pep440_set <> rest", "(rest < shared) = (rest >= shared)", "pep440_set_hash(either) <> pep440_set_hash(other + one)",
]


def test_sets(server):
    """Sets made of random lists have the versions that they should, in all operators, and are parsed as they are printed."""
    db, rng, count = database(server, "sets"), random.Random(914), 2_000 if SMALL else 100_000
    pairs = [(number, without_exact(rng), without_exact(rng)) for number in range(count)]
    file = server.folder / "pairs"
    file.write_text("".join(f"{number}\t{a}\t{b}\n" for number, a, b in pairs))
    db.rows("CREATE TABLE near (number serial, version pep440); INSERT INTO near (version) VALUES " + ",".join(f"('{it}')" for it in NEAR))
    db.rows(f"CREATE TABLE pair (id int, a pep440_specs, b pep440_specs); COPY pair FROM '{file}'")
    db.rows("CREATE TABLE made AS SELECT *, one + other AS either, one - other AS rest, one * other AS shared FROM (SELECT *, a::pep440_set AS one, b::pep440_set AS other FROM pair) AS given; ANALYZE made")
    for relation in RELATIONS:
        assert db.value(f"SELECT count(*) FROM made WHERE {relation}") == "0", relation
    wrong = db.value("""SELECT count(*) FROM made, near WHERE (version <@ either) <> (version <@ a OR version <@ b) OR (rest @> version) <> (a @> version AND NOT b @> version)
        OR (version <@ shared) <> (version <@ a AND version <@ b) OR (version <@ one) <> (version <@ a)""")
    assert wrong == "0", wrong
    empty = int(db.value("SELECT count(*) FROM made WHERE isempty(shared)"))
    assert 0.05 * count < empty < 0.95 * count, empty
    told = compare_ranges(db, pairs) + compare_lines(db, rng)
    db.close()
    return f"{3 * count} sets of {len(NEAR)} versions, {empty} of {count} pairs have none in common{told}"


def compare_ranges(db, pairs):
    """Whether the same versions are in the sets of `packaging`."""
    try:
        versions, specifiers_of, name = peer_of_26()
    except unittest.SkipTest:
        return ""
    if not hasattr(specifiers_of.SpecifierSet, "to_range"):
        return ""
    near, ranges = [versions.Version(it) for it in NEAR], {}
    for number, a, b in pairs:
        one, other = (ranges.setdefault(text, specifiers_of.SpecifierSet(text, prereleases=True).to_range()) if text not in ranges else ranges[text] for text in (a, b))
        if number % 1000 == 0:
            columns = ", ".join(f"string_agg((version <@ {it})::int::text, '' ORDER BY number)" for it in ("either", "rest", "shared"))
            found = {int(row[0]): row[1:] for row in db.rows(f"SELECT id, {columns} FROM made, near WHERE id BETWEEN {number} AND {number + 999} GROUP BY id")}
        wanted = tuple("".join(str(int(made.contains(it))) for it in near) for made in (one | other, one - other, one & other))
        assert found[number] == wanted, (a, b, found[number], wanted)
    return f", as in {name}"


def compare_lines(db, rng):
    """Whether sets are printed as `pyver range` prints them, where no version ends with a zero."""
    program = os.environ.get("PYVER")
    if not program:
        return ""
    lists = [re.sub(r"(\d)(\.0)+(?!\d)", r"\1", without_exact(rng)).replace("~=", ">=") for _ in range(200)]
    for text in lists:
        ran = subprocess.run([program, "range", text], capture_output=True, text=True, check=False)
        lines = [] if ran.stdout == "no version\n" else ran.stdout.splitlines()
        assert db.value(f"SELECT '{text}'::pep440_set") == "{" + ", ".join(lines) + "}", (text, lines)
    return f", {len(lists)} printed as `pyver range`"


def test_replica(server):
    """Changes of a table whose replica identity is the whole row arrive."""
    sender, receiver = database(server, "sender"), database(server, "receiver")
    for db in (sender, receiver):
        db.rows("CREATE TABLE replicated (version pep440, specs pep440_specs); ALTER TABLE replicated REPLICA IDENTITY FULL")
    sender.rows("CREATE PUBLICATION sent FOR TABLE replicated")
    sender.rows("SELECT pg_create_logical_replication_slot('sent', 'pgoutput')")
    receiver.rows(f"CREATE SUBSCRIPTION taken CONNECTION '{server.where('sender')}' PUBLICATION sent WITH (create_slot = false, slot_name = 'sent', copy_data = false)")
    sender.rows("INSERT INTO replicated SELECT ('1.' || n)::pep440, ('>=1.' || n || ',!=2.0')::pep440_specs FROM generate_series(1, 200) AS n")
    sender.rows("UPDATE replicated SET specs = '<3' WHERE specs = '!=2.0, >=1.7'")
    sender.rows("UPDATE replicated SET version = '5.0' WHERE version = '1.8.0'; DELETE FROM replicated WHERE version = '1.9'")
    query, wait = "SELECT version, specs FROM replicated ORDER BY version", 0
    wanted = sender.rows(query)
    while receiver.rows(query) != wanted and wait < 600:
        time.sleep(0.1)
        wait += 1
    assert len(wanted) == 199 and receiver.rows(query) == wanted
    receiver.rows("DROP SUBSCRIPTION taken")
    sender.close()
    receiver.close()
    return f"{len(wanted)} rows after INSERT, UPDATE and DELETE"


def test_estimates(server):
    """How many of many stored lists a version is in, and how many have one in common with another list."""
    db, rng = server.connect("listed"), random.Random(653)
    rows = ROWS // 5
    lists = [f">={rng.randrange(6)}.{rng.randrange(20)}" + rng.choice(["", f",<{rng.randrange(3, 9)}", f",!={rng.randrange(6)}.*"]) for _ in range(2000)]
    db.rows("CREATE TABLE required (specs pep440_specs); CREATE TABLE choice (id serial, specs pep440_specs); INSERT INTO choice (specs) VALUES " + ",".join(f"('{it}')" for it in lists))
    db.rows(f"INSERT INTO required SELECT specs FROM choice, generate_series(1, {rows // 2000}) ORDER BY random()")
    db.rows("ANALYZE required")
    told = []
    for condition in ("specs @> '1.5'", "'3.2' <@ specs", "specs @> '0.1'", "specs @> '7'", "specs && '>=1.5,<2'", "'==7' && specs"):
        found = int(db.value(f"SELECT count(*) FROM required WHERE {condition}"))
        estimate = int(re.search(r"Seq Scan.*rows=(\d+)", "\n".join(line for (line,) in db.rows(f"SET max_parallel_workers_per_gather = 0; EXPLAIN SELECT * FROM required WHERE {condition}")))[1])
        assert abs(estimate - found) < 0.15 * rows, (condition, estimate, found)
        told.append(f"{estimate} of {found}")
    db.close()
    return f"of {rows} lists " + ", ".join(told)


def peer_of_26():
    """The modules `version` and `specifiers` of `packaging`, and which one it is."""
    sys.path.insert(0, str(HERE.parent / "python" / "tests"))
    peer = importlib.import_module("peer")
    peer.RELEASES = ("26.0", "26.1", "26.2", "26.3")
    return peer.find()


def test_packaging(server):
    """The order of all rows, and how many each list contains, beside the library `packaging`; and what random lists contain of versions near to theirs."""
    try:
        versions, specifiers_of, name = peer_of_26()
    except unittest.SkipTest as reason:
        return f"left out: {reason}"
    db = server.connect()
    strings = db.rows("SELECT written, count(*) FROM releases GROUP BY written")
    parsed = {string: versions.Version(string) for string, _ in strings}
    in_order = [parsed[string] for (string,) in db.rows("SELECT min(written) FROM releases GROUP BY version ORDER BY version")]
    assert in_order == sorted(set(parsed.values()))
    for specs in LISTS:
        those = specifiers_of.SpecifierSet(specs, prereleases=True)
        wanted = sum(int(count) for string, count in strings if those.contains(parsed[string]))
        found = int(db.value(f"SELECT count(*) FROM releases WHERE '{specs}' @> version"))
        assert found == wanted, (specs, found, wanted)
    db.rows("CREATE TABLE near (version pep440 PRIMARY KEY); INSERT INTO near VALUES " + ",".join(f"('{it}')" for it in NEAR) + ";" + NO_TABLE)
    rng = random.Random(655)
    for _ in range(400):
        specs = ",".join(filter(None, (specifiers(rng), rng.choice(["", "", "==1.0.*", "!=1.0+a", "<1.0.post1", ">1.0rc1"]))))
        wanted = [it for it in NEAR if specifiers_of.SpecifierSet(specs, prereleases=True).contains(it)]
        found = [it for (it,) in db.rows(f"SELECT version FROM near WHERE '{specs}' @> version")]
        assert sorted(found) == sorted(wanted), (specs, found, wanted)
    db.close()
    return f"{ROWS} rows, {len(in_order)} versions in order, {len(LISTS)} lists and 400 random ones as in {name}"


def test_sizes(server):
    """What a version takes in a row and in an index."""
    db = server.connect()
    average = float(db.value("SELECT avg(pg_column_size(version)) FROM releases"))
    strings = float(db.value("SELECT avg(pg_column_size(written)) FROM releases"))
    sizes = []
    for index in ("(version)", "(pep440_key(version))", "(written)", "(written) WITH (deduplicate_items = off)"):
        db.rows(f"CREATE INDEX by_size ON releases {index}")
        sizes.append(int(db.value("SELECT pg_relation_size('by_size')")) / ROWS)
        db.rows("DROP INDEX by_size")
    db.close()
    assert average <= 16 and sizes[0] <= sizes[3], (average, sizes)
    return "{:.1f} bytes a version (their strings {:.1f}); in an index {:.1f}, of keys {:.1f} (strings {:.1f}, not deduplicated {:.1f})".format(average, strings, *sizes)


def copied_from(server, name):
    """Instructions of COPY into an empty table, and out of it."""
    file = FOLDER / "written"
    load = instructions(server, f"TRUNCATE copied_{name}; COPY copied_{name} FROM '{file}'")
    return load, instructions(server, f"COPY copied_{name} TO '{FOLDER}/copied'")


def test_copy(server):
    if SMALL:
        return "left out"
    db = server.connect()
    db.rows(f"COPY (SELECT written FROM releases WHERE id <= 5000) TO '{FOLDER}/written'")
    db.rows("CREATE TABLE copied_version (it pep440); CREATE TABLE copied_string (it text)")
    db.close()
    server.stop()
    ratios = [versions / strings for versions, strings in zip(copied_from(server, "version"), copied_from(server, "string"))]
    server.start()
    assert max(ratios) <= 1.15, ratios
    return "COPY FROM takes {:.2f} of the instructions of strings, COPY TO {:.2f}".format(*ratios)


def stored_by_0_2(normal, key):
    """Bytes that release 0.2 stored: lengths, sort key, compiled bytes (not read any more) and the normal form."""
    compiled = bytes([1]) + bytes(9)
    return b"".join(len(part).to_bytes(2, "little") for part in (key, compiled)) + key + compiled + normal.encode()


def test_update_0_3(server):
    """Tables and indexes of 0.3 stay as they are, and the values have what is new."""
    db, rng = database(server, "release_0_3", "CREATE EXTENSION pep440 VERSION '0.3'"), random.Random(656)
    db.rows("CREATE TABLE held (version pep440 PRIMARY KEY, specs pep440_specs); CREATE INDEX ON held USING hash (specs); CREATE VIEW found AS SELECT version FROM held WHERE version <@ '>=1.0,!=1.5'")
    db.rows("INSERT INTO held VALUES " + ",".join(f"('{version(rng)}', '{specifiers(rng)}')" for _ in range(300)) + " ON CONFLICT DO NOTHING")
    query = "SELECT *, specs @> version FROM held ORDER BY version; SELECT * FROM found ORDER BY version"
    before = db.rows(query)
    db.rows("ALTER EXTENSION pep440 UPDATE; CREATE INDEX by_list ON held USING gist (specs);" + NO_TABLE)
    assert db.rows(query) == before and "by_list" in plan_of(db, "SELECT * FROM held WHERE specs @> '1.0'")
    installed = "SELECT pg_describe_object(classid, objid, 0) FROM pg_depend WHERE deptype = 'e' AND refobjid = (SELECT oid FROM pg_extension WHERE extname = 'pep440') ORDER BY 1"
    updated = db.rows(installed)
    db.close()
    db = server.connect()
    assert db.rows(installed) == updated
    db.close()
    return f"{len(before)} versions found, and {len(updated)} objects as of a new extension"


def test_update(server):
    """ALTER EXTENSION UPDATE leaves the tables, whose values are read as they are; the page's statement writes one anew; and a dump of 0.2 restores."""
    db = database(server, "older_release", "CREATE EXTENSION pep440 VERSION '0.2'", "CREATE CAST (bytea AS pep440) WITHOUT FUNCTION")
    rng, count = random.Random(654), 300
    db.rows("CREATE TABLE fresh (id serial, version pep440); INSERT INTO fresh (version) VALUES " + ",".join(f"('{version(rng)}')" for _ in range(count)))
    rows = db.rows("SELECT id, version, encode(pep440_key(version), 'hex') FROM fresh")
    values = ",".join(f"({number}, '\\x{stored_by_0_2(normal, bytes.fromhex(key)).hex()}'::bytea::pep440)" for number, normal, key in rows)
    db.rows(f"CREATE TABLE old (id int, version pep440); INSERT INTO old VALUES {values}; CREATE INDEX ON old (version)")
    server.run("pg_dump", "-Fc", "-h", server.folder, "-U", "tester", "-f", server.folder / "dump_0_2", "-t", "old", "-e", "pep440", "older_release")
    files, sizes = "SELECT relname, relfilenode FROM pg_class WHERE relkind IN ('r', 'i') AND relnamespace = 'public'::regnamespace ORDER BY relname", []
    before = db.rows(files)
    db.rows("ALTER EXTENSION pep440 UPDATE")
    assert db.rows(files) == before and db.value("SELECT extversion FROM pg_extension WHERE extname = 'pep440'") == "0.4"
    (anew,) = re.findall(r"^ALTER TABLE .*;$", (HERE / "README.md").read_text(encoding="utf-8"), re.M)
    for command in ("SELECT 1", anew.replace("releases", "old")):
        db.rows(command)
        differ = db.value("SELECT count(*) FROM old o JOIN fresh f USING (id) WHERE o.version <> f.version OR o.version::text <> f.version::text OR o.version <@ '>=1,!=2' <> f.version <@ '>=1,!=2'")
        assert differ == "0", (command, differ)
        order = db.rows(NO_TABLE + "SELECT version FROM old ORDER BY version, id")
        assert order == db.rows("RESET ALL; SELECT version FROM fresh ORDER BY version, id"), command
        sizes.append(int(db.value("SELECT sum(pg_column_size(version)) FROM old")))
    assert sizes[0] > sizes[1] == int(db.value("SELECT sum(pg_column_size(version)) FROM fresh")), sizes
    db.close()
    restored = database(server, "restored_0_2", "SELECT 1")
    server.run("pg_restore", "-e", "-h", server.folder, "-U", "tester", "-d", "restored_0_2", server.folder / "dump_0_2")
    assert restored.rows("SELECT id, version FROM old ORDER BY id") == [(number, normal) for number, normal, _ in rows]
    restored.close()
    return f"{count} versions of 0.2: {sizes[0] / count:.1f} bytes each, then {sizes[1] / count:.1f}"


def test_trusted(server):
    """Whoever owns a database may install the extension there, and update it."""
    db = server.connect()
    db.rows("CREATE ROLE plain LOGIN")
    db.rows("CREATE DATABASE plains OWNER plain")
    db.close()
    own = Connection(server.where("plains").replace("user=tester", "user=plain"))
    own.rows("CREATE EXTENSION pep440 VERSION '0.2'; CREATE TABLE mine (version pep440); INSERT INTO mine VALUES ('1.0')")
    own.rows("ALTER EXTENSION pep440 UPDATE")
    assert own.rows("SELECT version, version <@ '>=1' FROM mine") == [("1.0", "t")]
    refused(own, "CREATE CAST (bytea AS pep440) WITHOUT FUNCTION", NO_PRIVILEGE)
    own.close()
    return "installed and updated by an ordinary user"


def test_soft_errors(server):
    """From PostgreSQL 16 on input errors can be asked for."""
    db = server.connect()
    if int(db.value("SHOW server_version_num")) < 160000:
        db.close()
        return "left out before PostgreSQL 16"
    found = db.rows("SELECT pg_input_is_valid('1.0', 'pep440'), pg_input_is_valid('1.0.x', 'pep440'), pg_input_is_valid('>=1', 'pep440_specs'), pg_input_is_valid('=<1', 'pep440_specs')")
    assert found == [("t", "f", "t", "f")], found
    assert db.value("SELECT pg_input_is_valid(repeat('1.', 3000) || '1', 'pep440')") == "f"
    message = db.rows("SELECT message, sql_error_code FROM pg_input_error_info('1.0.x', 'pep440')")
    assert message == [('invalid input syntax for type pep440: "1.0.x"', "22P02")], message
    db.close()
    return "valid and invalid versions and lists"


GAPS, MANY_GAPS = (">=1" + "".join(f",!={number % 300}.{number}" for number in range(count)) for count in (5_200, 80_000))
LONG = [  # what takes the longest of the texts that a server takes, and of the plans that it makes for them
    "('1' || repeat('.1', 5000000))::pep440", "repeat('0', 10000000)::pep440", "(repeat(' ', 10000000) || '1')::pep440", "('>=1' || repeat(',!=1.5.*', 1000000))::pep440_specs",
    "(repeat('>=1,', 2000000) || 'x')::pep440_specs", "pep440_valid(repeat('1', 10000000))", "pep440_specs_valid(repeat('>=1,', 2000000) || '>1')", f"'{MANY_GAPS}'::pep440_specs",
    f"pep440_specs_valid('{MANY_GAPS}')", f"pep440_version_in('{MANY_GAPS}')", "(SELECT count(pep440_specs(repeat('>=1.0,', 10000) || '>=' || n)) FROM generate_series(1, 1000) AS n)",
    f"(SELECT count(*) FROM releases WHERE version <@ '{GAPS}')", f"(SELECT count(*) FROM releases, pep440_specs('{GAPS}') AS specs WHERE version <@ specs)",
    f"(SELECT count(*) FROM generate_series(1, 100), pep440_cover('{GAPS}'))", f"(SELECT count(isempty(specs)) FROM pep440_specs('{GAPS}') AS specs, generate_series(1, 100))",
    f"(SELECT count(specs && ('>=' || n)::pep440_specs) FROM pep440_specs('{GAPS}') AS specs, generate_series(1, 100) AS n)",
    f"(SELECT union_agg(specs - ('==' || n)::pep440_specs) FROM pep440_specs('{GAPS}') AS specs, generate_series(1, 1000) AS n)", f"('{GAPS}'::pep440_set::text)::pep440_set",
    "('{' || repeat('[2, 3), [1, 1.5), ', 1000000) || '[1, 2)}')::pep440_set",
]


def test_long_sets(server):
    """A set has no limit: what an aggregate may make is read as it was printed, 5 MB in two seconds of processor."""
    db = server.connect()
    db.rows(f"CREATE TEMP TABLE long AS SELECT '{{' || string_agg('[1.' || n || ', 1.' || n || '.1)', ', ' ORDER BY n) || '}}' AS text FROM generate_series(1, 230000) AS n")
    begun = processor_time(db)
    db.rows("SELECT isempty(text::pep440_set) FROM long")
    taken, length = processor_time(db) - begun, int(db.value("SELECT length(text) FROM long WHERE (text::pep440_set)::text = text"))
    db.close()
    assert length > 5_000_000 and taken < 2, (length, taken)
    return f"{length} characters read in {taken:.2f} s of processor"


def test_interrupts(server):
    """A statement that reads a long text ends soon after its time is over: of the processor's, since on a loaded machine all waits."""
    db, longest = server.connect(), (0, "")
    db.rows("SET statement_timeout = '100ms'")
    for text in LONG:
        begun = processor_time(db)
        try:
            db.rows(f"SELECT length({text}::text)")
        except Refused as error:
            assert error.code in (CANCELED, "54000", "22P02"), error
        longest = max(longest, (processor_time(db) - begun, text[:60]))
    db.close()
    assert longest[0] < 0.2, longest
    return f"{len(LONG)} long texts, the longest {longest[0]:.2f} s of processor under a limit of 0.1 s"
