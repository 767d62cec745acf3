"""Holds the extension against the page, against itself without an index, and against refused memory: python3 test.py EXTENSION PREFIX [PROGRAM] [--small]

EXTENSION is the built pep440.so, and PREFIX that of the C library; PROGRAM, if given, is `pyver`, whose `filter --pre` must print what `pep440_match`
does. It wants a Python whose sqlite3 loads extensions. With --small there are fewer rows, and no time is compared. The last line is `N passed, M failed`.
"""
import os
import pathlib
import random
import re
import shutil
import sqlite3
import subprocess
import sys
import tempfile
import time

HERE = pathlib.Path(__file__).resolve().parent
SMALL = "--small" in sys.argv
ROWS = 5_000 if SMALL else 1_000_000
EXTENSION, PREFIX, PROGRAM = ([word for word in sys.argv[1:] if not word.startswith("--")] + [None])[:3]
PAGE = (HERE / "README.md").read_text(encoding="utf-8")
LISTS = ["", ">=1.0,<2.0,!=1.5.*", "==2.1.0+cu118", "<=2.1.0", "<1.0.post1,>=1.0", "~=1.4.2", "!=1.0", ">2.0,<1.0", "==1.*", ">1!0", ">1.2rc1,<=1.2.post2", "<1.3.post2,!=1.1,>1"]
# of these the intervals hold more than the list matches
EXACT = ["===1.10", "===1.4+cu7,>=1"]


def database(file=":memory:"):
    made = sqlite3.connect(file, isolation_level=None)
    made.enable_load_extension(True)
    made.load_extension(EXTENSION)
    return made


def rows(db, query, *values):
    return db.execute(query, values).fetchall()


def value(db, query, *values):
    return rows(db, query, *values)[0][0]


def refused(db, query, kind=sqlite3.OperationalError):
    """The message of the error that the query gives."""
    try:
        rows(db, query)
    except kind as error:
        return str(error)
    raise AssertionError(query)


def version(rng):
    """A version as indexes have them: mostly plain, some with suffixes, some local, a few with an epoch or written in another way."""
    text = ".".join(str(rng.randrange(limit)) for limit in (4, 12, 30)[: rng.choice((1, 2, 3, 3))])
    kind = rng.randrange(12)
    suffix = {0: f"rc{rng.randrange(3)}", 1: f".post{rng.randrange(3)}", 2: f".dev{rng.randrange(3)}", 3: f"+cu{rng.randrange(120)}", 4: f"a{rng.randrange(2)}.dev1"}
    text += suffix.get(kind, "")
    return f"1!{text}" if kind == 5 and rng.randrange(20) == 0 else f"V{text}" if kind == 6 else text


def filled(count, file=":memory:"):
    db = database(file)
    db.execute("CREATE TABLE releases (id INTEGER PRIMARY KEY, version TEXT NOT NULL, key BLOB GENERATED ALWAYS AS (pep440_key(version)) STORED)")
    rng = random.Random(20261123)
    db.execute("BEGIN")
    db.executemany("INSERT INTO releases (version) VALUES (?)", ((version(rng),) for _ in range(count)))
    db.execute("COMMIT")
    db.execute("CREATE INDEX by_key ON releases (key)")
    db.execute("CREATE INDEX by_expression ON releases (pep440_normalize(version))")
    return db


def test_functions():
    db = database()
    wanted = [
        ("pep440_normalize(' V1!1.0-Alpha.2-3.DEV+Ubuntu-01 ')", "1!1.0a2.post3.dev0+ubuntu.1"),
        ("pep440_normalize('latest')", None),
        ("pep440_normalize(NULL)", None),
        ("pep440_normalize(1.10)", None),
        ("pep440_normalize(X'312e30')", None),
        ("pep440_valid('1.0')", 1),
        ("pep440_valid('')", 0),
        ("pep440_valid(1)", 0),
        ("pep440_valid(NULL)", None),
        ("pep440_specs_valid('>=1.0, <2.0')", 1),
        ("pep440_specs_valid('')", 1),
        ("pep440_specs_valid('>=1.0, =<2.0')", 0),
        ("pep440_specs_valid(1)", 0),
        ("pep440_specs_valid(NULL)", None),
        # what begins as compiled bytes is a text like others
        ("pep440_specs_valid(char(5))", 0),
        ("pep440_specs_valid(char(6, 1, 2, 0, 0, 5))", 0),
        ("pep440_normalize(CAST(X'0400020100500010000001' AS TEXT))", None),
        ("pep440_is_prerelease('1.0.dev1')", 1),
        ("pep440_is_prerelease('1.0.post1')", 0),
        ("pep440_is_prerelease('x')", None),
        ("pep440_compare('1.0', '1.0.0')", 0),
        ("pep440_compare('1.0rc1', '1.0')", -1),
        ("pep440_compare('1.0.post1', '1.0')", 1),
        ("pep440_compare('1.0', 'x')", None),
        ("pep440_match('>=1.0', '2.0rc1')", 1),
        ("pep440_match('>=1.0', '0.9')", 0),
        ("pep440_match('>=1.0', 'x')", None),
        ("pep440_match('', '1.0')", 1),
        ("pep440_match('>1.0rc1', '1.0+cpu')", 1),
        ("pep440_match('>1.0rc1', '1.0.post1')", 1),
        ("pep440_match('>1.0', '1.0.post1')", 0),
        ("pep440_match('<1.0.post1', '1.0rc1')", 1),
        ("pep440_match('<1.0', '1.0rc1')", 0),
        ("pep440_match('===1.0', '1.0.0')", 0),
        ("pep440_key('1.0') = pep440_key('1.0.0')", 1),
        ("pep440_key('1.9') < pep440_key('1.10')", 1),
        ("typeof(pep440_key('1'))", "blob"),
        ("(SELECT count(*) FROM pep440_intervals('>2.0,<1.0'))", 0),
        ("(SELECT count(*) FROM pep440_intervals(NULL))", 0),
        ("(SELECT low = X'' AND high IS NULL FROM pep440_intervals(''))", 1),
        ("(SELECT low = pep440_key('1') AND high = pep440_key('2.dev0') FROM pep440_intervals('>=1,<2'))", 1),
        ("(SELECT low = pep440_key('1') AND high = pep440_key('1.post0.dev0') FROM pep440_intervals(' === 1,>=0'))", 1),
        ("(SELECT high = pep440_key('1!0.dev0') FROM pep440_intervals('==18446744073709551615.*'))", 1),
        ("(SELECT group_concat(bounds, ' ') FROM pep440_intervals('>1.0,!=1.5,<2'))", "(1.post*, 1.5) [1.5.post0.dev0, 2.dev0)"),
        ("(SELECT group_concat(bounds, ' ') FROM pep440_intervals('!=1.0+a'))", "(*, 1+a) (1+a, *)"),
        ("(SELECT group_concat(bounds, ' ') FROM pep440_intervals(pep440_difference('<=1', '<1')))", "[1.dev0, 1.post0.dev0)"),
        ("(SELECT group_concat(bounds, ' ') FROM pep440_intervals(pep440_complement('>1')))", "(*, 1.post*]"),
        ("(SELECT count(*) FROM pep440_intervals(pep440_intersection('>2', '<1')))", 0),
        ("(SELECT group_concat(bounds, ' ') FROM pep440_intervals(pep440_union('==1.*', '>=3')))", "[1.dev0, 2.dev0) [3, *)"),
        ("(SELECT group_concat(bounds, ' ') FROM pep440_intervals('>0.0,<1!0.0'))", "(0.post*, 1!0.dev0)"),
        ("pep440_set('>=1,<2') = pep440_set('<2,>=1.0')", 1),
        ("hex(pep440_set('>2,<1'))", "07"),
        ("pep440_set(NULL)", None),
        ("pep440_set(X'08')", None),
        ("pep440_union('>1', NULL)", None),
        ("pep440_is_subset('==1.*', '>=1.dev0')", 1),
        ("pep440_is_subset('==1.*', '>=1')", 0),
        ("pep440_match(pep440_union('<1', '>2'), '2.1')", 1),
        ("pep440_match(pep440_union('<1', '>2'), '1.5')", 0),
        ("pep440_match(pep440_set('<1'), 'x')", None),
        ("(SELECT pep440_intersect_agg(value) = pep440_set('>=1,<2') FROM json_each('[\">=1\", null, \"<2\"]'))", 1),
        ("(SELECT pep440_union_agg(value) = pep440_complement('==1.*') FROM json_each('[\">=2.dev0\", \"<1.dev0\"]'))", 1),
        ("(SELECT pep440_union_agg(value) FROM json_each('[]'))", None),
    ]
    for expression, answer in wanted:
        found = value(db, f"SELECT {expression}")
        assert found == answer, (expression, found, answer)
    # as many bytes as no buffer of the extension has
    long = ".".join(map(str, range(5000)))
    assert value(db, "SELECT pep440_normalize(?)", f" v{long} ") == long
    assert value(db, "SELECT pep440_compare(?, ?)", long, long + ".1") == -1
    return f"{len(wanted) + 2} rows"


def test_list_is_kept():
    """The list of a statement is compiled once; a list that differs by the row is another one in each."""
    db = database()
    db.execute("CREATE TABLE given (specs TEXT, version TEXT)")
    db.executemany("INSERT INTO given VALUES (?, ?)", [(">=1", "1.5"), ("<1", "1.5"), (None, "1.5"), (">=1", None), (">=1", "x"), (">=1", "0.5"), ("<1", "0.5"), (">=1", "2")])
    assert rows(db, "SELECT pep440_match(specs, version) FROM given") == [(1,), (0,), (None,), (None,), (None,), (0,), (1,), (1,)]
    assert rows(db, "SELECT pep440_match('>=1', version) FROM given") == [(1,), (1,), (1,), (None,), (None,), (0,), (0,), (1,)]
    for specs, answer in ((">=1", 4), ("<1", 2), ("", 6)):
        assert value(db, "SELECT sum(pep440_match(?, version)) FROM given", specs) == answer
    # without the list's text being read in each row a long list costs little
    long = ",".join(f"!=7.{each}.*" for each in range(2000))
    count = 20 if SMALL else 300
    db.execute(f"CREATE TABLE many AS WITH RECURSIVE n(i) AS (SELECT 1 UNION ALL SELECT i + 1 FROM n WHERE i < {count}) SELECT '6.' || i AS version, i FROM n")
    seconds = {}
    for specs in ("?1", "?1 || substr('', i)") * 3:
        begun = time.process_time()
        assert value(db, f"SELECT sum(pep440_match({specs}, version)) FROM many", long) == count
        spent = time.process_time() - begun
        seconds[specs] = min(seconds.get(specs, spent), spent)
    kept, read = seconds.values()
    assert SMALL or kept < 0.8 * read, seconds
    return f"12 rows; a list of 2,000 specifiers in {kept / read:.2f} of the time"


def test_errors():
    db = database()
    invalid = "'>=1.0, =<2.0'"
    calls = ["pep440_match({}, '1.0')", "pep440_set({})", "pep440_union('>1', {})", "pep440_union({}, '>1')", "pep440_difference('>1', {})", "pep440_difference({}, '>1')", "pep440_complement({})", "pep440_is_subset('>1', {})", "pep440_union_agg({})"]
    for query in (*(f"SELECT {call.format(invalid)}" for call in calls), f"SELECT * FROM pep440_intervals({invalid})"):
        message = refused(db, query)
        assert "=<2.0" in message and "^" in message, message
    for call in calls[1:]:
        message = refused(db, "SELECT " + call.format("'===1.0'"))
        assert message == "a list with === has no set", (call, message)
        rows(db, "SELECT 1")
        try:
            rows(db, f"SELECT {call.format('?')}", b"\7\1\5\0")
        except sqlite3.OperationalError as error:
            assert str(error) == "not a set", error
    assert refused(db, "CREATE VIRTUAL TABLE t USING pep440_intervals")
    return f"{2 * len(calls) + 1} errors"


def test_sets():
    """Random sets have the versions that they should, by functions and by one search of an index for each interval."""
    db, rng, count = database(), random.Random(916), 300 if SMALL else 10_000
    db.execute("CREATE TABLE near (version TEXT, key BLOB)")
    db.executemany("INSERT INTO near VALUES (?1, pep440_key(?1))", [(f"{release}{suffix}",) for release in ("0.0", "1", "1.5", "2") for suffix in ("", "rc1", ".post1", ".dev0", "+a", ".post1+a")])
    db.execute("CREATE INDEX by_near ON near (key, version)")
    join = "SELECT version FROM pep440_intervals(?1) JOIN near ON key >= low AND key < ifnull(high, x'ff') ORDER BY 1"
    assert "SEARCH near USING COVERING INDEX by_near (key>? AND key<?)" in plan_of(db, join, "")
    for _ in range(count):
        a, b = (",".join(f"{rng.choice(['>=', '<', '==', '!=', '<=', '>'])}{rng.choice(['0', '1.0', '1.5', '2', '1.0rc1', '1.5.post1'])}" for _ in range(rng.randrange(3))) for _ in range(2))
        for call, condition in (("union", "{} OR {}"), ("intersection", "{} AND {}"), ("difference", "{} AND NOT {}")):
            made = value(db, f"SELECT pep440_{call}(?, ?)", a, b)
            wanted = rows(db, f"SELECT version FROM near WHERE {condition.format('pep440_match(?1, version)', 'pep440_match(?2, version)')} ORDER BY 1", a, b)
            assert rows(db, join, made) == wanted == rows(db, "SELECT version FROM near WHERE pep440_match(?1, version) ORDER BY 1", made), (call, a, b)
        rest, inside, both = rows(db, "SELECT pep440_difference(?1, ?2), pep440_is_subset(?1, ?2), pep440_intersection(?1, ?2)", a, b)[0]
        assert (rest == b"\7") == bool(inside) and value(db, "SELECT pep440_union(?, ?)", rest, both) == value(db, "SELECT pep440_set(?)", a), (a, b)
    return f"{3 * count} sets"


JOINS = [
    "{0} AS k", "l JOIN {0} AS k ON k.{1} = l.s", "l JOIN {0} AS k ON k.{1} = l.s JOIN o ON o.s = k.{1}", "l LEFT JOIN {0} AS k ON k.{1} = l.s", "{0}(NULL) AS k",
    "o JOIN l JOIN {0} AS k ON k.{1} = l.s AND k.{1} = o.s", "o LEFT JOIN l ON l.s <> o.s LEFT JOIN {0} AS k ON k.{1} = l.s", "{0}('{2}') AS k JOIN o ON o.s = k.{1}",
    "l, {0}(l.s) AS k WHERE k.{1} = '{2}'", "l CROSS JOIN o JOIN {0}(o.s) AS k ON k.{1} = l.s", "o JOIN {0} AS k ON k.{1} = o.s AND k.{1} = '{2}'",
]
RIGHT_JOINS = ["l RIGHT JOIN {0} AS k ON k.{1} = l.s", "l JOIN {0} AS k ON k.{1} = l.s RIGHT JOIN o ON o.s = k.{1}", "{0} AS k RIGHT JOIN o ON k.{1} = o.s", "{0}('{2}') AS k FULL JOIN o ON k.{1} = o.s"]


def test_hidden_column():
    """Joins on the list of intervals find what joins on the text of `json_each` do, whose arrays have as many members as the lists intervals."""
    joins = JOINS + (RIGHT_JOINS if sqlite3.sqlite_version_info >= (3, 39) else [])
    found = []
    for name, column, texts in (("pep440_intervals", "specs", ["==1.*", ">=1,!=1.7.*", ">2,<1"]), ("json_each", "json", ["[1]", "[1,2]", "[]"])):
        db = database()
        db.executescript("CREATE TABLE l (s TEXT); CREATE TABLE o (s TEXT)")
        db.executemany("INSERT INTO l VALUES (?)", [(text,) for text in texts])
        db.executemany("INSERT INTO o VALUES (?)", [(text,) for text in texts[1:] + texts[1:]])
        places = {None: -1, **{text: place for place, text in enumerate(texts)}}
        found.append([sorted((places[text], count) for text, count in rows(db, f"SELECT k.{column}, count(*) FROM {join.format(name, column, texts[1])} GROUP BY 1")) for join in joins])
    for join, intervals, array in zip(joins, *found):
        assert intervals == array, (join, intervals, array)
    return f"{len(joins)} joins, {sum(map(bool, found[0]))} with rows"


def page(kind="sql"):
    """The blocks of this kind on the page."""
    return re.findall(rf"```{kind}\n(.*?)```", PAGE, re.S)


def test_commands():
    """The page's commands, but for the one that installs packages, build the extension and print what stands beside the last one."""
    (block,) = page("sh")
    environment = {name: it for name, it in os.environ.items() if name != "LD_PRELOAD"}
    with tempfile.TemporaryDirectory() as work:
        for name in ("Makefile", "pep440.c"):
            shutil.copy(HERE / name, work)
        commands = re.sub(r"^sudo .*$", "", block, flags=re.M).replace("/usr/local", PREFIX)
        ran = subprocess.run(["sh", "-e"], input=commands, cwd=work, env=environment, capture_output=True, text=True, check=True)
    assert ran.stdout.split()[-1] == re.findall(r"# (\S+)$", block, re.M)[-1] == "1.0a2", ran.stdout
    return "2 commands"


def test_page():
    """Each query of the page gives what stands under it."""
    db, count = database(), 0
    for block in page():
        for query in re.findall(r"(?:^[^-].*\n)+(?:^-- .*\n)*", block, re.M):
            wanted = re.findall(r"^-- (.*)$", query, re.M)
            if not wanted:
                db.executescript(query)
                continue
            found = ["|".join(map(str, row)) for row in rows(db, re.sub(r"^--.*$", "", query, flags=re.M))]
            assert found == wanted, (query, found)
            count += 1
    assert count == 3, count
    return "3 queries"


def test_python():
    """The page's lines of Python print what stands beside the last one."""
    (block,) = page("python")
    ran = subprocess.run([sys.executable, "-c", block.replace("./pep440", EXTENSION)], capture_output=True, text=True, check=True)
    assert ran.stdout.split() == re.findall(r"# (\S+)$", block, re.M) == ["1.0a2"], ran.stdout
    return "6 lines"


def plan_of(db, query, *values):
    return " / ".join(row[3] for row in rows(db, "EXPLAIN QUERY PLAN " + query, *values))


def test_index():
    """Of each list: by the index and the intervals, without an index, and by the program."""
    db = filled(ROWS)
    by_index = "SELECT version FROM pep440_intervals(?1) JOIN releases INDEXED BY by_key ON key >= low AND key < ifnull(high, x'ff') {} ORDER BY key, id"
    alone = "SELECT version FROM releases NOT INDEXED WHERE pep440_match(?1, version) ORDER BY pep440_key(version), id"
    plan = plan_of(db, by_index.format(""), "~=1.4.2")
    assert "SEARCH releases USING INDEX by_key (key>? AND key<?)" in plan, plan
    found = 0
    lines = "".join(text + "\n" for (text,) in rows(db, "SELECT version FROM releases ORDER BY id"))
    for specs in LISTS + EXACT:
        one, other = rows(db, by_index.format("WHERE pep440_match(?1, version)" if specs in EXACT else ""), specs), rows(db, alone, specs)
        assert one == other, specs
        found += len(one)
        if PROGRAM:
            ran = subprocess.run([PROGRAM, "filter", "--pre", specs], input=lines, capture_output=True, text=True, check=True)
            assert sorted(ran.stdout.split("\n")[:-1]) == sorted(text for (text,) in one), specs
    return f"{len(LISTS + EXACT)} lists over {ROWS} rows, {found} versions found, by an index as without" + (", and as `filter`" if PROGRAM else "")


def test_collation():
    """Texts in the order of their keys, and behind them what is no version; by an index as without; equal versions are one."""
    db, rng = database(), random.Random(65)
    others = ["", "latest", "2.x", "1.0 beta", "z", "~"]
    db.execute("CREATE TABLE given (text TEXT, id INTEGER PRIMARY KEY)")
    db.executemany("INSERT INTO given (text) VALUES (?)", [(version(rng),) for _ in range(ROWS // 20)] + [(text,) for text in others])
    wanted = rows(db, "SELECT text FROM given ORDER BY pep440_key(text) IS NULL, pep440_key(text), CASE WHEN pep440_valid(text) THEN '' ELSE text END, id")
    assert [text for (text,) in wanted[-len(others) :]] == sorted(others)
    query = "SELECT text FROM given ORDER BY text COLLATE pep440, id"
    assert rows(db, query) == wanted
    db.execute("CREATE INDEX by_text ON given (text COLLATE pep440, id)")
    assert "by_text" in plan_of(db, query) and rows(db, query) == wanted and value(db, "PRAGMA integrity_check") == "ok"
    between = "SELECT count(*) FROM given {} WHERE text COLLATE pep440 >= '1.2' AND text COLLATE pep440 < '2.0rc1'"
    assert "text>? AND text<?" in plan_of(db, between.format(""))
    assert value(db, between.format("")) == value(db, "SELECT count(*) FROM given WHERE pep440_key(text) >= pep440_key('1.2') AND pep440_key(text) < pep440_key('2.0rc1')") > 0
    db.execute("CREATE TABLE one (version TEXT COLLATE pep440 UNIQUE)")
    db.execute("INSERT INTO one VALUES ('1.0'), ('1.1'), ('x'), ('X')")
    for equal in ("1.0.0", "v1.1", "x"):
        refused(db, f"INSERT INTO one VALUES ('{equal}')", sqlite3.IntegrityError)
    return f"{len(wanted)} texts in order, by an index as without"


def test_without_extension():
    """What the page says of a reader without the extension, of its first table and of the one with plain columns; and once it is uninstalled."""
    with tempfile.TemporaryDirectory() as work:
        writer = database(f"{work}/all.db")
        *blocks, uninstall = [block for block in page() if "TABLE" in block]
        for block in blocks:
            writer.executescript(block)
        writer.execute("CREATE TABLE given (text TEXT COLLATE pep440)")
        reader = sqlite3.connect(f"{work}/all.db", isolation_level=None)
        changes = ["INSERT INTO {0} (name, version{1}) SELECT 'gamma', version{1} FROM plain LIMIT 2", "UPDATE {0} SET name = 'delta' WHERE name = 'beta'"]
        upkeep = ["PRAGMA integrity_check", "PRAGMA quick_check", "VACUUM", f"VACUUM INTO '{work}/{{0}}{{1}}.db'"]
        for query in changes + upkeep:
            assert "pep440" in refused(reader, query.format("releases", "")), query
        for query in ("SELECT * FROM given ORDER BY text", "SELECT * FROM given WHERE text = '1.0'", "CREATE INDEX by_text ON given (text)"):
            assert "no such collation" in refused(reader, query), query
        for table in ("releases", "plain"):
            in_order = rows(reader, f"SELECT version FROM {table} WHERE name = 'alpha' ORDER BY key")
            assert in_order == [("1.9",), ("1.9.post1",), ("1.10rc1",), ("1.10",)], in_order
            rows(reader, f"DELETE FROM {table} WHERE name = 'beta' AND version = '0.1'")
        refused(writer, "INSERT INTO plain VALUES ('alpha', 'latest', pep440_key('latest'))", sqlite3.IntegrityError)
        reader.executescript("DROP TABLE given;" + uninstall)
        for query in changes + upkeep:
            assert rows(reader, query.format("releases", ", key").replace("plain", "releases")) in ([], [("ok",)]), query
        assert not rows(reader, "SELECT sql FROM sqlite_schema WHERE sql LIKE '%pep440%'")
    return f"{len(changes + upkeep)} statements fail where keys are generated, none where it is uninstalled"


GAPS = ">=1" + "".join(f",!={number % 300}.{number}" for number in range(5_200))
# What takes the longest, of many rows and of long texts.
LONG = [
    f"SELECT count(*) FROM releases WHERE pep440_match('{GAPS}', version)", "SELECT count(*) FROM releases WHERE pep440_match('!=' || version, '1.5')", "SELECT pep440_union_agg('==' || version) FROM releases",
    f"SELECT count(version) FROM pep440_intervals('{GAPS}') JOIN releases ON key >= low AND key < ifnull(high, x'ff')", "SELECT count(*) FROM releases JOIN pep440_intervals('!=' || version)",
    "SELECT pep440_valid(replace(hex(zeroblob(1000000)), '00', '1.'))", "SELECT pep440_specs_valid(replace(hex(zeroblob(200000)), '00', '>=1,') || '>1')", f"SELECT length(pep440_set('{GAPS}'))",
]


def test_time_limit():
    """A statement that is to end after a time, of many rows or of long texts, ends soon after it: of the processor's, since on a loaded machine all waits."""
    db, limit, longest = filled(ROWS), [0.0], (0, "")
    db.set_progress_handler(lambda: time.process_time() > limit[0], 1000)
    for query in LONG:
        begun = time.process_time()
        limit[0] = begun + 0.1
        try:
            rows(db, query)
        except sqlite3.OperationalError as error:
            assert str(error) == "interrupted", error
        longest = max(longest, (time.process_time() - begun, query[:60]))
    assert longest[0] < 3, longest
    return f"{len(LONG)} statements over {ROWS} rows, the longest {longest[0]:.2f} s under a limit of 0.1 s"


def test_speed():
    """The newest ten, by the index and by sorting."""
    if SMALL:
        return "left out"
    db = filled(200_000)
    seconds = {}
    for name, query in (
        ("index", "SELECT version FROM releases ORDER BY key DESC LIMIT 10"),
        ("none", "SELECT version FROM releases NOT INDEXED ORDER BY pep440_key(version) DESC LIMIT 10"),
    ):
        rows(db, query)
        begun = time.process_time()
        for _ in range(200 if name == "index" else 1):
            found = rows(db, query)
        seconds[name] = (time.process_time() - begun) / (200 if name == "index" else 1), [pair for (pair,) in found]
    assert "by_key" in plan_of(db, "SELECT version FROM releases ORDER BY key DESC LIMIT 10")
    ratio = seconds["none"][0] / seconds["index"][0]
    assert ratio >= 1000, ratio
    return f"ORDER BY with LIMIT is {ratio:.0f} times faster by the index"


def test_wide_lists():
    """A list that matches nearly all is found by one search of the page's index for each interval, in no more time than a scan takes."""
    db, ratios = filled(ROWS // 5), []
    db.execute("CREATE INDEX by_version ON releases (key, version)")
    join = "SELECT count(version) FROM pep440_intervals(?1) JOIN releases ON key >= low AND key < ifnull(high, x'ff')"
    for specs in ("!=1.0", "", ">=0.1,!=1.5.*,!=2.0"):
        assert "SEARCH releases USING COVERING INDEX by_version (key>? AND key<?)" in plan_of(db, join, specs)
        seconds = []
        for query in (join, "SELECT count(version) FROM releases NOT INDEXED WHERE pep440_match(?1, version)") * 3:
            begun = time.process_time()
            found = value(db, query, specs)
            seconds.append((time.process_time() - begun, found))
        assert len({found for _, found in seconds}) == 1, (specs, seconds)
        ratios.append(min(seconds[::2])[0] / min(seconds[1::2])[0])
    assert SMALL or max(ratios) < 1, ratios
    return "" if SMALL else f"at most {max(ratios):.2f} of the time of a scan"


def turns_with_less_memory(file):
    """In a process of its own: each query with SQLite's heap limited more and more, which cannot be taken back. Prints how many were out of memory."""
    db = database(file)
    long = ".".join(map(str, range(3000)))
    queries = [
        ("SELECT group_concat(pep440_normalize(version)) FROM releases", ()),
        ("SELECT hex(pep440_key(?))", (long,)),
        ("SELECT count(*) FROM pep440_intervals(?1) JOIN releases ON key >= low AND key < ifnull(high, x'ff') WHERE pep440_match(?1, version)", (">=1,!=1.5,!=1.7.*",)),
        ("SELECT count(*) FROM pep440_intervals(?1) JOIN releases ON key >= low AND key < ifnull(high, x'ff')", ("===1.5",)),
        ("SELECT pep440_normalize(?)", (long,)),
        ("UPDATE releases SET version = version || '.post' || pep440_match(?1, version) || substr(?2, 1, 0)", (">=0", long)),
    ]
    wanted = [rows(db, query, *values) for query, values in queries[:-1]]
    out = 0
    for limit in range(4_000_000, 60_000, -4_000):
        try:
            rows(db, f"PRAGMA hard_heap_limit={limit}")
        except MemoryError:
            break
        for (query, values), answer in zip(queries, wanted):
            try:
                assert rows(db, query, *values) == answer, query
            except MemoryError:
                out += 1
    try:
        rows(db, *queries[-1])
    except MemoryError:
        print(out + 1)


def test_memory():
    """Each query gives what it gave, or says that memory is out; and no row changes."""
    with tempfile.TemporaryDirectory() as work:
        file = f"{work}/all.db"
        filled(300, file)
        kept = rows(database(file), "SELECT * FROM releases")
        ran = subprocess.run([sys.executable, __file__, EXTENSION, PREFIX, file, "--less-memory"], capture_output=True, text=True, check=False)
        assert ran.returncode == 0 and ran.stdout.strip().isdigit() and int(ran.stdout) > 20, (ran.returncode, ran.stdout, ran.stderr[-300:])
        assert rows(database(file), "SELECT * FROM releases") == kept
        assert value(database(file), "PRAGMA integrity_check") == "ok"
    return f"{ran.stdout.strip()} queries out of memory, the others as before, no row changed"


def main():
    if "--less-memory" in sys.argv:
        turns_with_less_memory(PROGRAM)
        return
    failed = passed = 0
    for name, test in [(name, test) for name, test in globals().items() if name.startswith("test_")]:
        try:
            print(f"sqlite: {name.removeprefix('test_')}: {test()}", flush=True)
            passed += 1
        except Exception as error:  # pylint: disable=broad-except
            print(f"sqlite: {name.removeprefix('test_')}: FAILED: {type(error).__name__}: {error}", flush=True)
            failed += 1
    print(f"{passed} passed, {failed} failed")
    sys.exit(bool(failed))


main()
