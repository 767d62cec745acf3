"""Tests of plans and estimates: joins of an index of packages, indexes on lists, partitions, texts, and row security; test.py runs them."""
import json
import random
import re
import unittest

from server import NO_INDEX, NO_TABLE, SMALL, both_ways, plan_of, version
from test_values import database, peer_of_26, refused, specifiers

PACKAGES = 300 if SMALL else 1000
EXCLUSION_VIOLATION, INVALID_TEXT, TOO_LONG = "23P01", "22P02", "54000"
# What is joined of the index, and how: the estimates of each are to be within a factor of ten.
JOINS = [
    "requires s JOIN releases r ON r.name = s.dep AND s.specs @> r.version", "requires s JOIN releases r ON r.version <@ s.specs AND r.name = s.dep",
    "requires s JOIN releases r ON r.name = s.dep AND pep440_specs_contains(s.specs, r.version)", "requires s JOIN releases r ON r.name = s.dep AND s.specs @> r.version WHERE s.dep = 'p7'",
    "requires s JOIN requires t USING (dep) JOIN releases r ON r.name = dep AND s.specs @> r.version AND t.specs @> r.version WHERE dep < 'p101'",
    "(SELECT * FROM requires LIMIT 300) s JOIN (SELECT * FROM requires OFFSET 300 LIMIT 300) t ON s.specs && t.specs", "(SELECT * FROM requires LIMIT 100) s JOIN releases r ON s.specs @> r.version",
    "domains s JOIN domains r ON s.name = r.name AND s.specs @> r.version WHERE s.name < 'p2'", "releases r WHERE EXISTS (SELECT FROM requires s WHERE s.dep = r.name AND s.specs @> r.version)",
    "requires WHERE specs @> '1.5'", "requires WHERE specs @> '0.0.1'", "requires WHERE '0.9' <@ specs", "requires WHERE specs && '>=1.5,<2'", "releases WHERE version <@ '>=1,<2'",
    "releases WHERE version <@ '>=1,!=1.5.*,<2'", "releases WHERE version <@ '==1.2.1'", "releases WHERE pep440_version_contained_by(version, '==1.2.1')", "domains WHERE version <@ '==1.2.1'",
    "domains WHERE specs @> '1.2.1'", "allowed s JOIN releases r ON r.name = s.dep AND r.version <@ s.shared", "allowed WHERE shared @> '1.5'::pep440", "allowed WHERE shared && '>=1.5,<2'",
    "releases WHERE version <@ '{[1, 2.dev0)}'::pep440_set", "parts WHERE '{[1.4, 2.dev0)}'::pep440_set @> version", "domains WHERE version <@ '==1.2.1'::pep440_set", "parts WHERE version <@ '~=1.4'", "parts WHERE version <@ '>=1.4,!=1.5,<1.9'",
]
ROWS_OF_JOIN = re.compile(r"Join|Nested Loop")


def releases_of(rng):
    """The versions of a package: few have many."""
    majors, first, count = rng.choice([1, 1, 2, 3, 5]), rng.choice([0, 0, 0, 1, 2]), min(400, int(rng.paretovariate(0.9) * 4))
    for each in range(count):
        yield f"{first + each * majors // count}.{each * majors % count // 4}.{each % 4}" + rng.choice([""] * 10 + ["rc1", ".post1", ".dev1"])


def requirement(rng, versions):
    """What another package asks of one with these versions."""
    one = re.match(r"[\d.]*\d", rng.choice(versions))[0].removesuffix(".")
    kinds = [("", 30), (f">={one}", 40), (f">={one},<{int(one.split('.')[0]) + 1}", 15), (f"=={one}", 7), (f"~={one}", 4), (f">={one},!={rng.choice(versions)}", 4)]
    return rng.choices([kind for kind, _ in kinds], [weight for _, weight in kinds])[0]


def index_of_packages(server):
    """A database with releases and requirements of packages, as an index has them; their order is that of no column."""
    db, rng, releases, requirements = database(server, "packages"), random.Random(912), [], []
    for number in range(PACKAGES):
        versions = list(releases_of(rng))
        releases += [f"p{number}\t{it}\n" for it in versions]
        requirements += [f"p{number}\t{requirement(rng, versions)}\n" for _ in range(min(3000, int(rng.paretovariate(0.7) * 3)))]
    db.rows("CREATE TABLE releases (name text, version pep440); CREATE TABLE requires (dep text, specs pep440_specs)")
    for table, lines in (("releases", releases), ("requires", requirements)):
        rng.shuffle(lines)
        file = server.folder / table
        file.write_text("".join(lines))
        db.rows(f"COPY {table} FROM '{file}'")
    db.rows("CREATE INDEX ON releases (name, version); CREATE INDEX by_version ON releases (version); CREATE DOMAIN numbered AS pep440; CREATE DOMAIN listed AS pep440_specs")
    db.rows("CREATE TABLE domains AS SELECT name, version::numbered, specs::listed FROM releases JOIN (SELECT dep, (array_agg(specs))[1] AS specs FROM requires GROUP BY 1) AS r ON dep = name")
    db.rows("CREATE TABLE parts (name text, version pep440) PARTITION BY RANGE (version); CREATE TABLE parts_0 PARTITION OF parts FOR VALUES FROM (MINVALUE) TO ('1'); "
            "CREATE TABLE parts_1 PARTITION OF parts FOR VALUES FROM ('1') TO ('2'); CREATE TABLE parts_2 PARTITION OF parts FOR VALUES FROM ('2') TO (MAXVALUE); INSERT INTO parts SELECT * FROM releases")
    db.rows("CREATE TABLE allowed AS SELECT dep, intersect_agg(specs) AS shared, union_agg(specs) AS either FROM requires GROUP BY dep")
    db.rows("VACUUM ANALYZE")
    return db


def counted(plan):
    """The rows that the planner expects of the node under the aggregate, and how many there were."""
    below = plan["Plans"][-1]
    if "Aggregate" in below["Node Type"] or "Gather" in below["Node Type"]:
        return counted(plan if "Plans" not in below else below)
    return below["Plan Rows"], below["Actual Rows"] * below["Actual Loops"]


def test_packages(server):
    """Estimates of joins and of conditions are within a factor of ten of what there is."""
    db, worst = index_of_packages(server), (1, "")
    db.rows("SET max_parallel_workers_per_gather = 0")
    for joined in JOINS:
        ((plan,),) = db.rows(f"EXPLAIN (ANALYZE, TIMING OFF, FORMAT JSON) SELECT count(*) FROM {joined}")
        expected, found = counted(json.loads(plan)[0]["Plan"])
        factor = max(expected, found) / max(1, min(expected, found))
        assert factor <= 10, (joined, expected, found)
        worst = max(worst, (factor, joined))
    db.close()
    return f"{len(JOINS)} estimates, the worst by a factor of {worst[0]:.1f}: {worst[1]}"


def test_list_index(server):
    """An index on lists finds which ones contain a version, or have one in common with another list, as a scan does; and an exclusion constraint has it."""
    db, rng = server.connect("packages"), random.Random(913)
    db.rows("CREATE INDEX by_list ON requires USING gist (specs)")
    lists = ["", ">2,<1", "===1.0", "!=1.0", "==1.0+" + "a" * 300, f"<1.{'1.' * 100}1", ">=1!0"] + [f"{specifiers(rng)}" for _ in range(30)]
    db.rows("INSERT INTO requires VALUES " + ",".join(f"('p0', '{it}')" for it in lists) + ", ('p0', NULL); ANALYZE requires")
    conditions = [f"specs @> '{version(rng)}'" for _ in range(10)] + [f"specs && '{it}'" for it in lists[:15]] + ["specs @> '1!1.0'", "'1.0+" + "a" * 300 + "'::pep440 <@ specs"]
    for condition in conditions:
        both_ways(db, f"SELECT dep, specs FROM requires WHERE {condition}", "by_list")
    db.rows("SET enable_hashjoin = off; SET enable_mergejoin = off")
    query = "SELECT r.version, count(*) FROM releases r JOIN requires s ON r.version <@ s.specs WHERE r.name = 'p1' AND s.dep < 'p2' GROUP BY 1 ORDER BY 1"
    plan = plan_of(db, query)
    assert re.search(r"by_list[\s\S]*Index Cond: \(specs @> r.version\)", plan), plan
    by_index = db.rows(query)
    assert by_index and by_index == db.rows("RESET ALL;" + NO_INDEX + query)
    db.rows("RESET ALL; CREATE EXTENSION btree_gist; CREATE TABLE exclusive (name text, specs pep440_specs, EXCLUDE USING gist (name WITH =, specs WITH &&)); INSERT INTO exclusive VALUES ('a', '<1'), ('a', '>=1,!=1.5'), ('b', '<2')")
    refused(db, "INSERT INTO exclusive VALUES ('a', '==1.0')", EXCLUSION_VIOLATION)
    db.rows("INSERT INTO exclusive VALUES ('a', '==1.5'), ('a', '>2,<1')")
    db.close()
    return f"{len(conditions)} conditions by the index as without, a join, and a constraint"


def test_set_index(server):
    """Sets find versions by an index on these, and are found by one on sets, as by a scan; what all lists of a package allow is one query."""
    db, rng = server.connect("packages"), random.Random(915)
    db.rows("CREATE INDEX by_dep ON requires (dep)")
    wrong = db.value("""SELECT count(*) FROM allowed s JOIN releases r ON r.name = s.dep JOIN LATERAL (SELECT bool_and(t.specs @> r.version) AS all_of, bool_or(t.specs @> r.version) AS one_of
        FROM requires t WHERE t.dep = s.dep) AS t ON true WHERE s.dep BETWEEN 'p1' AND 'p3' AND (s.shared @> r.version <> all_of OR s.either @> r.version <> one_of)""")
    assert wrong == "0", wrong
    db.rows("DROP INDEX by_dep; SET enable_seqscan = off; SET enable_bitmapscan = off")
    query = "SELECT max(version) FROM releases WHERE name = 'p7' AND version <@ (SELECT intersect_agg(specs) FROM requires WHERE dep = 'p7')"
    plan = plan_of(db, query)
    assert re.search(r"Index Cond: [^\n]*version >= pep440_cover_start", plan), plan
    found = [db.rows(query), db.rows("RESET ALL;" + NO_INDEX + query)]
    assert found[0] == found[1], found
    db.rows("CREATE TABLE unlike AS SELECT DISTINCT a.specs + b.specs - c.specs AS versions FROM (SELECT specs FROM requires LIMIT 30) a, (SELECT specs FROM requires OFFSET 50 LIMIT 30) b, "
            "(SELECT specs FROM requires OFFSET 90 LIMIT 30) c; INSERT INTO unlike VALUES (NULL), ('{}'), ('{(*, *)}'), ('{(1.post*, 2+a]}'); CREATE INDEX by_set ON unlike USING gist (versions); ANALYZE unlike")
    conditions = [f"versions @> '{version(rng)}'::pep440" for _ in range(10)] + [f"versions && '{specifiers(rng).replace('===', '==')}'" for _ in range(15)] + ["'1.5'::pep440 <@ versions"]
    for condition in conditions:
        both_ways(db, f"SELECT versions FROM unlike WHERE {condition}", "by_set")
    assert set(re.findall(r"Scan on (parts_\d)\b", plan_of(db, "SELECT * FROM parts WHERE version <@ '{[1.4, 1.5), [1.6, 1.9)}'::pep440_set"))) == {"parts_1"}
    db.rows("RESET ALL; CREATE TABLE rules (name text, versions pep440_set, EXCLUDE USING gist (name WITH =, versions WITH &&)); INSERT INTO rules VALUES ('a', '<1'), ('a', '{[1, 2)}')")
    refused(db, "INSERT INTO rules VALUES ('a', '{[1.5, *)}')", EXCLUSION_VIOLATION)
    count = db.value("SELECT count(*) FROM unlike")
    db.close()
    return f"{len(conditions)} conditions over {count} sets by the index as without"


MATCHES = "SELECT a.number, string_agg(o.number::text, ' ' ORDER BY o.number) FROM asked a JOIN offered o ON o.version <@ a.specs GROUP BY 1 ORDER BY 1"
# What makes each plan, and what the plan has.
PLANS = [
    (NO_INDEX, r"Join Filter: \(o\.version <@ a\.specs\)"), ("CREATE INDEX by_offered ON offered (version);" + NO_TABLE, r"by_offered[\s\S]*Index Cond: \(+version >= pep440_cover_start\(a\.specs"),
    ("DROP INDEX by_offered; CREATE INDEX by_asked ON asked USING gist (specs);" + NO_TABLE, r"by_asked[\s\S]*Index Cond: \(specs @> o\.version\)"),
]


def wide_specifier(rng):
    """A specifier of any version; only two operators take one with a local part."""
    operator, text = rng.choice([">=", "<", "!=", "<=", ">", "=="]), version(rng)
    return operator + (text if operator in ("==", "!=") else text.partition("+")[0])


def test_matches(server):
    """Each of many lists beside each of many versions: by a scan, by an index on the versions, by one on the lists, and by `packaging`."""
    db, rng = database(server, "matched"), random.Random(917)
    lists, versions = 200 if SMALL else 2000, 100 if SMALL else 1000
    asked = [*dict.fromkeys(",".join(filter(None, (specifiers(rng), wide_specifier(rng)))) for _ in range(2 * lists))][:lists]
    offered = [version(rng) for _ in range(versions)]
    for table, column, values in (("asked", "specs pep440_specs", asked), ("offered", "version pep440", offered)):
        db.rows(f"CREATE TABLE {table} (number int, {column}); INSERT INTO {table} VALUES " + ",".join(f"({number}, '{it}')" for number, it in enumerate(values)) + f"; ANALYZE {table}")
    found = []
    for setting, wanted in PLANS:
        db.rows("RESET ALL; SET enable_material = off; SET enable_bitmapscan = off;" + setting)
        plan = plan_of(db, MATCHES)
        assert re.search(wanted, plan), plan
        found.append(db.rows(MATCHES))
    db.close()
    assert len(asked) == lists and found[0] == found[1] == found[2]
    return f"{lists * versions} pairs in 3 plans, {sum(len(those.split()) for _, those in found[0])} match{compare_matches(asked, offered, found[0])}"


def compare_matches(asked, offered, found):
    """Whether the same lists match the same versions in `packaging`."""
    try:
        versions, specifiers_of, name = peer_of_26()
    except unittest.SkipTest:
        return ""
    found, parsed = {int(number): those for number, those in found}, [versions.Version(it) for it in offered]
    for number, specs in enumerate(asked):
        those = specifiers_of.SpecifierSet(specs, prereleases=True)
        assert found.get(number, "") == " ".join(str(place) for place, it in enumerate(parsed) if those.contains(it)), specs
    return f", as in {name}"


def test_partitions(server):
    """Of range partitions those are read that may have a version of the list."""
    db = server.connect("packages")
    for condition, tables in (("version <@ '~=1.4'", {"parts_1"}), ("'<1.0rc1' @> version", {"parts_0"}), ("version <@ '>=1.4,!=1.5,<1.9'", {"parts_1"}), ("pep440_specs_contains('===0.1', version)", {"parts_0"}),
                              ("version <@ '>=1.5'", {"parts_1", "parts_2"}), ("version <@ ''", {"parts_0", "parts_1", "parts_2"}), ("version <@ '>2,<1'", set()), ("NOT version <@ '<2.dev0'", {"parts_1", "parts_2"})):
        plan = plan_of(db, f"SELECT count(*) FROM parts WHERE {condition}")
        assert set(re.findall(r"(?:Scan|Index Scan|Bitmap Heap Scan) on (parts_\d)\b", plan)) == tables, (condition, plan)
        assert db.rows(f"SELECT count(*) FROM parts WHERE {condition}") == db.rows(f"SELECT count(*) FROM releases AS parts WHERE {condition}"), condition
    db.close()
    return "8 conditions"


def test_texts(server):
    """A text beside a list is a version, for indexes and estimates too."""
    db = server.connect("packages")
    assert db.rows("SELECT '1.5'::text <@ '>=1', ('{\"a\": \"0.9\"}'::jsonb ->> 'a') <@ '>=1', 'v1.0'::varchar <@ '==1', NULL::text <@ '>=1', '1.5' <@ '<1'::pep440_specs") == [("t", "f", "t", None, "f")]
    refused(db, "SELECT 'latest'::text <@ '>=1'", INVALID_TEXT)
    db.rows("CREATE TABLE written AS SELECT version::text AS version FROM releases; CREATE INDEX by_text ON written ((pep440(version))); ANALYZE written;" + NO_TABLE)
    plan = plan_of(db, "SELECT * FROM written WHERE version <@ '==1.2.1'")
    assert "by_text" in plan and "Index Cond" in plan, plan
    assert db.rows("SELECT count(*) FROM written WHERE version <@ '~=1.2'") == db.rows("SELECT count(*) FROM releases WHERE version <@ '~=1.2'") != [("0",)]
    assert "Filter: ('1.5'::pep440 <@ r.specs)" in plan_of(db, "SELECT * FROM (SELECT * FROM requires OFFSET 0) AS r WHERE '1.5' <@ specs")
    db.close()
    return "5 texts, and an index on an expression"


def test_row_security(server):
    """Who may see some rows alone finds them by the index, since no comparison leaks what is in the others."""
    db = server.connect("packages")
    db.rows("CREATE ROLE reader LOGIN; CREATE FUNCTION is_open(text) RETURNS boolean LANGUAGE plpgsql STABLE COST 1000 AS 'BEGIN RETURN $1 < ''p2''; END'; ALTER TABLE releases ENABLE ROW LEVEL SECURITY; "
            "CREATE POLICY open ON releases USING (is_open(name)); GRANT SELECT ON releases, requires TO reader; SET ROLE reader;" + NO_TABLE)
    for condition in ("version = '1.2.1'", "version > '1.2' AND version < '1.2.2'", "version <@ '==1.2.1'", "'==1.2.1' @> version"):
        plan = plan_of(db, f"SELECT version FROM releases WHERE {condition}")
        assert re.search(r"by_version[\s\S]*Index Cond", plan), (condition, plan)
    db.rows("RESET ROLE; ALTER TABLE releases DISABLE ROW LEVEL SECURITY")
    db.close()
    return "4 conditions by the index"


def test_limits(server):
    """Lists of so many bytes as their type takes are values in all ways; of more they are an error, as are two together."""
    db = server.connect("packages")
    gaps = "string_agg('!=' || n % 7 || '.' || n || '.1', ',')::pep440_specs FROM generate_series(1, {}) AS n"
    assert db.rows("SELECT isempty(s), s && '>=1', s @> '1.5', pep440_version_in(s), s::text::pep440_specs = s FROM (SELECT " + gaps.format(5000) + ") AS one (s)") == [("f", "t", "t", "0.dev0", "t")]
    for query in ("SELECT " + gaps.format(110_000), "SELECT s && s FROM (SELECT " + gaps.format(60_000) + ") AS one (s)", "SELECT s * s FROM (SELECT " + gaps.format(60_000) + ") AS one (s)"):
        refused(db, query, TOO_LONG)
    most, fit = (",".join([">=1a"] * count) for count in (160_000, 140_000))  # `>=1a0, `: the normal forms have 1,120,000 and 980,000 bytes
    refused(db, f"SELECT '{most}'::pep440_specs", TOO_LONG)
    assert db.rows(f"SELECT pep440_specs_valid('{most}'), pep440_specs_valid('{fit}')") == [("f", "t")]
    db.close()
    return "5,000 gaps in a list"
