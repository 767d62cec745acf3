"""Tests of users who mean harm, and of bytes that are no value; test.py runs them."""
import itertools
import random
import re

from server import HERE, STRINGS, Connection, Refused
from test_values import database

CORRUPTED = "XX001"
SCRIPTS = "".join(re.sub(r"^(--|\\).*$", "", file.read_text(encoding="utf-8"), flags=re.M) for file in sorted(HERE.glob("pep440--*.sql")))
# Statements that have no expression, and find what they name by its types.
FUNCTION = r"CREATE FUNCTION \w+\((?:(?!DEFAULT)[\w, ])*\) RETURNS [\w\[\] ]+ AS 'MODULE_PATHNAME', '\w+' LANGUAGE C [\w ]+"
STATEMENT = rf"{FUNCTION}|(CREATE (TYPE|DOMAIN|CAST|OPERATOR|OPERATOR CLASS|AGGREGATE) |ALTER OPERATOR |COMMENT ON TYPE )[^$]*|ALTER FUNCTION \w+\([\w, ]+\) LEAKPROOF"
CATALOG_TYPES, OWN_TYPES = ["text", "name", "regtype", "regclass"], ["pep440", "pep440_specs"]
TYPES = CATALOG_TYPES + ["oid", "bytea", "integer"]
TRAP = "LANGUAGE plpgsql AS $$BEGIN RAISE INFO 'sprung: {}, as %', current_user; RETURN NULL; END$$"
MEMBERS = "(SELECT classid, objid FROM pg_depend WHERE deptype = 'e')"
# The functions and operators of extensions, with the types of their arguments.
CREATED = f"""SELECT proname, oidvectortypes(proargtypes) FROM pg_proc WHERE ('pg_proc'::regclass, oid) IN {MEMBERS} UNION ALL
    SELECT oprname, format_type(oprleft, NULL) || ', ' || format_type(oprright, NULL) FROM pg_operator WHERE ('pg_operator'::regclass, oid) IN {MEMBERS}"""
# What an object of an extension needs that is part of neither an extension nor the server.
FOREIGN = f"""SET search_path = pg_catalog; SELECT pg_describe_object(classid, objid, 0), pg_describe_object(refclassid, refobjid, 0) FROM pg_depend
    WHERE (classid, objid) IN {MEMBERS} AND deptype <> 'e' AND refclassid <> 'pg_namespace'::regclass AND (refclassid, refobjid) NOT IN {MEMBERS}"""


def test_scripts(unused):
    """No statement of a script has an expression or a body, or resolves a call."""
    statements = [statement.strip() for statement in SCRIPTS.split(";") if statement.strip()]
    for statement in statements:
        assert re.fullmatch(STATEMENT, statement), statement
    return f"{len(statements)} statements create objects, none runs one"


def function_traps(schema, types, wanted, variadic):
    """Of each name that a script calls, functions of many signatures; of those that take any arguments, as format, longer ones."""
    for name in sorted({name for pair in re.findall(r"(\w+)\s*\(|(?:=|SUPPORT) ([a-z]\w+)", SCRIPTS) for name in pair if name}):
        for count in range(1, 5 if name in variadic else 3):
            for signature in itertools.product(types if count < 3 else CATALOG_TYPES, repeat=count):
                if wanted & set(signature):
                    yield name, signature, f'CREATE FUNCTION {schema}."{name}"({", ".join(signature)}) RETURNS text {TRAP.format(name)}'


def operator_traps(schema, types, wanted):
    """Of each operator that a script names, operators of all pairs of types."""
    symbols = sorted(set(re.findall(r"[<>=@&|*~!%]+", SCRIPTS)))
    for left, right in itertools.product(types, repeat=2):
        if wanted & {left, right}:
            yield None, None, f"CREATE FUNCTION {schema}.trap({left}, {right}) RETURNS boolean {TRAP.format('operator')}"
            for symbol in symbols:
                yield symbol, (left, right), f"CREATE OPERATOR {schema}.{symbol} (LEFTARG = {left}, RIGHTARG = {right}, FUNCTION = {schema}.trap)"


def type_traps(schema, kinds):
    """Of each type of the server's that a script names, a type with an implicit cast; of each relation, a view."""
    words = set(re.findall(r"[a-z_]\w*", SCRIPTS))
    for name, is_relation in kinds:
        made, function = f'{schema}."{name}"', f"{schema}.trap_{name}(text)"
        if name in words and is_relation == "t":
            yield None, None, f"CREATE VIEW {made} AS SELECT {schema}.trap(''::text, ''::text)"
        elif name in words:
            yield None, None, f"CREATE TYPE {made} AS ENUM ('a'); CREATE FUNCTION {function} RETURNS {made} {TRAP.format(name)}; CREATE CAST (text AS {made}) WITH FUNCTION {function} AS IMPLICIT"


def plant(owner, schema, traps, created):
    """Makes the traps, but for those that would only keep the extension from being installed."""
    commands = [command for name, signature, command in traps if (name, signature) not in created]
    owner.rows(f"SET check_function_bodies = off; SET search_path = pg_catalog, {schema}, pg_temp;" + ";".join(commands) + "; RESET ALL")
    return len(commands)


def test_traps(server):
    """Whoever installs or updates the extension, in a schema whose owner has planted traps of all names in it and in `public`, and of types in `pg_temp`: none is sprung."""
    db = server.connect()
    created = {(name, tuple(types.split(", "))) for name, types in db.rows(CREATED)}
    variadic = {name for (name,) in db.rows("SELECT proname FROM pg_proc WHERE provariadic = '\"any\"'::regtype")}
    kinds = db.rows("SELECT typname, typrelid <> 0 FROM pg_type WHERE typnamespace = 'pg_catalog'::regnamespace")
    db.rows("CREATE ROLE hostile LOGIN")
    db.rows("CREATE DATABASE planted OWNER hostile")
    db.close()
    owner, superuser = Connection(server.where("planted").replace("user=tester", "user=hostile")), server.connect("planted")
    owner.rows("CREATE SCHEMA own")
    superuser.rows("GRANT CREATE ON SCHEMA public TO hostile")
    count = 0
    for schema in ("own", "public"):
        count += plant(owner, schema, itertools.chain(function_traps(schema, TYPES, set(TYPES), variadic), operator_traps(schema, TYPES, set(TYPES)), type_traps(schema, kinds)), created)
    owner.rows("SELECT own.pep440_key(''::text)")
    assert "sprung: pep440_key, as hostile" in owner.notices.pop()
    count += plant(owner, "pg_temp", itertools.chain(operator_traps("pg_temp", TYPES, set(TYPES)), type_traps("pg_temp", kinds)), created)
    for installer, schema in itertools.product((owner, superuser), ("own", "public")):
        for command in (f"CREATE EXTENSION pep440 SCHEMA {schema}", "DROP EXTENSION pep440", f"CREATE EXTENSION pep440 SCHEMA {schema} VERSION '0.2'"):
            installer.rows(command)
        owner.rows(f"CREATE TABLE {schema}.held (version {schema}.pep440, specs {schema}.pep440_specs)")
        types, wanted = TYPES + OWN_TYPES, set(OWN_TYPES)
        count += plant(owner, schema, itertools.chain(function_traps(schema, types, wanted, variadic), operator_traps(schema, types, wanted)), created)
        installer.rows("ALTER EXTENSION pep440 UPDATE")
        sprung = [notice for notice in installer.notices if "sprung" in notice]
        assert not sprung, (installer is superuser, schema, sprung[0])
        foreign = superuser.rows(FOREIGN)
        assert not foreign, foreign
        superuser.rows("RESET ALL")
        installer.rows("DROP EXTENSION pep440 CASCADE")
        owner.rows(f"DROP TABLE {schema}.held")
    owner.close()
    superuser.close()
    return f"{count} traps, none sprung by its owner's or a superuser's install or update"


def estimate_of(db, condition, table="held"):
    return int(re.search(r"rows=(\d+)", db.value(f"EXPLAIN SELECT * FROM {table} WHERE {condition}"))[1])


def test_estimators(server):
    """The planner's functions of operators of a user's own, whatever types these have: the default where a constant is no list."""
    db = database(server, "estimated")
    db.rows("CREATE TABLE held (version pep440); INSERT INTO held SELECT ('1.' || n)::pep440 FROM generate_series(1, 1000) AS n; ANALYZE held; CREATE DOMAIN named AS pep440_specs")
    constants = {"bigint": "1234567890123", "integer": "5", "float8": "1.5", "boolean": "t", "text": "x", "name": "x", "bytea": "x", "pep440": "1.5", "integer[]": "{1}", "oid": "7", "named": "==1.7"}
    for left, right in {pair for kind in constants for pair in ((kind, "pep440"), ("pep440", kind))}:
        db.rows(f"CREATE FUNCTION never({left}, {right}) RETURNS boolean LANGUAGE plpgsql IMMUTABLE AS 'BEGIN RETURN false; END'")
        for symbol, estimator in (("###", "pep440_specs_contains_selectivity"), ("@@@", "pep440_version_contained_by_selectivity")):
            db.rows(f"CREATE OPERATOR {symbol} (LEFTARG = {left}, RIGHTARG = {right}, FUNCTION = never, RESTRICT = {estimator})")
    for kind, constant in constants.items():
        typed = f"'{constant}'::{kind}"
        found = [estimate_of(db, condition) for condition in (f"{typed} ### version", f"version @@@ {typed}")]
        for condition in (f"{typed} @@@ version", f"version ### {typed}"):
            estimate_of(db, condition)
        wanted = estimate_of(db, f"version <@ '{constant}'") if kind == "named" else 5
        assert found == [wanted, wanted], (kind, found, wanted)
    db.rows("CREATE DOMAIN numbered AS pep440; CREATE TABLE numbers AS SELECT version::numbered, version::text AS written FROM held; ANALYZE numbers")
    for specs in ("==1.7", "<1.100"):
        assert estimate_of(db, f"version <@ '{specs}'", "numbers") == estimate_of(db, f"version <@ '{specs}'") < 200, specs
    db.rows("CREATE OPERATOR %%% (LEFTARG = text, RIGHTARG = text, FUNCTION = text_lt, RESTRICT = pep440_specs_contains_selectivity)")
    assert estimate_of(db, "written %%% '1.1'", "numbers") < 10
    db.close()
    assert server.is_sound()
    return f"constants of {len(constants)} types, and columns of a domain and of strings"


def damaged(rng):
    """Bytes as a damaged page may have them: mostly those that begin as most versions do."""
    first = rng.choice([0x80 | rng.randrange(8), 0x80 | rng.randrange(32), rng.randrange(0x80, 0x100), rng.randrange(256)])
    rest = [rng.choice([0, 1, 2, 2, 3, rng.randrange(10), rng.randrange(256)]) for _ in range(rng.choice([0, 1, 2, 3, 4, 6, 9, 20]))]
    return bytes([first] + rest)


def test_damaged(server):
    """Of stored bytes that are no value each function makes an error; what is printed is a version with their key."""
    db, rng, printed = database(server, "damaged"), random.Random(80), 0
    db.rows("CREATE CAST (bytea AS pep440) WITHOUT FUNCTION")
    for stored in [b"\x81\xff\xff", b"\x80", b"\x82\x01\x00", b"\x80\x08"] + [damaged(rng) for _ in range(STRINGS)]:
        given = f"'\\x{stored.hex()}'::bytea::pep440"
        for value in (given, f"pep440_hash({given}), {given} < '1.0', {given} <@ '>=1', pep440_local({given})", f"pep440_is_prerelease({given})"):
            try:
                db.rows(f"SELECT {value}")
            except Refused as error:
                assert error.code == CORRUPTED, (stored, error)
                continue
            if value == given:
                text = db.value(f"SELECT {given}")
                assert db.rows(f"SELECT '{text}'::pep440::text, pep440_key('{text}') = pep440_key({given})") == [(text, "t")], (stored, text)
                printed += 1
    sets = damaged_sets(db, rng)
    db.close()
    assert server.is_sound() and printed > 100, printed
    return f"{STRINGS + 4} byte strings: {printed} are versions, the others errors; {STRINGS} of sets, of which {sets} print"


def damaged_sets(db, rng):
    """How many of damaged sets print; all other calls of these give an error, or what they find."""
    printed = 0
    db.rows("CREATE CAST (bytea AS pep440_set) WITHOUT FUNCTION; CREATE CAST (pep440_set AS bytea) WITHOUT FUNCTION")
    for _ in range(STRINGS):
        stored = bytearray(bytes.fromhex(db.value(f"SELECT encode(('>={rng.randrange(9)},!={rng.randrange(99)}+a,!=1.{rng.randrange(999)}'::pep440_set)::bytea, 'hex')")))
        for _ in range(rng.randrange(3)):
            place = rng.randrange(1, len(stored))
            stored[place : place + rng.randrange(2)] = bytes([rng.choice([0, 1, 7, 16, 32, 80, rng.randrange(256)])])
        given = f"'\\x{stored[: rng.choice([len(stored), rng.randrange(1, len(stored))])].hex()}'::bytea::pep440_set"
        for query in (f"SELECT {given}::text", f"SELECT {given} + '>1' <@ {given} - '<3', isempty({given}), '1.0'::pep440 <@ {given}, {given} = '>1', pep440_set_hash({given})", f"SELECT * FROM unnest({given})"):
            try:
                db.rows(query)
                printed += query.endswith("::text")
            except Refused as error:
                assert error.code == CORRUPTED, (query, error)
    return printed
