CREATE EXTENSION pep440;
\pset format unaligned
\pset tuples_only on
-- all families are whole
SELECT opcname, amname FROM pg_opclass c JOIN pg_am a ON c.opcmethod = a.oid WHERE opcname ~ '^pep440' AND amvalidate(c.oid) ORDER BY 1, 2;
-- each function is immutable, strict and parallel safe, but for those that the planner calls, which are strict
SELECT proname, provolatile, proisstrict, proparallel FROM pg_proc p JOIN pg_depend d ON d.objid = p.oid JOIN pg_extension e ON d.refobjid = e.oid
    WHERE extname = 'pep440' AND prokind = 'f' AND (provolatile <> 'i' OR NOT proisstrict OR proparallel <> 's') ORDER BY 1;
-- normal forms
SELECT ' V1!1.0-Alpha.2-3.DEV+Ubuntu-01 '::pep440;
SELECT '1.0'::pep440, '1.0.0'::pep440, 'v1-1'::pep440, '1.0c1'::pep440, '1.0+CU_118'::pep440, '00.01'::pep440;
SELECT '>= 1.0 , <2.0,~=1.4.2'::pep440_specs, ''::pep440_specs, '==1.*,===1.0'::pep440_specs;
SELECT pep440_valid('1.0'), pep440_valid(''), pep440_valid('1.0.x'), pep440_valid(NULL) IS NULL, pep440_valid(repeat('1.', 3000) || '1');
-- the order of the standard's summary: "Summary of permitted suffixes and relative ordering"
SELECT string_agg(version::text, ' ' ORDER BY version) FROM (VALUES ('1.0.post456'::pep440), ('1.0.dev456'), ('1.0rc1'), ('1.0+abc.7'), ('1.0a2.dev456'), ('1.0+5'),
    ('1.0a1'), ('1.1.dev1'), ('1.0b1.dev456'), ('1.0'), ('1.0a12.dev456'), ('1.0b2.post345'), ('1.0+abc.5'), ('1.0a12'), ('1.0rc1.dev456'), ('1.0b2'),
    ('1.0.post456.dev34'), ('1.0b2.post345.dev456'), ('1!0.1')) AS v(version);
SELECT '1.0'::pep440 = '1.0.0', '1.0'::pep440 <> '1.0.0', '1.0'::pep440 < '1.0.0', '1.9'::pep440 < '1.10', '1.9'::pep440 <= '1.9', '1.9'::pep440 >= '1.10', '1.9'::pep440 > '1.9rc1';
SELECT pep440_cmp('1.0', '1.0.0'), pep440_cmp('1.0', '1.0.1'), pep440_cmp('1.0', '1.0rc1');
SELECT pep440_hash('1.0') = pep440_hash('1.0.0'), pep440_hash_extended('1.0', 7) = pep440_hash_extended('1.0.0', 7), pep440_hash('1.0') = pep440_hash('1.0.1');
SELECT min(v), max(v) FROM unnest('{1.10,1.9,1.10rc1,NULL}'::pep440[]) AS v;
SELECT min(v), max(v) FROM unnest('{}'::pep440[]) AS v;
SELECT count(*) FROM (SELECT DISTINCT v FROM unnest('{1.0,1.0.0,1,1.0+a,1.0+A}'::pep440[]) AS v) AS distinct_ones;
SELECT pep440_key('1.0') = pep440_key('1.0.0'), '1.9'::pep440 < pep440_key('1.10'), pep440_key('1.9') < '1.10'::pep440, pep440_key('1.10') > '1.9'::pep440;
-- casts
SELECT '1.0-1'::text::pep440, '1.0-1'::varchar::pep440::text, 'v1'::pep440::text || '!', '>1'::text::pep440_specs::text;
CREATE TABLE given (version pep440 UNIQUE, specs pep440_specs);
INSERT INTO given SELECT text, '>=' || text FROM (VALUES ('1.0'), ('v2.0')) AS t(text);
SELECT * FROM given ORDER BY version;
INSERT INTO given VALUES ('1.0.0', '');
-- parts
SELECT pep440_epoch(v), pep440_release(v), pep440_pre_kind(v), pep440_pre(v), pep440_post(v), pep440_dev(v), pep440_local(v), pep440_is_prerelease(v), pep440_public(v),
    pep440_base(v) FROM unnest('{1.0,2!1.2.3a4.post5.dev6+ubuntu.7,1.0rc0,1b1,3.post2,4.dev1,18446744073709551615!9223372036854775808.18446744073709551615}'::pep440[]) AS v;
-- matching: "Version specifiers"
SELECT specs, version, specs::pep440_specs @> version::pep440, version::pep440 <@ specs::pep440_specs FROM (VALUES ('~=2.2', '2.3'), ('~=2.2', '3.0'), ('~=2.2.post3', '2.2'),
    ('==1.1', '1.1.post1'), ('==1.1.*', '1.1.post1'), ('==1.1', '1.1+local'), ('==1.1+local', '1.1'), ('!=1.1.*', '1.1a1'), ('<=1.1', '1.1+local'), ('>1.7', '1.7.0.post1'),
    ('>1.7', '1.7.1'), ('<1.7', '1.7rc1'), ('===1.0', '1.0.0'), ('>=1,!=1.5', '1.5'), ('', '0'), ('>2,<1', '1.5'), ('>1.0rc1', '1.0+cpu'), ('>1.0rc1', '1.0.post1'), ('<1.0.post1', '1.0rc1')) AS t(specs, version);
SELECT pep440_any_prerelease('>=1.0rc1'), pep440_any_prerelease('>=1.0');
SELECT count(*), count(high), bool_and(high IS NULL OR low < high) FROM pep440_cover('!=1.5,!=1.7.*');
SELECT count(*) FROM pep440_cover('>2,<1');
SELECT count(*), bool_and(low <= pep440_key('1.0') AND high > pep440_key('1.0')) FROM pep440_cover('===1.0');
SELECT count(*), bool_and(low <= pep440_key('18446744073709551615.dev0') AND high <= pep440_key('1!0.dev0')) FROM pep440_cover('==18446744073709551615.*');
SELECT low = '', high FROM pep440_cover('');
-- lists as values: equal if they have the same normal form
SELECT '>=1.0,<2'::pep440_specs = '<2 , >= v1.0', '>=1.0'::pep440_specs = '>=1', '>=1.0'::pep440_specs <> '>=1', '>=1'::pep440_specs IS DISTINCT FROM '>=1 ';
SELECT specs, count(*) FROM unnest('{">=1,<2","","<2,>=1",==1.*,NULL}'::pep440_specs[]) AS specs GROUP BY specs ORDER BY specs::text;
SELECT '<2,!=1.5'::pep440_specs * '>=1', '>=1,!=1.5'::pep440_specs * '==1.*', ''::pep440_specs * '>1', ''::pep440_specs * '';
SELECT isempty('>=1,<=1,!=1'::pep440_specs), isempty('<=1.0,==1.0+cu1'::pep440_specs), isempty(''::pep440_specs), pep440_version_in('>=1.16,<2'), pep440_version_in('===2,===2.0') IS NULL, '>=1'::pep440_specs && '<1', '>=1'::pep440_specs && '<=1';
SELECT pep440_specs_valid('>=1, <2'), pep440_specs_valid(''), pep440_specs_valid('>=1, =<2'), pep440_specs_valid(NULL) IS NULL;
-- empty items
SELECT pep440_specs_valid('>=1,'), pep440_specs_without_empty_items(text), pep440_specs_valid(pep440_specs_without_empty_items(text)) FROM (VALUES ('>=1,'), (' ,, >=1 , ,<2'), (''), (','), ('>=1'), (',>=1,x,')) AS t(text);
-- sets
SELECT '>=1,<2'::pep440_set, '>1.0'::pep440_set, ''::pep440_set, '>2,<1'::pep440_set, '==1.0+a'::pep440_set, '!=1.5,>=1.0rc1'::pep440_set, '==18446744073709551615.*'::pep440_set;
SELECT ' { [ v1.0 , 2.0.DEV0 ) } '::pep440_set = '>=1,<2', '{[2, *), (*, 1.0), [1, 2)}'::pep440_set, '{[2, 1)}'::pep440_set, '{[0.dev0, 1), (*, 0.dev0)}'::pep440_set, '{(1.0.post*, 2+A.01]}'::pep440_set;
SELECT '>=1'::pep440_specs + '<0.5', '>=1'::pep440_set - '>=2', ''::pep440_set - '==1.*', '>=1'::pep440_set * '<2', '>=1'::pep440_specs * '<2', '>1'::pep440_specs * '<=1'::pep440_set;
SELECT '==1.*'::pep440_specs <@ '>=1.dev0'::pep440_specs, '==1.*'::pep440_set <@ '>=1', '>=1'::pep440_set @> '==1.5', '>=1'::pep440_set && '<1', isempty('>1,<1'::pep440_set), isempty('>1'::pep440_set);
SELECT version <@ '{[1, 1.5), (2.post*, *)}'::pep440_set, '{[1, 1.5), (2.post*, *)}'::pep440_set @> version, version <@ '==1.*' FROM unnest('{1,1.5,1.4+a,2,2.post3,2.0.1.dev0,NULL}'::pep440[]) AS version;
SELECT bounds, low = pep440_key('1'), high FROM unnest('>=1,!=1.5'::pep440_specs);
SELECT intersect_agg(s), union_agg(s) FROM unnest('{">=1,<2","!=1.5",NULL}'::pep440_specs[]) AS s;
SELECT intersect_agg(s) IS NULL FROM unnest('{}'::pep440_specs[]) AS s;
SELECT versions, count(*) FROM unnest('{"==1.0","==1","{[1, 1.post0.dev0)}",">=1"}'::pep440_set[]) AS versions GROUP BY 1 ORDER BY 2;
SELECT '{[1.0, 2.0]}'::pep440_set;
SELECT '{(1.0, *)}'::pep440_set;
SELECT '{(1.0a1.post*, *)}'::pep440_set;
SELECT '{[x, 2)}'::pep440_set;
SELECT '{[1, 2), }'::pep440_set;
SELECT '{[1, 2)} 3'::pep440_set;
SELECT '>=1;'::pep440_set;
SELECT pep440_set('===1.0'::pep440_specs);
-- what begins as compiled bytes is a text like others
SELECT pep440_specs_valid(E'\005'), pep440_specs_valid(E'\006'), pep440_specs_valid(E'\007'), pep440_valid(E'\004');
-- errors
SELECT '1.0.x'::pep440;
SELECT ''::pep440;
SELECT pep440('latest');
SELECT '>=1.0, =<2.0'::pep440_specs;
SELECT (repeat('1.', 3000) || '1')::pep440;
SELECT ('1.0+' || repeat('a', 3000))::pep440;
INSERT INTO given VALUES ('x', '');
-- the greatest number
SELECT '==18446744073709551615.*' @> version FROM unnest('{1,18446744073709551615.2,18446744073709551615.3}'::pep440[]) AS version;
-- the longest values that are taken go into an index
CREATE TABLE longest (version pep440);
CREATE INDEX ON longest (version);
INSERT INTO longest SELECT ('1' || repeat('.255', n))::pep440 FROM generate_series(1, 1000) AS n WHERE pep440_valid('1' || repeat('.255', n));
SELECT count(*) > 100, max(length(version::text)) > 700 FROM longest;
INSERT INTO longest SELECT ('1+' || repeat('a', n))::pep440 FROM generate_series(1, 3000) AS n WHERE pep440_valid('1+' || repeat('a', n));
SELECT max(length(pep440_local(version))) > 700, count(*) = count(DISTINCT version) FROM longest;
-- plans
CREATE TABLE many (version pep440);
INSERT INTO many SELECT (a || '.' || b)::pep440 FROM generate_series(1, 100) AS a, generate_series(1, 100) AS b;
CREATE INDEX many_version ON many (version);
ANALYZE many;
EXPLAIN (COSTS OFF) SELECT * FROM many WHERE version = '5.5';
EXPLAIN (COSTS OFF) SELECT * FROM many ORDER BY version DESC LIMIT 3;
EXPLAIN (COSTS OFF) SELECT * FROM many WHERE '==5.7.*' @> version;
EXPLAIN (COSTS OFF) SELECT * FROM many WHERE version <@ '==5.7.*';
EXPLAIN (COSTS OFF) SELECT * FROM many WHERE version <@ '==5.7.*,!=5.7';
EXPLAIN (COSTS OFF) SELECT * FROM many WHERE version <@ '';
SELECT count(*), min(version), max(version) FROM many WHERE version <@ '~=5.7';
PREPARE matching(pep440_specs) AS SELECT count(*) FROM many WHERE $1 @> version;
SET plan_cache_mode = force_generic_plan;
SET enable_seqscan = off;
EXPLAIN (COSTS OFF) EXECUTE matching('~=5.7');
EXECUTE matching('~=5.7');
EXECUTE matching('');
EXECUTE matching('>2,<1');
EXECUTE matching(NULL);
EXECUTE matching('==18446744073709551615.*');
