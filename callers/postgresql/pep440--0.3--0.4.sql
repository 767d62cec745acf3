-- Sets of versions; texts beside lists; estimates of joins; and row security keeps indexes. Values of release 0.3 are read as they are.
\echo Use "ALTER EXTENSION pep440 UPDATE TO '0.4'" to load this file. \quit

-- ---- these raise no error that has a value in it: of valid values none but that memory is out

ALTER FUNCTION pep440_lt(pep440, pep440) LEAKPROOF;
ALTER FUNCTION pep440_le(pep440, pep440) LEAKPROOF;
ALTER FUNCTION pep440_eq(pep440, pep440) LEAKPROOF;
ALTER FUNCTION pep440_ge(pep440, pep440) LEAKPROOF;
ALTER FUNCTION pep440_gt(pep440, pep440) LEAKPROOF;
ALTER FUNCTION pep440_ne(pep440, pep440) LEAKPROOF;
ALTER FUNCTION pep440_cmp(pep440, pep440) LEAKPROOF;
ALTER FUNCTION pep440_hash(pep440) LEAKPROOF;
ALTER FUNCTION pep440_hash_extended(pep440, bigint) LEAKPROOF;
ALTER FUNCTION pep440_lt_key(pep440, bytea) LEAKPROOF;
ALTER FUNCTION pep440_le_key(pep440, bytea) LEAKPROOF;
ALTER FUNCTION pep440_eq_key(pep440, bytea) LEAKPROOF;
ALTER FUNCTION pep440_ge_key(pep440, bytea) LEAKPROOF;
ALTER FUNCTION pep440_gt_key(pep440, bytea) LEAKPROOF;
ALTER FUNCTION pep440_cmp_key(pep440, bytea) LEAKPROOF;
ALTER FUNCTION pep440_key_lt(bytea, pep440) LEAKPROOF;
ALTER FUNCTION pep440_key_le(bytea, pep440) LEAKPROOF;
ALTER FUNCTION pep440_key_eq(bytea, pep440) LEAKPROOF;
ALTER FUNCTION pep440_key_ge(bytea, pep440) LEAKPROOF;
ALTER FUNCTION pep440_key_gt(bytea, pep440) LEAKPROOF;
ALTER FUNCTION pep440_key_cmp(bytea, pep440) LEAKPROOF;
ALTER FUNCTION pep440_specs_lt(pep440_specs, pep440_specs) LEAKPROOF;
ALTER FUNCTION pep440_specs_le(pep440_specs, pep440_specs) LEAKPROOF;
ALTER FUNCTION pep440_specs_eq(pep440_specs, pep440_specs) LEAKPROOF;
ALTER FUNCTION pep440_specs_ge(pep440_specs, pep440_specs) LEAKPROOF;
ALTER FUNCTION pep440_specs_gt(pep440_specs, pep440_specs) LEAKPROOF;
ALTER FUNCTION pep440_specs_ne(pep440_specs, pep440_specs) LEAKPROOF;
ALTER FUNCTION pep440_specs_cmp(pep440_specs, pep440_specs) LEAKPROOF;
ALTER FUNCTION pep440_specs_hash(pep440_specs) LEAKPROOF;
ALTER FUNCTION pep440_specs_hash_extended(pep440_specs, bigint) LEAKPROOF;
ALTER FUNCTION pep440_specs_contains(pep440_specs, pep440) LEAKPROOF;
ALTER FUNCTION pep440_version_contained_by(pep440, pep440_specs) LEAKPROOF;

-- ---- how many rows of joins

CREATE FUNCTION pep440_specs_contains_join_selectivity(internal, oid, internal, smallint, internal) RETURNS float8 AS 'MODULE_PATHNAME', 'specs_contains_join_selectivity' LANGUAGE C STABLE STRICT PARALLEL SAFE;
CREATE FUNCTION pep440_version_contained_by_join_selectivity(internal, oid, internal, smallint, internal) RETURNS float8 AS 'MODULE_PATHNAME', 'version_contained_by_join_selectivity' LANGUAGE C STABLE STRICT PARALLEL SAFE;
CREATE FUNCTION pep440_specs_overlap_join_selectivity(internal, oid, internal, smallint, internal) RETURNS float8 AS 'MODULE_PATHNAME', 'specs_overlap_join_selectivity' LANGUAGE C STABLE STRICT PARALLEL SAFE;
ALTER OPERATOR @> (pep440_specs, pep440) SET (JOIN = pep440_specs_contains_join_selectivity);
ALTER OPERATOR <@ (pep440, pep440_specs) SET (JOIN = pep440_version_contained_by_join_selectivity);
ALTER OPERATOR && (pep440_specs, pep440_specs) SET (JOIN = pep440_specs_overlap_join_selectivity);

-- ---- a list beside versions of a partitioned table: the planner makes the ends of its cover of it, and this where that is not all

CREATE FUNCTION pep440_version_between_ends_support(internal) RETURNS internal AS 'MODULE_PATHNAME', 'version_between_ends_support' LANGUAGE C STRICT;
CREATE FUNCTION pep440_version_contained_between_ends(pep440, pep440_specs) RETURNS boolean AS 'MODULE_PATHNAME', 'version_contained_by' LANGUAGE C IMMUTABLE STRICT PARALLEL SAFE LEAKPROOF SUPPORT pep440_version_between_ends_support;

-- ---- texts as versions: the planner makes `pep440(text) <@ specs` of it

CREATE FUNCTION pep440_text_contained_by_support(internal) RETURNS internal AS 'MODULE_PATHNAME', 'text_contained_by_support' LANGUAGE C STRICT;
CREATE FUNCTION pep440_text_contained_by(text, pep440_specs) RETURNS boolean AS 'MODULE_PATHNAME', 'text_contained_by' LANGUAGE C IMMUTABLE STRICT PARALLEL SAFE SUPPORT pep440_text_contained_by_support;
CREATE OPERATOR <@ (LEFTARG = text, RIGHTARG = pep440_specs, FUNCTION = pep440_text_contained_by);

-- ---- indexes on lists, with the strategy numbers of ranges

CREATE FUNCTION pep440_specs_gist_consistent(internal, pep440_specs, smallint, oid, internal) RETURNS boolean AS 'MODULE_PATHNAME', 'specs_gist_consistent' LANGUAGE C IMMUTABLE STRICT PARALLEL SAFE;
CREATE FUNCTION pep440_specs_gist_union(internal, internal) RETURNS bytea AS 'MODULE_PATHNAME', 'specs_gist_union' LANGUAGE C IMMUTABLE STRICT PARALLEL SAFE;
CREATE FUNCTION pep440_specs_gist_compress(internal) RETURNS internal AS 'MODULE_PATHNAME', 'specs_gist_compress' LANGUAGE C IMMUTABLE STRICT PARALLEL SAFE;
CREATE FUNCTION pep440_specs_gist_penalty(internal, internal, internal) RETURNS internal AS 'MODULE_PATHNAME', 'specs_gist_penalty' LANGUAGE C IMMUTABLE STRICT PARALLEL SAFE;
CREATE FUNCTION pep440_specs_gist_picksplit(internal, internal) RETURNS internal AS 'MODULE_PATHNAME', 'specs_gist_picksplit' LANGUAGE C IMMUTABLE STRICT PARALLEL SAFE;
CREATE FUNCTION pep440_specs_gist_same(bytea, bytea, internal) RETURNS internal AS 'MODULE_PATHNAME', 'specs_gist_same' LANGUAGE C IMMUTABLE STRICT PARALLEL SAFE;
CREATE OPERATOR CLASS pep440_specs_ops DEFAULT FOR TYPE pep440_specs USING gist AS
    OPERATOR 3 &&, OPERATOR 7 @> (pep440_specs, pep440),
    FUNCTION 1 pep440_specs_gist_consistent(internal, pep440_specs, smallint, oid, internal), FUNCTION 2 pep440_specs_gist_union(internal, internal),
    FUNCTION 3 pep440_specs_gist_compress(internal), FUNCTION 5 pep440_specs_gist_penalty(internal, internal, internal),
    FUNCTION 6 pep440_specs_gist_picksplit(internal, internal), FUNCTION 7 pep440_specs_gist_same(bytea, bytea, internal), STORAGE bytea;

-- ---- to load lists of an index, of which some have empty items

CREATE FUNCTION pep440_specs_without_empty_items(text) RETURNS text AS 'MODULE_PATHNAME', 'specs_without_empty_items' LANGUAGE C IMMUTABLE STRICT PARALLEL SAFE;

-- ---- sets of versions, with the operators of multiranges; `union` and `difference` of lists may be no list

CREATE TYPE pep440_set;
CREATE FUNCTION pep440_set_in(cstring) RETURNS pep440_set AS 'MODULE_PATHNAME', 'set_in' LANGUAGE C IMMUTABLE STRICT PARALLEL SAFE;
CREATE FUNCTION pep440_set_out(pep440_set) RETURNS cstring AS 'MODULE_PATHNAME', 'set_out' LANGUAGE C IMMUTABLE STRICT PARALLEL SAFE;
CREATE FUNCTION pep440_set_recv(internal) RETURNS pep440_set AS 'MODULE_PATHNAME', 'set_recv' LANGUAGE C IMMUTABLE STRICT PARALLEL SAFE;
CREATE FUNCTION pep440_set_send(pep440_set) RETURNS bytea AS 'MODULE_PATHNAME', 'set_send' LANGUAGE C IMMUTABLE STRICT PARALLEL SAFE;
CREATE TYPE pep440_set (INPUT = pep440_set_in, OUTPUT = pep440_set_out, RECEIVE = pep440_set_recv, SEND = pep440_set_send, STORAGE = extended);
COMMENT ON TYPE pep440_set IS 'set of versions';

CREATE FUNCTION pep440_set(text) RETURNS pep440_set AS 'MODULE_PATHNAME', 'set_from_text' LANGUAGE C IMMUTABLE STRICT PARALLEL SAFE;
CREATE FUNCTION text(pep440_set) RETURNS text AS 'MODULE_PATHNAME', 'set_to_text' LANGUAGE C IMMUTABLE STRICT PARALLEL SAFE;
CREATE FUNCTION pep440_set(pep440_specs) RETURNS pep440_set AS 'MODULE_PATHNAME', 'set_from_specs' LANGUAGE C IMMUTABLE STRICT PARALLEL SAFE;
CREATE CAST (text AS pep440_set) WITH FUNCTION pep440_set(text) AS ASSIGNMENT;
CREATE CAST (pep440_set AS text) WITH FUNCTION text(pep440_set) AS ASSIGNMENT;
CREATE CAST (pep440_specs AS pep440_set) WITH FUNCTION pep440_set(pep440_specs) AS IMPLICIT;

CREATE FUNCTION pep440_set_lt(pep440_set, pep440_set) RETURNS boolean AS 'MODULE_PATHNAME', 'specs_lt' LANGUAGE C IMMUTABLE STRICT PARALLEL SAFE LEAKPROOF;
CREATE FUNCTION pep440_set_le(pep440_set, pep440_set) RETURNS boolean AS 'MODULE_PATHNAME', 'specs_le' LANGUAGE C IMMUTABLE STRICT PARALLEL SAFE LEAKPROOF;
CREATE FUNCTION pep440_set_eq(pep440_set, pep440_set) RETURNS boolean AS 'MODULE_PATHNAME', 'specs_eq' LANGUAGE C IMMUTABLE STRICT PARALLEL SAFE LEAKPROOF;
CREATE FUNCTION pep440_set_ge(pep440_set, pep440_set) RETURNS boolean AS 'MODULE_PATHNAME', 'specs_ge' LANGUAGE C IMMUTABLE STRICT PARALLEL SAFE LEAKPROOF;
CREATE FUNCTION pep440_set_gt(pep440_set, pep440_set) RETURNS boolean AS 'MODULE_PATHNAME', 'specs_gt' LANGUAGE C IMMUTABLE STRICT PARALLEL SAFE LEAKPROOF;
CREATE FUNCTION pep440_set_ne(pep440_set, pep440_set) RETURNS boolean AS 'MODULE_PATHNAME', 'specs_ne' LANGUAGE C IMMUTABLE STRICT PARALLEL SAFE LEAKPROOF;
CREATE FUNCTION pep440_set_cmp(pep440_set, pep440_set) RETURNS integer AS 'MODULE_PATHNAME', 'specs_cmp' LANGUAGE C IMMUTABLE STRICT PARALLEL SAFE LEAKPROOF;
CREATE FUNCTION pep440_set_hash(pep440_set) RETURNS integer AS 'MODULE_PATHNAME', 'specs_hash' LANGUAGE C IMMUTABLE STRICT PARALLEL SAFE LEAKPROOF;
CREATE FUNCTION pep440_set_hash_extended(pep440_set, bigint) RETURNS bigint AS 'MODULE_PATHNAME', 'specs_hash_extended' LANGUAGE C IMMUTABLE STRICT PARALLEL SAFE LEAKPROOF;
CREATE OPERATOR < (LEFTARG = pep440_set, RIGHTARG = pep440_set, FUNCTION = pep440_set_lt, COMMUTATOR = >, NEGATOR = >=, RESTRICT = scalarltsel, JOIN = scalarltjoinsel);
CREATE OPERATOR <= (LEFTARG = pep440_set, RIGHTARG = pep440_set, FUNCTION = pep440_set_le, COMMUTATOR = >=, NEGATOR = >, RESTRICT = scalarlesel, JOIN = scalarlejoinsel);
CREATE OPERATOR = (LEFTARG = pep440_set, RIGHTARG = pep440_set, FUNCTION = pep440_set_eq, COMMUTATOR = =, NEGATOR = <>, RESTRICT = eqsel, JOIN = eqjoinsel, HASHES, MERGES);
CREATE OPERATOR >= (LEFTARG = pep440_set, RIGHTARG = pep440_set, FUNCTION = pep440_set_ge, COMMUTATOR = <=, NEGATOR = <, RESTRICT = scalargesel, JOIN = scalargejoinsel);
CREATE OPERATOR > (LEFTARG = pep440_set, RIGHTARG = pep440_set, FUNCTION = pep440_set_gt, COMMUTATOR = <, NEGATOR = <=, RESTRICT = scalargtsel, JOIN = scalargtjoinsel);
CREATE OPERATOR <> (LEFTARG = pep440_set, RIGHTARG = pep440_set, FUNCTION = pep440_set_ne, COMMUTATOR = <>, NEGATOR = =, RESTRICT = neqsel, JOIN = neqjoinsel);
CREATE OPERATOR CLASS pep440_set_ops DEFAULT FOR TYPE pep440_set USING btree AS
    OPERATOR 1 <, OPERATOR 2 <=, OPERATOR 3 =, OPERATOR 4 >=, OPERATOR 5 >, FUNCTION 1 pep440_set_cmp(pep440_set, pep440_set), FUNCTION 4 btequalimage(oid);
CREATE OPERATOR CLASS pep440_set_ops DEFAULT FOR TYPE pep440_set USING hash AS
    OPERATOR 1 =, FUNCTION 1 pep440_set_hash(pep440_set), FUNCTION 2 pep440_set_hash_extended(pep440_set, bigint);

CREATE FUNCTION pep440_set_union(pep440_set, pep440_set) RETURNS pep440_set AS 'MODULE_PATHNAME', 'set_union' LANGUAGE C IMMUTABLE STRICT PARALLEL SAFE;
CREATE FUNCTION pep440_set_difference(pep440_set, pep440_set) RETURNS pep440_set AS 'MODULE_PATHNAME', 'set_difference' LANGUAGE C IMMUTABLE STRICT PARALLEL SAFE;
CREATE FUNCTION pep440_set_intersection(pep440_set, pep440_set) RETURNS pep440_set AS 'MODULE_PATHNAME', 'set_intersection' LANGUAGE C IMMUTABLE STRICT PARALLEL SAFE;
CREATE FUNCTION pep440_set_overlap(pep440_set, pep440_set) RETURNS boolean AS 'MODULE_PATHNAME', 'set_overlap' LANGUAGE C IMMUTABLE STRICT PARALLEL SAFE;
CREATE FUNCTION pep440_set_contains_set(pep440_set, pep440_set) RETURNS boolean AS 'MODULE_PATHNAME', 'set_contains' LANGUAGE C IMMUTABLE STRICT PARALLEL SAFE;
CREATE FUNCTION pep440_set_contained_by(pep440_set, pep440_set) RETURNS boolean AS 'MODULE_PATHNAME', 'set_contained_by' LANGUAGE C IMMUTABLE STRICT PARALLEL SAFE;
CREATE FUNCTION isempty(pep440_set) RETURNS boolean AS 'MODULE_PATHNAME', 'set_isempty' LANGUAGE C IMMUTABLE STRICT PARALLEL SAFE;
CREATE OPERATOR + (LEFTARG = pep440_set, RIGHTARG = pep440_set, FUNCTION = pep440_set_union, COMMUTATOR = +);
CREATE OPERATOR - (LEFTARG = pep440_set, RIGHTARG = pep440_set, FUNCTION = pep440_set_difference);
CREATE OPERATOR * (LEFTARG = pep440_set, RIGHTARG = pep440_set, FUNCTION = pep440_set_intersection, COMMUTATOR = *);
CREATE OPERATOR && (LEFTARG = pep440_set, RIGHTARG = pep440_set, FUNCTION = pep440_set_overlap, COMMUTATOR = &&, RESTRICT = matchingsel, JOIN = pep440_specs_overlap_join_selectivity);
CREATE OPERATOR @> (LEFTARG = pep440_set, RIGHTARG = pep440_set, FUNCTION = pep440_set_contains_set, COMMUTATOR = <@, RESTRICT = matchingsel, JOIN = matchingjoinsel);
CREATE OPERATOR <@ (LEFTARG = pep440_set, RIGHTARG = pep440_set, FUNCTION = pep440_set_contained_by, COMMUTATOR = @>, RESTRICT = matchingsel, JOIN = matchingjoinsel);
CREATE AGGREGATE intersect_agg(pep440_set) (SFUNC = pep440_set_intersection, STYPE = pep440_set, COMBINEFUNC = pep440_set_intersection, PARALLEL = SAFE);
CREATE AGGREGATE union_agg(pep440_set) (SFUNC = pep440_set_union, STYPE = pep440_set, COMBINEFUNC = pep440_set_union, PARALLEL = SAFE);
CREATE FUNCTION unnest(pep440_set, OUT low bytea, OUT high bytea, OUT bounds text) RETURNS SETOF record AS 'MODULE_PATHNAME', 'specs_cover' LANGUAGE C IMMUTABLE STRICT PARALLEL SAFE ROWS 2;

-- ---- a version in a set. Beside a set the version has a domain, so that a constant beside a version is still a list, whose operators take the type itself

CREATE DOMAIN pep440_member AS pep440;
CREATE FUNCTION pep440_cover_start(pep440_set) RETURNS bytea AS 'MODULE_PATHNAME', 'specs_cover_start' LANGUAGE C IMMUTABLE STRICT PARALLEL SAFE;
CREATE FUNCTION pep440_cover_end(pep440_set) RETURNS bytea AS 'MODULE_PATHNAME', 'specs_cover_end' LANGUAGE C IMMUTABLE STRICT PARALLEL SAFE;
CREATE FUNCTION pep440_version_contained_between_ends(pep440, pep440_set) RETURNS boolean AS 'MODULE_PATHNAME', 'version_contained_by' LANGUAGE C IMMUTABLE STRICT PARALLEL SAFE LEAKPROOF SUPPORT pep440_version_between_ends_support;
CREATE FUNCTION pep440_set_contains(pep440_set, pep440_member) RETURNS boolean AS 'MODULE_PATHNAME', 'specs_contains' LANGUAGE C IMMUTABLE STRICT PARALLEL SAFE LEAKPROOF SUPPORT pep440_specs_contains_support;
CREATE FUNCTION pep440_version_contained_by_set(pep440_member, pep440_set) RETURNS boolean AS 'MODULE_PATHNAME', 'version_contained_by' LANGUAGE C IMMUTABLE STRICT PARALLEL SAFE LEAKPROOF SUPPORT pep440_version_contained_by_support;
CREATE OPERATOR @> (LEFTARG = pep440_set, RIGHTARG = pep440_member, FUNCTION = pep440_set_contains, COMMUTATOR = <@,
    RESTRICT = pep440_specs_contains_selectivity, JOIN = pep440_specs_contains_join_selectivity);
CREATE OPERATOR <@ (LEFTARG = pep440_member, RIGHTARG = pep440_set, FUNCTION = pep440_version_contained_by_set, COMMUTATOR = @>,
    RESTRICT = pep440_version_contained_by_selectivity, JOIN = pep440_version_contained_by_join_selectivity);

CREATE FUNCTION pep440_set_gist_consistent(internal, pep440_set, smallint, oid, internal) RETURNS boolean AS 'MODULE_PATHNAME', 'specs_gist_consistent' LANGUAGE C IMMUTABLE STRICT PARALLEL SAFE;
CREATE OPERATOR CLASS pep440_set_ops DEFAULT FOR TYPE pep440_set USING gist AS
    OPERATOR 3 &&, OPERATOR 7 @> (pep440_set, pep440_member),
    FUNCTION 1 pep440_set_gist_consistent(internal, pep440_set, smallint, oid, internal), FUNCTION 2 pep440_specs_gist_union(internal, internal),
    FUNCTION 3 pep440_specs_gist_compress(internal), FUNCTION 5 pep440_specs_gist_penalty(internal, internal, internal),
    FUNCTION 6 pep440_specs_gist_picksplit(internal, internal), FUNCTION 7 pep440_specs_gist_same(bytea, bytea, internal), STORAGE bytea;
