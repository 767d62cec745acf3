-- Lists of specifiers as values. Values of release 0.2 are read as they are.
\echo Use "ALTER EXTENSION pep440 UPDATE TO '0.3'" to load this file. \quit

CREATE FUNCTION pep440_specs_valid(text) RETURNS boolean AS 'MODULE_PATHNAME', 'specs_valid' LANGUAGE C IMMUTABLE STRICT PARALLEL SAFE;

-- ---- lists are equal if they have the same normal form; their order has no other meaning

CREATE FUNCTION pep440_specs_lt(pep440_specs, pep440_specs) RETURNS boolean AS 'MODULE_PATHNAME', 'specs_lt' LANGUAGE C IMMUTABLE STRICT PARALLEL SAFE;
CREATE FUNCTION pep440_specs_le(pep440_specs, pep440_specs) RETURNS boolean AS 'MODULE_PATHNAME', 'specs_le' LANGUAGE C IMMUTABLE STRICT PARALLEL SAFE;
CREATE FUNCTION pep440_specs_eq(pep440_specs, pep440_specs) RETURNS boolean AS 'MODULE_PATHNAME', 'specs_eq' LANGUAGE C IMMUTABLE STRICT PARALLEL SAFE;
CREATE FUNCTION pep440_specs_ge(pep440_specs, pep440_specs) RETURNS boolean AS 'MODULE_PATHNAME', 'specs_ge' LANGUAGE C IMMUTABLE STRICT PARALLEL SAFE;
CREATE FUNCTION pep440_specs_gt(pep440_specs, pep440_specs) RETURNS boolean AS 'MODULE_PATHNAME', 'specs_gt' LANGUAGE C IMMUTABLE STRICT PARALLEL SAFE;
CREATE FUNCTION pep440_specs_ne(pep440_specs, pep440_specs) RETURNS boolean AS 'MODULE_PATHNAME', 'specs_ne' LANGUAGE C IMMUTABLE STRICT PARALLEL SAFE;
CREATE FUNCTION pep440_specs_cmp(pep440_specs, pep440_specs) RETURNS integer AS 'MODULE_PATHNAME', 'specs_cmp' LANGUAGE C IMMUTABLE STRICT PARALLEL SAFE;
CREATE FUNCTION pep440_specs_hash(pep440_specs) RETURNS integer AS 'MODULE_PATHNAME', 'specs_hash' LANGUAGE C IMMUTABLE STRICT PARALLEL SAFE;
CREATE FUNCTION pep440_specs_hash_extended(pep440_specs, bigint) RETURNS bigint AS 'MODULE_PATHNAME', 'specs_hash_extended' LANGUAGE C IMMUTABLE STRICT PARALLEL SAFE;

CREATE OPERATOR < (LEFTARG = pep440_specs, RIGHTARG = pep440_specs, FUNCTION = pep440_specs_lt, COMMUTATOR = >, NEGATOR = >=, RESTRICT = scalarltsel, JOIN = scalarltjoinsel);
CREATE OPERATOR <= (LEFTARG = pep440_specs, RIGHTARG = pep440_specs, FUNCTION = pep440_specs_le, COMMUTATOR = >=, NEGATOR = >, RESTRICT = scalarlesel, JOIN = scalarlejoinsel);
CREATE OPERATOR = (LEFTARG = pep440_specs, RIGHTARG = pep440_specs, FUNCTION = pep440_specs_eq, COMMUTATOR = =, NEGATOR = <>, RESTRICT = eqsel, JOIN = eqjoinsel, HASHES, MERGES);
CREATE OPERATOR >= (LEFTARG = pep440_specs, RIGHTARG = pep440_specs, FUNCTION = pep440_specs_ge, COMMUTATOR = <=, NEGATOR = <, RESTRICT = scalargesel, JOIN = scalargejoinsel);
CREATE OPERATOR > (LEFTARG = pep440_specs, RIGHTARG = pep440_specs, FUNCTION = pep440_specs_gt, COMMUTATOR = <, NEGATOR = <=, RESTRICT = scalargtsel, JOIN = scalargtjoinsel);
CREATE OPERATOR <> (LEFTARG = pep440_specs, RIGHTARG = pep440_specs, FUNCTION = pep440_specs_ne, COMMUTATOR = <>, NEGATOR = =, RESTRICT = neqsel, JOIN = neqjoinsel);

CREATE OPERATOR CLASS pep440_specs_ops DEFAULT FOR TYPE pep440_specs USING btree AS
    OPERATOR 1 <, OPERATOR 2 <=, OPERATOR 3 =, OPERATOR 4 >=, OPERATOR 5 >, FUNCTION 1 pep440_specs_cmp(pep440_specs, pep440_specs);
CREATE OPERATOR CLASS pep440_specs_ops DEFAULT FOR TYPE pep440_specs USING hash AS
    OPERATOR 1 =, FUNCTION 1 pep440_specs_hash(pep440_specs), FUNCTION 2 pep440_specs_hash_extended(pep440_specs, bigint);

CREATE FUNCTION pep440_specs_both(pep440_specs, pep440_specs) RETURNS pep440_specs AS 'MODULE_PATHNAME', 'specs_both' LANGUAGE C IMMUTABLE STRICT PARALLEL SAFE;
CREATE OPERATOR * (LEFTARG = pep440_specs, RIGHTARG = pep440_specs, FUNCTION = pep440_specs_both);

-- ---- whether there is a version in a list, or in two at once

CREATE FUNCTION isempty(pep440_specs) RETURNS boolean AS 'MODULE_PATHNAME', 'specs_isempty' LANGUAGE C IMMUTABLE STRICT PARALLEL SAFE COST 20;
CREATE FUNCTION pep440_version_in(pep440_specs) RETURNS pep440 AS 'MODULE_PATHNAME', 'specs_version' LANGUAGE C IMMUTABLE STRICT PARALLEL SAFE COST 20;
CREATE FUNCTION pep440_specs_overlap(pep440_specs, pep440_specs) RETURNS boolean AS 'MODULE_PATHNAME', 'specs_overlap' LANGUAGE C IMMUTABLE STRICT PARALLEL SAFE COST 20;
CREATE OPERATOR && (LEFTARG = pep440_specs, RIGHTARG = pep440_specs, FUNCTION = pep440_specs_overlap, COMMUTATOR = &&, RESTRICT = matchingsel, JOIN = matchingjoinsel);
