/* What the planner asks.

   How many rows it is to expect: of `specs @> version`, by the statistics of a column of versions, of a column of lists, or of both; and of two columns whose
   lists have a version in common. A list may be a set. Whoever creates an operator or a function may name these estimators, for operands of any types: only
   values of the extension's types are read.

   And which condition an index on the versions can serve for `specs @> version`, where `specs` is a list or a set; and of the function how many rows that is,
   as of the operator. The condition is `version >= low AND version < high`, with the ends of the list's cover. It holds for each version that the list
   contains. Where the list may have gaps or `===` it may hold for others, and the server rechecks each row by matching. */
#include "extension.h"

/* ---- statistics */

/* The most lists of a column that are asked of one statistic: those that are common, and as many others. */
enum { MOST_SAMPLED = 100, MOST_PAIRED = 25 };

/* Where nothing is known: a list that a query gives has few versions of a column; in a join most lists are open above. */
static const double UNKNOWN = DEFAULT_RANGE_INEQ_SEL, UNKNOWN_JOIN = 0.1, NOT_KNOWN = -1;

/* What ANALYZE keeps of a column: common values, with the part of the rows that has each; and others in order, with equally many rows between each two. */
typedef struct {
    AttStatsSlot common;
    AttStatsSlot others;
    double nulls;      /* the part of the rows that is null */
    double other_rows; /* and the part that has no common value */
} Statistics;

/* Versions of a column, by their keys. */
typedef struct {
    const Statistics *statistics;
    Bytes *common;
    Bytes *others;
    double least; /* the part of the rows that one version has */
} Versions;

/* A list of the statistics, by its cover, and the part of the rows that it stands for. */
typedef struct {
    Cover cover;
    double rows;
} Sampled;

typedef enum { VERSIONS, LISTS } Contents;

/* Whether its values are versions, or lists or sets, as are those of domains over these: by the output function. */
static bool has_contents(Oid type, Contents contents)
{
    Oid function;
    bool is_varlena;
    FmgrInfo called;
    getTypeOutputInfo(type, &function, &is_varlena);
    fmgr_info(function, &called);
    return contents == VERSIONS ? called.fn_addr == version_out : called.fn_addr == specs_out || called.fn_addr == set_out;
}

static bool is_known_as(Node *node, Contents contents)
{
    return node != NULL && IsA(node, Const) && has_contents(((Const *)node)->consttype, contents);
}

static bool is_of(const AttStatsSlot *slot, Contents contents)
{
    return slot->nvalues == 0 || has_contents(slot->valuetype, contents);
}

/* Whether there are statistics, and of such values. */
static bool find_statistics(const VariableStatData *variable, Contents contents, Statistics *found)
{
    memset(found, 0, sizeof *found);
    if (!HeapTupleIsValid(variable->statsTuple))
        return false;
    found->nulls = ((Form_pg_statistic)GETSTRUCT(variable->statsTuple))->stanullfrac;
    get_attstatsslot(&found->common, variable->statsTuple, STATISTIC_KIND_MCV, InvalidOid, ATTSTATSSLOT_VALUES | ATTSTATSSLOT_NUMBERS);
    get_attstatsslot(&found->others, variable->statsTuple, STATISTIC_KIND_HISTOGRAM, InvalidOid, ATTSTATSSLOT_VALUES);
    found->other_rows = 1 - found->nulls;
    for (int each = 0; each < found->common.nvalues; each++)
        found->other_rows -= found->common.numbers[each];
    found->other_rows = Max(found->other_rows, 0);
    return found->common.nvalues + found->others.nvalues > 0 && is_of(&found->common, contents) && is_of(&found->others, contents);
}

/* ---- a column of versions */

static Bytes *keys_of(const AttStatsSlot *slot)
{
    Bytes *keys = palloc(sizeof *keys * (slot->nvalues + 1));
    for (int each = 0; each < slot->nvalues; each++) {
        VersionBuffer buffer;
        Bytes key = version_of(PG_DETOAST_DATUM_PACKED(slot->values[each]), &buffer).key;
        keys[each] = (Bytes){memcpy(palloc(key.length + 1), key.bytes, key.length), key.length};
    }
    return keys;
}

static Versions versions_of(VariableStatData *variable, const Statistics *statistics)
{
    bool is_guess;
    double least = 1 / get_variable_numdistinct(variable, &is_guess);
    return (Versions){statistics, keys_of(&statistics->common), keys_of(&statistics->others), least};
}

/* The part of the rows without a common value that is below the bound: between two known versions, half of those there. */
static double part_below(const Versions *versions, Bytes bound)
{
    int first = 0, end = versions->statistics->others.nvalues, last = end - 1;
    while (first < end) {
        int middle = first + (end - first) / 2;
        if (compare_bytes(versions->others[middle], bound) < 0)
            first = middle + 1;
        else
            end = middle;
    }
    if (first == 0)
        return 0;
    if (first > last)
        return 1;
    return (first - (compare_bytes(versions->others[first], bound) == 0 ? 0 : 0.5)) / last;
}

static double part_between(const Versions *versions, KeyInterval interval)
{
    const Statistics *statistics = versions->statistics;
    Bytes low = interval.low, high = interval.high;
    double found = 0, all = 1 - statistics->nulls - statistics->other_rows, others;
    for (int each = 0; each < statistics->common.nvalues; each++)
        if (compare_bytes(versions->common[each], low) >= 0 && (high.length == 0 || compare_bytes(versions->common[each], high) < 0))
            found += statistics->common.numbers[each];
    if (statistics->others.nvalues > 1)
        others = (high.length == 0 ? 1 : part_below(versions, high)) - part_below(versions, low);
    else
        others = all > 0 ? found / all : 0;
    return found + statistics->other_rows * others;
}

/* The part of the rows whose version is in the cover. Each interval has at least as many rows as one version has: the statistics see no narrow one. */
static double part_covered(const Versions *versions, const Cover *cover)
{
    double sum = 0, most = 1 - versions->statistics->nulls;
    for (size_t each = 0; each < cover->count && sum < most; each++) {
        CHECK_FOR_INTERRUPTS();
        sum += Max(versions->least, part_between(versions, cover->intervals[each]));
    }
    return Min(sum, most);
}

/* ---- a column of lists */

static Sampled sampled_list(Datum value, double rows)
{
    CHECK_FOR_INTERRUPTS();
    return (Sampled){cover_of(list_of(PG_DETOAST_DATUM_PACKED(value))), rows};
}

/* Lists of the statistics, at most twice so many; how many there are. */
static int sample_lists(const Statistics *statistics, int most, Sampled *sampled)
{
    int count = 0, others = statistics->others.nvalues, step = 1 + others / most;
    for (int each = 0; each < statistics->common.nvalues && each < most; each++)
        sampled[count++] = sampled_list(statistics->common.values[each], statistics->common.numbers[each]);
    for (int each = step / 2; each < others; each += step)
        sampled[count++] = sampled_list(statistics->others.values[each], statistics->other_rows * step / others);
    return count;
}

/* The part of the pairs of rows of which the list contains the version; with a version, the part of the rows whose list does. */
static double part_containing(const Statistics *lists, const Versions *versions, const Bytes *key)
{
    Sampled sampled[2 * MOST_SAMPLED];
    int count = sample_lists(lists, MOST_SAMPLED, sampled);
    double found = 0, all = 0;
    for (int each = 0; each < count; each++) {
        double part = key != NULL ? is_in_cover(&sampled[each].cover, *key) : part_covered(versions, &sampled[each].cover);
        found += part * sampled[each].rows;
        all += sampled[each].rows;
    }
    return all > 0 ? found / all * (1 - lists->nulls) : NOT_KNOWN;
}

static bool do_overlap(const Cover *left, const Cover *right)
{
    size_t one = 0, other = 0;
    while (one < left->count && other < right->count) {
        const KeyInterval *first = &left->intervals[one], *second = &right->intervals[other];
        if (first->high.length != 0 && compare_bytes(first->high, second->low) <= 0)
            one++;
        else if (second->high.length != 0 && compare_bytes(second->high, first->low) <= 0)
            other++;
        else
            return true;
    }
    return false;
}

/* The part of the pairs of rows whose lists have a version in common. */
static double part_overlapping(const Statistics *left, const Statistics *right)
{
    Sampled of_left[2 * MOST_PAIRED], of_right[2 * MOST_PAIRED];
    int count = sample_lists(left, MOST_PAIRED, of_left), other_count = sample_lists(right, MOST_PAIRED, of_right);
    double found = 0, all = 0;
    for (int each = 0; each < count * other_count; each++) {
        const Sampled *one = &of_left[each % count], *other = &of_right[each / count];
        double rows = one->rows * other->rows;
        found += do_overlap(&one->cover, &other->cover) * rows;
        all += rows;
    }
    return all > 0 ? found / all * (1 - left->nulls) * (1 - right->nulls) : NOT_KNOWN;
}

/* ---- both columns, or one and a value */

static double of_columns(VariableStatData *lists, VariableStatData *versions)
{
    Statistics of_lists, of_versions;
    if (!find_statistics(lists, LISTS, &of_lists) || !find_statistics(versions, VERSIONS, &of_versions))
        return NOT_KNOWN;
    Versions known = versions_of(versions, &of_versions);
    return part_containing(&of_lists, &known, NULL);
}

static double of_version(const VariableStatData *lists, Node *version)
{
    Statistics statistics;
    VersionBuffer buffer;
    if (!is_known_as(version, VERSIONS) || !find_statistics(lists, LISTS, &statistics))
        return NOT_KNOWN;
    if (((Const *)version)->constisnull)
        return 0;
    Bytes key = version_of(PG_DETOAST_DATUM_PACKED(((Const *)version)->constvalue), &buffer).key;
    return part_containing(&statistics, NULL, &key);
}

/* Of all rows; or, of those between the ends of the list's cover, the part in it. */
static double of_list(VariableStatData *versions, Node *list, bool is_between_ends)
{
    Statistics statistics;
    if (!is_known_as(list, LISTS) || !find_statistics(versions, VERSIONS, &statistics))
        return NOT_KNOWN;
    if (((Const *)list)->constisnull)
        return 0;
    Versions known = versions_of(versions, &statistics);
    Cover cover = cover_of(list_of(PG_DETOAST_DATUM_PACKED(((Const *)list)->constvalue)));
    double found = part_covered(&known, &cover);
    if (!is_between_ends || cover.count == 0)
        return found;
    return found / Max(found, part_between(&known, ends_of_cover(&cover)));
}

/* Of a column and a value that is known; or, as for the inner side of a nested loop, of a column and one of another table. */
static double restriction(PlannerInfo *root, List *arguments, int relation, bool version_is_first, bool is_between_ends)
{
    VariableStatData variable, other;
    Node *value;
    bool is_left;
    if (!get_restriction_variable(root, arguments, relation, &variable, &value, &is_left))
        return NOT_KNOWN;
    bool is_version = is_left == version_is_first;
    double found = is_version ? of_list(&variable, value, is_between_ends) : of_version(&variable, value);
    if (found == NOT_KNOWN && !IsA(value, Const)) {
        examine_variable(root, value, 0, &other);
        found = is_version ? of_columns(&other, &variable) : of_columns(&variable, &other);
        ReleaseVariableStats(other);
    }
    ReleaseVariableStats(variable);
    return found;
}

static double joined(PlannerInfo *root, List *arguments, SpecialJoinInfo *join, double (*part)(VariableStatData *, VariableStatData *), bool is_swapped)
{
    VariableStatData left, right;
    bool is_reversed;
    get_join_variables(root, arguments, join, &left, &right, &is_reversed);
    double found = is_swapped ? part(&right, &left) : part(&left, &right);
    ReleaseVariableStats(left);
    ReleaseVariableStats(right);
    return found;
}

static double of_lists(VariableStatData *left, VariableStatData *right)
{
    Statistics one, other;
    return find_statistics(left, LISTS, &one) && find_statistics(right, LISTS, &other) ? part_overlapping(&one, &other) : NOT_KNOWN;
}

static double probability(double found, double unknown)
{
    if (found == NOT_KNOWN)
        found = unknown;
    CLAMP_PROBABILITY(found);
    return found;
}

static Datum restriction_selectivity(FunctionCallInfo fcinfo, bool version_is_first)
{
    double found = restriction((PlannerInfo *)PG_GETARG_POINTER(0), (List *)PG_GETARG_POINTER(2), PG_GETARG_INT32(3), version_is_first, false);
    PG_RETURN_FLOAT8(probability(found, UNKNOWN));
}

static Datum join_selectivity(FunctionCallInfo fcinfo, double (*part)(VariableStatData *, VariableStatData *), bool is_swapped)
{
    double found = joined((PlannerInfo *)PG_GETARG_POINTER(0), (List *)PG_GETARG_POINTER(2), (SpecialJoinInfo *)PG_GETARG_POINTER(4), part, is_swapped);
    PG_RETURN_FLOAT8(probability(found, UNKNOWN_JOIN));
}

SQL_FUNCTION(specs_contains_selectivity, restriction_selectivity(fcinfo, false));
SQL_FUNCTION(version_contained_by_selectivity, restriction_selectivity(fcinfo, true));
SQL_FUNCTION(specs_contains_join_selectivity, join_selectivity(fcinfo, of_columns, false));
SQL_FUNCTION(version_contained_by_join_selectivity, join_selectivity(fcinfo, of_columns, true));
SQL_FUNCTION(specs_overlap_join_selectivity, join_selectivity(fcinfo, of_lists, false));

/* Writes to the request how many rows the function that it asks about has, whose first argument is the version, or the list; of all, or of those between the
   ends of the list's cover. */
static void estimate_call(SupportRequestSelectivity *request, bool version_is_first, bool is_between_ends)
{
    double found;
    if (request->is_join)
        found = joined(request->root, request->args, request->sjinfo, of_columns, version_is_first);
    else
        found = restriction(request->root, request->args, request->varRelid, version_is_first, is_between_ends);
    request->selectivity = probability(found, request->is_join ? UNKNOWN_JOIN : UNKNOWN);
}

/* ---- calls: conditions of an index, and how many rows */

/* The version of a call as one of type pep440: beside a set it is a domain over that, and may be of another domain before. */
static Node *plain_version(Node *version)
{
    Oid type = getBaseType(exprType(version));
    while (IsA(version, RelabelType))
        version = (Node *)((RelabelType *)version)->arg;
    return exprType(version) == type ? version : (Node *)makeRelabelType((Expr *)version, type, -1, InvalidOid, COERCE_IMPLICIT_CAST);
}

/* `version OPERATOR key`, or null where the operator family has no such operator. */
static Expr *make_bound(Oid family, Node *version, Oid type, StrategyNumber strategy, Expr *key)
{
    Oid operator = get_opfamily_member(family, type, BYTEAOID, (int16)strategy);
    return OidIsValid(operator) ? make_opclause(operator, BOOLOID, false, (Expr *)version, key, InvalidOid, InvalidOid) : NULL;
}

static Expr *make_key(Bytes key)
{
    return (Expr *)makeConst(BYTEAOID, -1, InvalidOid, -1, PointerGetDatum(make_bytea(key)), false, false);
}

/* The conditions of an interval; no list where neither end has a bound, or an operator is missing. */
static List *interval_conditions(Oid family, Node *version, Oid type, KeyInterval interval)
{
    Bytes low = interval.low, high = interval.high;
    List *found = NIL;
    Expr *above = low.length == 0 ? NULL : make_bound(family, version, type, BTGreaterEqualStrategyNumber, make_key(low));
    Expr *below = high.length == 0 ? NULL : make_bound(family, version, type, BTLessStrategyNumber, make_key(high));
    if ((above == NULL && low.length != 0) || (below == NULL && high.length != 0))
        return NIL;
    if (above != NULL)
        found = lappend(found, above);
    if (below != NULL)
        found = lappend(found, below);
    return found;
}

/* A list that is known: the keys stand in the plan. Of a single interval, or none, nothing is rechecked. */
static List *constant_conditions(SupportRequestIndexCondition *request, Node *version, Oid type, const Const *list)
{
    if (list->constisnull)
        return NIL;
    Cover cover = cover_of(list_of(PG_DETOAST_DATUM_PACKED(list->constvalue)));
    request->lossy = !cover.is_exact || cover.count > 1;
    return interval_conditions(request->opfamily, version, type, ends_of_cover(&cover));
}

/* A call of the function with this name, and one or two arguments, that is in the schema of another one; NULL where another session moved the extension just
   now. */
static Expr *make_call(Oid beside, const char *name, List *arguments)
{
    Oid types[] = {exprType(linitial(arguments)), exprType(llast(arguments))}, schema = get_func_namespace(beside);
    Datum signature = PointerGetDatum(buildoidvector(types, list_length(arguments)));
    Oid function = GetSysCacheOid3(PROCNAMEARGSNSP, Anum_pg_proc_oid, CStringGetDatum(name), signature, ObjectIdGetDatum(schema));
    if (!OidIsValid(function))
        return NULL;
    return (Expr *)makeFuncExpr(function, get_func_rettype(function), arguments, InvalidOid, exprCollation(linitial(arguments)), COERCE_EXPLICIT_CALL);
}

/* `version <@ list`, or NULL in the same case. */
static Expr *make_match(Oid beside, Node *version, Node *list)
{
    Oid operator = GetSysCacheOid4(OPERNAMENSP, Anum_pg_operator_oid, CStringGetDatum("<@"), ObjectIdGetDatum(exprType(version)), ObjectIdGetDatum(exprType(list)),
                                   ObjectIdGetDatum(get_func_namespace(beside)));
    if (!OidIsValid(operator))
        return NULL;
    Expr *made = make_opclause(operator, BOOLOID, false, (Expr *)version, (Expr *)list, InvalidOid, InvalidOid);
    set_opfuncid((OpExpr *)made);
    return made;
}

/* A list that is not known yet, as in a join: the keys are found when it is. */
static List *later_conditions(Oid family, Node *version, Oid type, Node *list, Oid beside)
{
    Expr *low = make_call(beside, "pep440_cover_start", list_make1(list)), *high = make_call(beside, "pep440_cover_end", list_make1(list));
    if (low == NULL || high == NULL)
        return NIL;
    Expr *above = make_bound(family, version, type, BTGreaterEqualStrategyNumber, low);
    Expr *below = make_bound(family, version, type, BTLessStrategyNumber, high);
    return above == NULL || below == NULL ? NIL : list_make2(above, below);
}

static List *index_conditions(SupportRequestIndexCondition *request, bool version_is_first)
{
    List *arguments;
    if (request->index->relam != BTREE_AM_OID)
        return NIL;
    if (IsA(request->node, OpExpr))
        arguments = ((OpExpr *)request->node)->args;
    else if (IsA(request->node, FuncExpr))
        arguments = ((FuncExpr *)request->node)->args;
    else
        return NIL;
    if (list_length(arguments) != 2 || request->indexarg != (version_is_first ? 0 : 1))
        return NIL;
    Node *version = plain_version(list_nth(arguments, request->indexarg)), *list = list_nth(arguments, 1 - request->indexarg);
    Oid type = exprType(version);
    if (IsA(list, Const))
        return constant_conditions(request, version, type, (Const *)list);
    if (!is_pseudo_constant_for_index(request->root, list, request->index))
        return NIL;
    return later_conditions(request->opfamily, version, type, list, request->funcid);
}

static bool is_in_partitioned_table(PlannerInfo *root, const Node *version)
{
    if (root == NULL || !IsA(version, Var) || ((const Var *)version)->varlevelsup > 0 || IS_SPECIAL_VARNO(((const Var *)version)->varno))
        return false;
    const RangeTblEntry *table = rt_fetch(((const Var *)version)->varno, root->parse->rtable);
    return table->rtekind == RTE_RELATION && table->relkind == RELKIND_PARTITIONED_TABLE;
}

/* A known list beside versions of a partitioned table: with the ends of its cover, by which the planner leaves out partitions, as it does by comparisons alone. */
static Node *add_ends(SupportRequestSimplify *request, bool version_is_first)
{
    Node *version = plain_version(list_nth(request->fcall->args, version_is_first ? 0 : 1)), *list = list_nth(request->fcall->args, version_is_first ? 1 : 0);
    if (!IsA(list, Const) || ((Const *)list)->constisnull || !is_in_partitioned_table(request->root, version))
        return NULL;
    Oid type = exprType(version), family = lookup_type_cache(type, TYPECACHE_BTREE_OPFAMILY)->btree_opf;
    Cover cover = cover_of(list_of(PG_DETOAST_DATUM_PACKED(((Const *)list)->constvalue)));
    List *conditions = interval_conditions(family, version, type, ends_of_cover(&cover));
    Expr *rest = make_call(request->fcall->funcid, "pep440_version_contained_between_ends", list_make2(version, list));
    if (conditions == NIL || rest == NULL)
        return NULL;
    if (!cover.is_exact || cover.count > 1)
        conditions = lappend(conditions, rest);
    return (Node *)make_ands_explicit(copyObject(conditions));
}

static Node *support(FunctionCallInfo fcinfo, bool version_is_first)
{
    Node *asked = (Node *)PG_GETARG_POINTER(0);
    if (IsA(asked, SupportRequestSelectivity)) {
        estimate_call((SupportRequestSelectivity *)asked, version_is_first, false);
        return asked;
    }
    if (IsA(asked, SupportRequestSimplify))
        return add_ends((SupportRequestSimplify *)asked, version_is_first);
    if (!IsA(asked, SupportRequestIndexCondition))
        return NULL;
    SupportRequestIndexCondition *request = (SupportRequestIndexCondition *)asked;
    request->lossy = true;
    return (Node *)index_conditions(request, version_is_first);
}

SQL_FUNCTION(specs_contains_support, PointerGetDatum(support(fcinfo, false)));
SQL_FUNCTION(version_contained_by_support, PointerGetDatum(support(fcinfo, true)));

/* What add_ends leaves to be asked, in words of its own, for its estimate. */
PG_FUNCTION_INFO_V1(version_between_ends_support);
Datum version_between_ends_support(PG_FUNCTION_ARGS)
{
    Node *asked = (Node *)PG_GETARG_POINTER(0);
    if (!IsA(asked, SupportRequestSelectivity))
        PG_RETURN_POINTER(NULL);
    estimate_call((SupportRequestSelectivity *)asked, true, true);
    PG_RETURN_POINTER(asked);
}

/* `text <@ list` is `pep440(text) <@ list`. */
static Node *cast_text(const SupportRequestSimplify *request)
{
    Node *text = linitial(request->fcall->args), *list = lsecond(request->fcall->args);
    Expr *version = make_call(request->fcall->funcid, "pep440", list_make1(copyObject(text)));
    return version == NULL ? NULL : (Node *)make_match(request->fcall->funcid, eval_const_expressions(request->root, (Node *)version), copyObject(list));
}

PG_FUNCTION_INFO_V1(text_contained_by_support);
Datum text_contained_by_support(PG_FUNCTION_ARGS)
{
    Node *asked = (Node *)PG_GETARG_POINTER(0);
    PG_RETURN_POINTER(IsA(asked, SupportRequestSimplify) ? cast_text((SupportRequestSimplify *)asked) : NULL);
}
