/* The server's headers. They do not keep the warnings that this extension is built with, so none is given for them. */
#pragma GCC system_header

#include "postgres.h"

#include "access/amapi.h"
#include "access/gist.h"
#include "access/stratnum.h"
#include "catalog/pg_am_d.h"
#include "catalog/pg_class_d.h"
#include "catalog/pg_operator_d.h"
#include "catalog/pg_proc_d.h"
#include "catalog/pg_statistic.h"
#include "catalog/pg_type_d.h"
#include "common/hashfn.h"
#include "fmgr.h"
#include "funcapi.h"
#include "libpq/pqformat.h"
#include "miscadmin.h"
#include "mb/pg_wchar.h"
#include "nodes/makefuncs.h"
#include "nodes/nodeFuncs.h"
#include "nodes/pathnodes.h"
#include "nodes/supportnodes.h"
#include "optimizer/optimizer.h"
#include "parser/parsetree.h"
#include "parser/scansup.h"
#include "port/pg_bswap.h"
#include "utils/array.h"
#include "utils/builtins.h"
#include "utils/lsyscache.h"
#include "utils/memutils.h"
#include "utils/numeric.h"
#include "utils/selfuncs.h"
#include "utils/sortsupport.h"
#include "utils/syscache.h"
#include "utils/typcache.h"

/* Before PostgreSQL 16 an error of an input function is always raised, and `varatt.h` is part of `postgres.h`. */
#if PG_VERSION_NUM < 160000
#define ereturn(context, result, ...) \
    do { \
        (void)(context); \
        ereport(ERROR, __VA_ARGS__); \
    } while (0)
#else
#include "varatt.h"
#endif
