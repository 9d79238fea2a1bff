/* For bin/try_databases: a module of somebody else, which has functions of names that the extension agg uses inside of itself. */
#include "postgres.h"

#include "fmgr.h"

PG_MODULE_MAGIC;

#if PG_VERSION_NUM >= 160000
#define SHOWN PGDLLEXPORT
#else
#define SHOWN
#endif

extern SHOWN void *new_handle(void *context);
extern SHOWN void *loaded_handle(void *context, void *file);
extern SHOWN int64 open_handles(void);

void *new_handle(void *context) { return NULL; }
void *loaded_handle(void *context, void *file) { return NULL; }
int64 open_handles(void) { return 4711; }

extern PGDLLEXPORT Datum foreign_open_handles(PG_FUNCTION_ARGS);
PG_FUNCTION_INFO_V1(foreign_open_handles);
Datum foreign_open_handles(PG_FUNCTION_ARGS) { PG_RETURN_INT64(open_handles()); }
