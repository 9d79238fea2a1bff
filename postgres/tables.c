/* What a summary tells as rows: its answer, whose types the caller names, and what it knows. */
#include "agg_pg.h"

#include "funcapi.h"
#include "miscadmin.h"
#include "utils/builtins.h"
#include "utils/tuplestore.h"

/* Where a table in CSV is read, and whether the field that was read last is the last of its line. */
typedef struct Reader {
    char *at;
    bool line_ended;
} Reader;

/* The next field, which ends in a zero in the place of what stood behind it; the null pointer where it is null. */
static char *next_field(Reader *reader) {
    char *field = reader->at, *from = reader->at, *to = reader->at;
    if (*from == '"') {
        for (from++; *from != '\0' && (from[0] != '"' || from[1] == '"'); from++) {
            if (*from == '"') from++;
            *to++ = *from;
        }
        if (*from == '"') from++;
    } else {
        from += strcspn(from, ",\n");
        to = from;
    }
    reader->line_ended = *from != ',';
    reader->at = *from == '\0' ? from : from + 1;
    *to = '\0';
    return strcmp(field, "\\N") == 0 ? NULL : field;
}

/* The fields of a line, and how many there are, of which at most `most` are kept. */
static int next_line(Reader *reader, char **fields, int most) {
    int count = 0;
    do {
        char *field = next_field(reader);
        if (count < most) fields[count] = field;
        count++;
    } while (!reader->line_ended);
    return count;
}

/* Puts a row of fields, each read by the input function of its column's type. */
static void put_row(ReturnSetInfo *into, AttInMetadata *types, char **fields, MemoryContext row) {
    MemoryContext before = MemoryContextSwitchTo(row);
    tuplestore_puttuple(into->setResult, BuildTupleFromCStrings(types, fields));
    MemoryContextSwitchTo(before);
    MemoryContextReset(row);
}

static MemoryContext row_context(void) { return AllocSetContextCreate(CurrentMemoryContext, "row of a summary", ALLOCSET_SMALL_SIZES); }

static void check_columns(Handle *handle, int answered, int named) {
    if (answered == named) return;
    ereport(ERROR, (errcode(ERRCODE_DATATYPE_MISMATCH), errmsg("the answer does not have the columns of the column definition list"),
                    errdetail("The answer has %d, and the list %d.", answered, named),
                    errhint("Columns of the answer are: %s", asked_text(handle, agg_answer_columns))));
}

SQL_FUNCTION(pg_agg_rows) {
    ReturnSetInfo *into = (ReturnSetInfo *)fcinfo->resultinfo;
    MemoryContext outside, row;
    AttInMetadata *types;
    Handle *handle;
    Reader reader;
    char **fields;
    size_t rows = 0;
    InitMaterializedSRF(fcinfo, MAT_SRF_USE_EXPECTED_DESC);
    outside = begin_work();
    handle = given_handle(fcinfo, 0);
    reader.at = answer_text(handle, false, &rows);
    types = TupleDescGetAttInMetadata(into->setDesc);
    fields = palloc0((into->setDesc->natts + 1) * sizeof *fields);
    check_columns(handle, next_line(&reader, fields, into->setDesc->natts), into->setDesc->natts);
    row = row_context();
    for (; rows > 0; rows--) {
        CHECK_FOR_INTERRUPTS();
        next_line(&reader, fields, into->setDesc->natts);
        put_row(into, types, fields, row);
    }
    end_work(outside);
    return (Datum)0;
}

/* The words of a line `origin O upto P early N ..`, with the early numbers as an array is written. */
static void known_fields(char *line, char **fields) {
    char *upto = strstr(line, " upto "), *early = strstr(line, " early ");
    if (strncmp(line, "origin ", 7) != 0 || upto == NULL) elog(ERROR, "a line of what is known is of another form: %s", line);
    fields[0] = line + 7;
    *upto = '\0';
    fields[1] = upto + 6;
    fields[2] = "{}";
    if (early == NULL) return;
    *early = '\0';
    fields[2] = psprintf("{%s}", early + 7);
    for (char *at = fields[2]; *at != '\0'; at++) {
        if (*at == ' ') *at = ',';
    }
}

SQL_FUNCTION(pg_agg_known) {
    ReturnSetInfo *into = (ReturnSetInfo *)fcinfo->resultinfo;
    MemoryContext outside, row;
    AttInMetadata *types;
    char *line, *fields[3];
    InitMaterializedSRF(fcinfo, 0);
    outside = begin_work();
    line = asked_text(given_handle(fcinfo, 0), agg_known);
    types = TupleDescGetAttInMetadata(into->setDesc);
    row = row_context();
    while (*line != '\0') {
        char *end = line + strcspn(line, "\n");
        char *next = *end == '\0' ? end : end + 1;
        *end = '\0';
        CHECK_FOR_INTERRUPTS();
        known_fields(line, fields);
        put_row(into, types, fields, row);
        line = next;
    }
    end_work(outside);
    return (Datum)0;
}
