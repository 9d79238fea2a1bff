# shellcheck shell=bash
# The programs that bench/run compares: what each is given for each shape of rows. bench/run says what columns and query are.
#
# commands has what the shell runs for a program, with inputs as its standard input; a program that a shape has no command for is not
# asked. Each writes its answer as lines of comma-separated values.
# shellcheck disable=SC2154,SC2034,SC2016 # bench/run gives columns and query and reads commands; the programs of others have a $ of their own.

declare -A commands inputs labels=(
    [agg_tool]='`agg_tool`' [clickhouse]='ClickHouse, one thread' [datamash]='datamash, which sorts with several processors'
    [awk]='awk and sort' [data.table]='data.table, one thread' [sqlite3]=sqlite3 [postgresql]='PostgreSQL, COPY and GROUP BY' [pandas]=pandas
    [mlr]=Miller
)

# Which programs there are, in the order of the table; the servers are started.
find_peers() {
    names=(agg_tool)
    start_clickhouse
    [ -z "${clickhouse_pid:-}" ] || names+=(clickhouse)
    ! installed datamash datamash || names+=(datamash)
    awk='awk'
    ! command -v mawk > /dev/null || awk=mawk
    labels[awk]="$awk and sort"
    names+=(awk)
    ! installed data.table Rscript --vanilla -e 'library(data.table)' || names+=(data.table)
    ! installed sqlite3 sqlite3 || names+=(sqlite3)
    start_postgresql
    [ -z "${postgresql:-}" ] || names+=(postgresql)
    python=$(command -v /usr/bin/python3 python3 | head -n 1)
    ! installed pandas "${python:-python3}" -c 'import pandas' || names+=(pandas)
    ! installed Miller mlr || names+=(mlr)
}

# installed NAME COMMAND..: whether the command is there, and works where it has words.
installed() {
    if ! command -v "$2" > /dev/null || { [ $# -gt 2 ] && ! "${@:2}" > /dev/null 2>&1; }; then
        pass_over "$1" "it is not installed"
        return 1
    fi
}

# What does not depend on the shape, or by its query alone.
give_query() {
    commands=() inputs=()
    commands[agg_tool]="exec '$program' script"
    inputs[agg_tool]=rows.script
    printf '%s\n' "create table batches ($columns);" '.import --csv rows.csv batches' "$query;" > sqlite3.sql
    commands[sqlite3]='exec sqlite3 -list -separator , :memory:'
    inputs[sqlite3]=sqlite3.sql
    commands[data.table]='exec Rscript --vanilla peer.R'
    commands[pandas]="exec '$python' peer.py"
    commands[awk]="$awk -F, -f peer.awk rows.csv | sort"
    give_postgresql
    give_clickhouse
}

# The memory of the process that works for the client is written beside what the client takes.
give_postgresql() {
    cat > postgresql.sql << TEXT
SELECT pg_backend_pid() AS backend \gset
\setenv BACKEND :backend
DROP TABLE IF EXISTS batches;
CREATE UNLOGGED TABLE batches (${columns//text/text COLLATE \"C\"});
\copy batches FROM rows.csv WITH (FORMAT csv)
$query$by_key;
\! awk '/^VmHWM/ { print \$2 }' /proc/\$BACKEND/status >> postgresql.server
TEXT
    commands[postgresql]="exec psql -h '${postgresql:-}' -U bench -d postgres -X -q -A -t -F , -v ON_ERROR_STOP=1 -f -"
    inputs[postgresql]=postgresql.sql
}

# ClickHouse 18 has no FILTER.
give_clickhouse() {
    local structure=${columns//text/String} asked=$query$by_key
    asked=${asked/'count(*) FILTER (WHERE price >= 500000)'/'countIf(price >= 500000)'}
    printf '%s FORMAT CSV\n' "$asked" > clickhouse.sql
    commands[clickhouse]="clickhouse-client --port ${clickhouse_port:-0} --external --file=- --name=batches --format=CSV"
    commands[clickhouse]+=" --structure='${structure//bigint/Int64}' -q \"\$(cat clickhouse.sql)\""
    commands[clickhouse]+=" && awk '/^VmHWM/ { print \$2 }' /proc/${clickhouse_pid:-0}/status >> clickhouse.server"
}

# Counts and sums of each key.
give_sums() {
    commands[datamash]='exec datamash -t, -s -g1 count 2 sum 2'
    commands[mlr]='exec mlr --csv -N stats1 -a count,sum -f 2 -g 1'
    cat > peer.awk << 'TEXT'
{ count[$1]++; sum[$1] += $2 }
END { for (key in count) printf "%s,%d,%.0f\n", key, count[key], sum[key] }
TEXT
    cat > peer.R << 'TEXT'
suppressMessages(library(data.table))
setDTthreads(1)
rows <- fread("rows.csv", header = FALSE)
fwrite(rows[, .(.N, sum(as.numeric(V2))), keyby = V1], "/dev/stdout", col.names = FALSE, scipen = 50L)
TEXT
    cat > peer.py << 'TEXT'
import sys, pandas
rows = pandas.read_csv("rows.csv", header=None)
rows.groupby(0)[1].agg(["size", "sum"]).to_csv(sys.stdout, header=False)
TEXT
}

# The same by falling sums, and by rising keys where these are equal.
give_ordered() {
    give_sums
    commands[awk]="$awk -F, -f peer.awk rows.csv"
    for name in awk datamash mlr; do
        commands[$name]="${commands[$name]#exec } | sort -t, -k3,3nr -k1,1"
    done
    sed -i 's/^fwrite(\(.*\), keyby = V1\]/fwrite(\1, by = V1][order(-V2, V1)]/' peer.R
    sed -i 's/\.to_csv/.sort_values(["sum", 0], ascending=[False, True])&/' peer.py
}

# WHERE, FILTER, min and max over two keys. datamash has no WHERE.
give_extremes() {
    commands[mlr]="exec mlr --csv -N filter '\$3 > 0' then put '\$5 = \$4 >= 500000 ? 1 : 0'"
    commands[mlr]+=' then stats1 -a sum,min,max -f 5,4 -g 1,2 then cut -o -f 1,2,5_sum,4_min,4_max'
    cat > peer.awk << 'TEXT'
$3 > 0 {
    key = $1 FS $2
    dear[key] += $4 >= 500000
    if (!(key in most)) least[key] = most[key] = $4
    if ($4 < least[key]) least[key] = $4
    if ($4 > most[key]) most[key] = $4
}
END { for (key in dear) printf "%s,%d,%d,%d\n", key, dear[key], least[key], most[key] }
TEXT
    cat > peer.R << 'TEXT'
suppressMessages(library(data.table))
setDTthreads(1)
rows <- fread("rows.csv", header = FALSE)
fwrite(rows[V3 > 0, .(sum(V4 >= 500000), min(V4), max(V4)), keyby = .(V1, V2)], "/dev/stdout", col.names = FALSE)
TEXT
    cat > peer.py << 'TEXT'
import sys, pandas
rows = pandas.read_csv("rows.csv", header=None)
rows = rows[rows[2] > 0].assign(dear=rows[3] >= 500000)
rows.groupby([0, 1]).agg(dear=("dear", "sum"), least=(3, "min"), most=(3, "max")).to_csv(sys.stdout, header=False)
TEXT
}
