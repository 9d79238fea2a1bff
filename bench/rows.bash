# shellcheck shell=bash
# The rows of bench/run, bench/growth, bench/profile and bench/instructions, which read this file, the scripts that feed them, how a program is
# timed, and what its functions do.

root=$(cd "$(dirname "${BASH_SOURCE[0]}")/.." && pwd)
program=${PROGRAM:-$root/crates/agg_tool/out/agg_tool}

fail() {
    echo "bench/${0##*/}: $1" >&2
    exit 1
}

# Proves and builds the program, unless PROGRAM names another executable.
need_program() {
    if [ -z "${PROGRAM:-}" ]; then
        AGG_TOOL=proved "$root/bin/agg_tool" --version > /dev/null || fail "agg_tool could not be built"
    fi
    program=$(realpath "$program")
    [ -x "$program" ] || fail "there is no program $program"
    [ -x /usr/bin/time ] || fail "GNU time is missing"
}

# The processors, and how many processes wanted one in the last minute: what is measured while that is not near 0 tells little.
print_machine() {
    local model
    model=$(sed -n 's/^model name[^:]*: //p' /proc/cpuinfo | head -n 1)
    echo "$(nproc) processors, ${model:-of an unknown model}; $(cut -d ' ' -f 1 /proc/loadavg) processes ran or waited"
}

# grouped NUMBER: its digits in threes.
grouped() {
    sed -E ':more; s/([0-9])([0-9]{3})($|,)/\1,\2\3/; t more' <<< "$1"
}

# Numbers at random for awk, the same in each run: 0 and more, and below a number.
draw='function draw(below) {
    seed = seed * 16807 % 2147483647
    return seed % below
}
BEGIN { seed = 20240229 }'

# make_pairs ROWS KEYS: a key and a number a row, in an order that is always the same: each key once, and then keys at random.
make_pairs() {
    awk -v rows="$1" -v keys="$2" "$draw"'
        BEGIN {
            for (i = 0; i < rows; i++) {
                key = draw(keys)
                printf "k%06d,%d\n", i < keys ? i * 7919 % keys : key, draw(2000001) - 1000000
            }
        }'
}

# make_sales ROWS: a town of 100, an item of 100, a number and a price a row.
make_sales() {
    awk -v rows="$1" "$draw"'
        BEGIN {
            for (i = 0; i < rows; i++)
                printf "town%02d,item%02d,%d,%d\n", draw(100), draw(100), draw(2001) - 1000, draw(1000000)
        }'
}

# make_script ROWS BATCH ORIGINS: a script of rows.csv that feeds so many rows in batches of so many, of each origin in turn, and asks
# for the answer once.
make_script() {
    # shellcheck disable=SC2154 # Who reads this file says what columns and query are.
    printf '%s\n' "columns,\"$columns\"" "query,\"$query\"" replica,a
    awk -v rows="$1" -v batch="$2" -v origins="$3" '
        (NR - 1) % batch == 0 {
            left = rows - NR + 1
            printf "feed,a,%d,%d,%d\n", fed % origins, int(fed / origins) + 1, left < batch ? left : batch
            fed++
        }
        { print }
        END { print "answer,a" }' rows.csv
}

# timed NAME INPUT COMMAND..: NAME.out is what it writes, and NAME.times gets its seconds, its processor seconds in the program and in
# the system, and its greatest memory in KiB.
timed() {
    local name=$1 input=$2
    shift 2
    /usr/bin/time -f '%e %U %S %M' -a -o "$name.times" "$@" < "$input" > "$name.out" 2> "$name.err" ||
        fail "$name ended with status $?: $(tail -n 1 "$name.err")"
}

# A kind of work a line, and what the names of its functions have in them: the first line that fits counts.
# shellcheck disable=SC2034 # bench/profile and bench/instructions read it.
kinds='taking and giving back memory	\] _*(int_)?(malloc|free|realloc|calloc)|unlink_chunk|sysmalloc|systrim
moving bytes	memmove|memcpy|memset|extend_from_slice
the system, page faults above all	\[k\]
finding places among groups that stand, and merging into them	group_runs|origin_prefix|replica_merge|group_answers|skip_groups
sorting and comparing keys	sort|core::cmp
the table of new groups	hash_agg|group_table|context_tree|chunk_contexts|chunk_layout|block_memory|spill_
reading CSV, UTF-8 and numbers	csv|script_|batch_reader|slice::scan|slice::words|core::str
packing rows, and unpacking them	packed_rows
states of aggregates	agg_library|agg_protocol|byteorder
printing	table_print|itoa
other	.'
