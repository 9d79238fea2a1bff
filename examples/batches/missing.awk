#!/usr/bin/awk -f
# Lists the missing batches below early ones, as ORIGIN-NUMBER, one a line. Installed it is agg_missing.
#
#     agg_tool known SUMMARY | awk -f missing.awk
#     missing.awk SUMMARY                            runs agg_tool itself, or the program of PROGRAM
#
# Its input has lines `origin O upto P early N N ..`. The status is 0, or that of agg_tool, or 2 if the input is something else.

# Says why there is no list, and ends.
function fail(said, status) {
    print "agg_missing: " said | "cat >&2"
    close("cat >&2")
    failed = 1
    exit status
}

# The command that lists what the summary of a path knows, and then its status.
function command_of(path) {
    gsub(/'/, "'\\''", path)
    return (ENVIRON["PROGRAM"] ? ENVIRON["PROGRAM"] : "agg_tool") " known '" path "'; echo status $?"
}

# Lists what is missing by the fields of a line.
function list(fields, count,    number, field) {
    if (fields[1] != "origin" || fields[3] != "upto") {
        fail("expected the output of 'agg_tool known SUMMARY', found: " fields[1] " " fields[2], 2)
    }
    number = fields[4] + 1
    for (field = 6; field <= count; field++) {
        for (; number < fields[field]; number++) {
            print fields[2] "-" number
        }
        number = fields[field] + 1
    }
}

BEGIN {
    if (ARGC == 1) {
        # The lines of standard input follow.
    } else if (ARGC > 2 || ARGV[1] ~ /^-/) {
        fail("usage: agg_missing [SUMMARY]", 2)
    } else {
        command = command_of(ARGV[1])
        while ((command | getline line) > 0) {
            count = split(line, fields, " ")
            if (fields[1] == "status" || fields[1] == "refused") {
                status = fields[2]
            } else {
                list(fields, count)
            }
        }
        exit status
    }
}

{
    count = split($0, fields, " ")
    list(fields, count)
}
