# Reads the rows of all runs, those of the proved program first, and prints the table. Fails where a checksum differs.
function least(times, row, time) {
    if (!(row in times) || time < times[row]) {
        times[row] = time
    }
}

$1 == "total" {
    next
}

{
    row = sprintf("%-6s %-6s %2d %-5s", $1, $2, $3, $4)
    if (!(row in sums)) {
        rows[n++] = row
        sums[row] = $5
    } else if (sums[row] != $5) {
        print "checksums differ: " row
        bad = 1
    }
    if (FILENAME ~ /proved\.rows$/) {
        least(proved, row, $6)
    } else {
        least(model, row, $6)
        if (NF > 6) {
            least(copy, row, $7)
        }
    }
}

END {
    print "row                      proved ns   model ns   proved/model   copy ns   proved/copy"
    for (i = 0; i < n; i++) {
        row = rows[i]
        printf "%s   %9.1f  %9.1f   %12.2f", row, proved[row] / 1000, model[row] / 1000, proved[row] / model[row]
        if (row in copy) {
            printf "  %8.1f  %12.2f", copy[row] / 1000, proved[row] / copy[row]
        }
        printf "\n"
    }
    exit bad
}
