#!/usr/bin/env bash
# Times programs side by side: the processor time of runs that alternate.
#
#     tools/bench.sh LOG.. -- NAME=COMMAND..
#
# A COMMAND gets the log as its last word. For each log and name stands the median of ROUNDS runs (7) in milliseconds, with the
# first name's median divided by it, and at the end the geometric mean of these ratios by name. Neither what a run prints nor its
# status is looked at.
set -euo pipefail
rounds=${ROUNDS:-7}
logs=()
while [ $# -gt 0 ] && [ "$1" != -- ]; do logs+=("$1"); shift; done
if [ ${#logs[@]} -eq 0 ] || [ $# -le 1 ]; then
    sed -n '2,4s/^# \{0,1\}//p' "$0" >&2
    exit 2
fi
shift
programs=("$@")

# The milliseconds of processor time of a command, its own and the system's.
spent() {
    local TIMEFORMAT='%3U %3S'
    { time "$@" >/dev/null 2>&1 || true; } 2>&1 | awk '{ print 1000 * ($1 + $2) }'
}

for log in "${logs[@]}"; do
    for round in $(seq 0 "$rounds"); do
        for program in "${programs[@]}"; do
            read -ra words <<<"${program#*=}"
            taken=$(spent "${words[@]}" "$log")
            # the first round only warms the cache of files
            [ "$round" = 0 ] || printf '%s\t%s\t%s\n' "$log" "${program%%=*}" "$taken"
        done
    done
done | awk -F'\t' '
    function median(times, count,    i, j, kept) {
        for (i = 2; i <= count; i++)
            for (j = i; j > 1 && times[j - 1] > times[j]; j--) { kept = times[j]; times[j] = times[j - 1]; times[j - 1] = kept }
        return count % 2 ? times[(count + 1) / 2] : (times[count / 2] + times[count / 2 + 1]) / 2
    }
    !($1 in known) { known[$1]; logs[++log_count] = $1 }
    !($2 in named) { named[$2]; names[++name_count] = $2 }
    { all[$1, $2, ++runs[$1, $2]] = $3 }
    END {
        for (l = 1; l <= log_count; l++)
            for (n = 1; n <= name_count; n++) {
                log_name = logs[l]; name = names[n]
                for (r = 1; r <= runs[log_name, name]; r++) times[r] = all[log_name, name, r]
                middle[n] = median(times, runs[log_name, name])
                if (middle[n] < 0.001) middle[n] = 0.001
                sums[n] += log(middle[1] / middle[n])
                file = log_name; sub(/.*\//, "", file)
                printf "%-20s %-10s %10.1f ms %8.2f\n", file, name, middle[n], middle[1] / middle[n]
            }
        for (n = 1; n <= name_count; n++) printf "%-20s %-10s %21.2f\n", "geometric mean", names[n], exp(sums[n] / log_count)
    }'
