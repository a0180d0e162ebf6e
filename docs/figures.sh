#!/usr/bin/env bash
# Measures CPU seconds and peak memory of `sut balance` and `sutcheck` on made years and on contradictions of them, and of
# `sut edit` on small edits of these years, and prints the tables of docs/PERFORMANCE.md. Where it may set uprobes, it times
# each rebalance of these edits; where `perf` is there, it tells which crates the time of a balance goes to.
# usage: docs/figures.sh FOLDER [SEED,PRODUCTS,INDUSTRIES ..]
# FOLDER holds the two programs, or is the top of a repository that has built them.
set -eu
folder=$(cd "${1:-$(dirname "$0")/..}" && pwd)
shift || true
[ $# -gt 0 ] || set -- 1,40,20 1,128,64 1,256,128 1,512,200

program() {
    for file in "$folder/$1" "$folder/$2" "$folder/crates/$2/out/$2"; do
        [ ! -f "$file" ] || { printf '%s\n' "$file"; return; }
    done
    echo "no $1 in $folder" >&2
    exit 1
}
sut=$(program sut sut_cli)
sutcheck=$(program sutcheck sut_checker)

# Runs a command three times, each with at most 120 CPU seconds; prints the least CPU seconds, the peak megabytes, the status
# and the first line that was printed.
measured() {
    for _ in 1 2 3; do
        (ulimit -t 120 && /usr/bin/time -o "$work/used" -f '%U %S %M %x' "$@" >"$work/said" 2>&1) || true
        tail -n 1 "$work/used" | awk '{ printf "%.2f | %.0f | %d\n", $1 + $2, $3 / 1024, $4; exit $1 > 60 }' || break
    done | sort -n | head -n 1 | tr -d '\n'
    printf ' | %s' "$(head -n 1 "$work/said")"
}

# A year whose imports are held at most at their targets, and whose total of imports is one above these.
imports_too_high() {
    awk -F, -v OFS=, '
        $1 == "import" { $8 = $5; sum += $5 }
        { print }
        END { print "import_total", "", "", "", sum + 1, "", sum + 1, sum + 1 }'
}

# A year whose GDP is one above what the bounds of all final uses and imports allow.
gdp_too_high() {
    awk -F, -v OFS=, '
        $1 == "import" { $7 = $5; sum -= $5 }
        $1 == "margin" || $1 == "tax" || $1 == "basic" && $3 ~ /^F/ { $8 = $5; sum += $5 }
        { print }
        END { print "gdp", "", "", "", sum + 1, "", sum + 1, sum + 1 }'
}

# Edits of a year that balance it, and then fifteen times move the target of its first row up by 1 and balance the rows again,
# the last time at the end.
fifteen_moves() {
    awk -F, -v OFS=, '
        NR == 1 { print "edit," $0; print "balance,,,,,,,," }
        NR == 2 {
            for (k = 1; k <= 15; k++) {
                print "set", $1, $2, $3, $4, $5 + k, $6, $7, $8
                if (k < 15) print "balance,,,,,,,,"
            }
        }'
}

# The shares of the CPU time of a balance, by the crates that its functions stand in.
shares() {
    perf record -q -o "$work/perf" "$sut" balance >"$work/said" 2>&1 || return 0
    perf report -i "$work/perf" --stdio --no-children --sort symbol 2>"$work/said" |
        awk '/%/ { split($3, part, "::"); share[part[1]] += $1 } END { for (crate in share) if (share[crate] >= 1) printf "%.0f %s\n", share[crate], crate }' |
        sort -rn | awk '{ printf "%s%s %s%%", (NR > 1 ? ", " : ""), $2, $1 } END { print "" }'
}

tracing=/sys/kernel/tracing

# The milliseconds of the rebalances of `sut edit` but the first, in the mean and at worst: from the entry of `balance_over`,
# which answers them, to its return.
rebalances() {
    read -r offset address < <(readelf -lW "$sut" | awk '$1 == "LOAD" && / R E / { print $2, $3 }')
    entry=0x$(nm "$sut" | awk '/balance_over/ { print $1; exit }')
    place=$(printf '0x%x' $((entry - address + offset)))
    printf 'p:began %s:%s\nr:ended %s:%s\n' "$sut" "$place" "$sut" "$place" >"$tracing/uprobe_events"
    : >"$tracing/trace"
    echo 1 >"$tracing/events/uprobes/enable"
    "$sut" edit >"$work/said"
    echo 0 >"$tracing/events/uprobes/enable"
    awk '
        { for (i = 2; i <= NF; i++) if ($i == "began:" || $i == "ended:") { now = $(i - 1) + 0; event = $i } }
        event == "began:" { start = now }
        event == "ended:" && ++count > 1 { sum += now - start; if (now - start > worst) worst = now - start }
        { event = "" }
        END { printf "%.1f | %.1f", sum / (count - 1) * 1000, worst * 1000 }' "$tracing/trace"
    : >"$tracing/uprobe_events"
}

work=$(mktemp -d)
trap 'rm -rf "$work"' EXIT
printf '| year | rows | command | CPU s | peak MB | status | first line |\n|---|---|---|---|---|---|---|\n'
for year; do
    made=$work/$year
    mkdir -p "$made/imports" "$made/gdp"
    cd "$made"
    # shellcheck disable=SC2086
    "$sut" generate ${year//,/ } >generated.txt
    for file in settings.toml classes.csv source.csv; do
        mv "made_$file" "$file"
    done
    cp settings.toml classes.csv imports
    cp settings.toml classes.csv gdp
    imports_too_high <source.csv >imports/source.csv
    gdp_too_high <source.csv >gdp/source.csv
    rows=$(($(wc -l <source.csv) - 1))
    for name in "" imports gdp; do
        cd "$made/$name"
        for command in "$sut balance" "$sutcheck"; do
            # shellcheck disable=SC2086
            printf '| %s%s | %s | %s | %s |\n' "${year//,/ }" "${name:+, $name too high}" "$((rows + (${#name} > 0)))" \
                "$([ "$command" = "$sutcheck" ] && echo sutcheck || echo sut balance)" "$(measured $command)"
        done
    done
done
printf '\n| year | rows | sut balance, CPU s | sut edit, CPU s | peak MB | each of fifteen, ms |\n|---|---|---|---|---|---|\n'
for year; do
    cd "$work/$year"
    fifteen_moves <source.csv >edits.csv
    once=$(measured "$sut" balance)
    often=$(measured "$sut" edit)
    each=$(awk -v once="${once%% *}" -v often="${often%% *}" 'BEGIN { printf "%.1f", (often - once) / 15 * 1000 }')
    printf '| %s | %s | %s | %s | %s | %s |\n' "${year//,/ }" "$(($(wc -l <source.csv) - 1))" "${once%% *}" "${often%% *}" \
        "$(printf '%s' "$often" | cut -d '|' -f 2 | tr -d ' ')" "$each"
done
if [ -w "$tracing/uprobe_events" ] && command -v nm readelf >/dev/null; then
    printf '\n| rows | each rebalance, ms in the mean | at worst |\n|---|---|---|\n'
    for year; do
        cd "$work/$year"
        printf '| %s | %s |\n' "$(($(wc -l <source.csv) - 1))" "$(rebalances)"
    done
fi
if command -v perf >/dev/null; then
    printf '\n| year | where the time of a balance goes |\n|---|---|\n'
    for year; do
        cd "$work/$year"
        printf '| %s | %s |\n' "${year//,/ }" "$(shares)"
    done
fi
