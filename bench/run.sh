#!/usr/bin/env bash
# Times the built program: `export` beside a plain converter on AMPL's own library (asl2mps.c, which is built here where
# Debian's libamplsolver-dev is there) and of nested trees and other forms beside smaller ones, `mps`, which reads and writes, beside clp,
# which reads alone (coinor-clp), of texts in another manner (CR LF, blanks, comments, fixed columns) beside the plain ones,
# `verify_mps` beside `verify` of the same program as .nl, and `verify` of large certificates.
#
#     [TERMS="1000000 2000000 4000000"] [RUNS=5] bench/run.sh PROGRAM [BASELINE]
#
# PROGRAM is the built `bridge`, BASELINE an asl2mps that is built already. Each time is the processor time, user and
# system, of the best of RUNS runs, commands in turn; a ratio is printed beside asl2mps and clp alone. The floor (floor.c)
# is a program in C of one pass that writes the same bytes without checks: no converter is much faster. That of `verify_mps`
# (rows.c) reads both texts to the terms of their rows, and its ratio stands beside. The first number of
# TERMS is also that of lists in C and of defined variables, which asl2mps refuses: they stand beside J terms.
set -eu
if [ "${1:-}" = -h ] || [ "${1:-}" = --help ]; then
    sed -n '2,/^set/{/^set/d;s/^# \{0,1\}//;p}' "$0"
    exit 0
fi
here=$(cd "$(dirname "$0")" && pwd)
program=$(realpath "$1")
work=$(mktemp -d)
trap 'rm -rf "$work"' EXIT
export RUNS=${RUNS:-5}
read -ra sizes <<<"${TERMS:-1000000 2000000 4000000}"

headers=/usr/include/ampl-netlib-solvers
baseline=
if [ -n "${2:-}" ]; then
    baseline=$(realpath "$2")
elif [ -f "$headers/asl.h" ] && cc -O2 -w -I"$headers" "$here/asl2mps.c" -o "$work/asl2mps" -lamplsolver -lm -ldl; then
    baseline=$work/asl2mps
else
    echo "no baseline: Debian's libamplsolver-dev is not there, or asl2mps.c is not built over it; no ratio of export is printed"
fi
floor=$work/floor
cc -O2 -w "$here/floor.c" -o "$floor"
cc -O2 -w "$here/rows.c" -o "$work/rows"
clp=$(command -v clp || true)
[ -n "$clp" ] || echo "no clp (Debian's coinor-clp): no ratio of mps is printed"

# measure STATUS WORDS.. [::: STATUS WORDS..]..: of each command the least processor time in seconds and the greatest
# peak in kilobytes. The commands run in turn, so that a busy moment of the machine meets all of them.
measure() {
    python3 - "$@" <<'P'
import os, subprocess, sys
commands, best, peak = [[]], {}, {}
for word in sys.argv[1:]:
    commands.append([]) if word == ":::" else commands[-1].append(word)
for _ in range(int(os.environ["RUNS"])):
    for i, (wanted, *words) in enumerate(commands):
        child = subprocess.Popen(words, stdin=subprocess.DEVNULL, stdout=subprocess.DEVNULL, stderr=subprocess.DEVNULL)
        _, status, usage = os.wait4(child.pid, 0)
        if os.waitstatus_to_exitcode(status) != int(wanted):
            sys.exit(f"{' '.join(words)} ended with {os.waitstatus_to_exitcode(status)}, not {wanted}")
        took = usage.ru_utime + usage.ru_stime
        best[i] = min(best.get(i, took), took)
        peak[i] = max(peak.get(i, 0), usage.ru_maxrss)
print(*(f"{best[i]:.3f} {peak[i]}" for i in best))
P
}

ratio() { python3 -c "print(f'{$1 / max($2, 0.001):.2f}')"; }
bytes_each() { echo $(($1 * 1024 / $2)); }

# The .nl text of so many terms, in a form of generate.py: ten a row; wide: as many rows and columns as terms.
nl_text() {
    local rows=$(($1 / 10)) text=$work/$1.$2.nl
    if [ -f "$text" ]; then
        :
    elif [ "$2" = wide ]; then
        python3 "$here/generate.py" rows "$text" "$1" "$1" 1 linear
    else
        python3 "$here/generate.py" rows "$text" $((rows < 100000 ? rows : 100000)) "$rows" 10 "$2"
    fi
    echo "$text"
}

# beside_baseline TERMS FORM: a line of `export` beside asl2mps and the floor.
beside_baseline() {
    local text seconds peak reading beside other least part=- bottom=-
    text=$(nl_text "$1" "$2")
    local words=(0 "$program" export "$text" ::: 2 "$program" export "$text" 1 ::: 0 "$floor" "$text")
    [ -z "$baseline" ] || words+=(::: 0 "$baseline" "$text")
    read -r seconds peak reading _ least _ beside other <<<"$(measure "${words[@]}")"
    if [ -n "$baseline" ]; then
        part=$(ratio "$seconds" "$beside") bottom=$(ratio "$least" "$beside") other=$(bytes_each "$other" "$1")
    fi
    printf '%9s %8s %8s %8s %8s %8s %6s %6s %13s %17s\n' "$1" "$2" "$seconds" "$reading" "$least" "${beside:--}" "$part" "$bottom" \
        "$(bytes_each "$peak" "$1")" "${other:--}"
}

echo "export: processor seconds, best of $RUNS runs; reading is export of an objective that the text has not"
printf '%9s %8s %8s %8s %8s %8s %6s %6s %13s %17s\n' terms form export reading floor asl2mps ratio "floor's" "bytes a term" \
    "asl2mps' bytes"
for size in "${sizes[@]}"; do
    beside_baseline "$size" linear
done
beside_baseline "${sizes[0]}" wide
for form in list defined; do
    text=$(nl_text "${sizes[0]}" "$form")
    plain=$(nl_text "${sizes[0]}" linear)
    times=$(measure 0 "$program" export "$text" ::: 2 "$program" export "$text" 1 ::: 0 "$program" export "$plain")
    read -r seconds peak reading _ beside _ <<<"$times"
    printf '%9s %8s %8s %8s %8s %8s %6s %6s %13s   %s times our own J terms\n' "${sizes[0]}" "$form" "$seconds" "$reading" - - - - "$(bytes_each "$peak" "${sizes[0]}")" "$(ratio "$seconds" "$beside")"
done

echo
echo "export of other forms (of generate.py), beside a tenth of the terms, and beside J terms or a row that ascends"
printf '%9s %12s %8s %8s %6s %8s %13s\n' terms form export tenth times "of ours" "bytes a term"
other_form() {
    local times seconds peak tenth beside
    times=$(measure 0 "$program" export "$2" ::: 0 "$program" export "$3" ::: 0 "$program" export "$4")
    read -r seconds peak tenth _ beside _ <<<"$times"
    printf '%9s %12s %8s %8s %6s %8s %13s\n' "${sizes[0]}" "$1" "$seconds" "$tenth" "$(ratio "$seconds" "$tenth")" \
        "$(ratio "$seconds" "$beside")" "$(bytes_each "$peak" "${sizes[0]}")"
}
for form in linear wide exponents list quotients defined; do
    other_form "$form" "$(nl_text "${sizes[0]}" "$form")" "$(nl_text $((sizes[0] / 10)) "$form")" "$(nl_text "${sizes[0]}" linear)"
done
for order in ascending descending mixed; do
    python3 "$here/generate.py" row "$work/$order.nl" "${sizes[0]}" "$order"
    python3 "$here/generate.py" row "$work/tenth.nl" $((sizes[0] / 10)) "$order"
    other_form "$order" "$work/$order.nl" "$work/tenth.nl" "$work/ascending.nl"
done

echo
echo "check and return of rows of one term"
printf '%9s %8s %8s %12s\n' rows command seconds "bytes a row"
rows=$((sizes[0] / 10))
printf 'answer 1\n' >"$work/answer"
{ printf '\nOptions\n0\n'; printf '%s\n' "$rows" "$rows" "$rows" "$rows"; yes 0 | head -n $((rows * 2)); echo "objno 0 0"; } >"$work/zero.sol"
text=$(nl_text "$rows" wide)
read -r seconds peak other more <<<"$(measure 1 "$program" check "$text" "$work/zero.sol" ::: 0 "$program" return "$text" "$work/answer")"
printf '%9s %8s %8s %12s\n' "$rows" check "$seconds" "$(bytes_each "$peak" "$rows")" "$rows" return "$other" "$(bytes_each "$more" "$rows")"

echo
echo "export of one row that is a nested tree (of generate.py), beside a quarter of its size: more than 4.5 times is a defect, but for"
echo "spine, whose sides are large; factors that cancel, of a fortieth of the size, are quadratic"
printf '%9s %12s %8s %8s %6s %17s\n' variables shape export quarter times "bytes a variable"
for shape in right left products differences negations negatives lists balanced spine factors; do
    count=$([ "$shape" = factors ] && echo 4000 || echo 160000)
    python3 "$here/generate.py" nested "$work/nested.nl" "$count" "$shape"
    python3 "$here/generate.py" nested "$work/quarter.nl" $((count / 4)) "$shape"
    times=$(measure 0 "$program" export "$work/nested.nl" ::: 0 "$program" export "$work/quarter.nl")
    read -r seconds peak quarter _ <<<"$times"
    printf '%9s %12s %8s %8s %6s %17s\n' "$count" "$shape" "$seconds" "$quarter" "$(ratio "$seconds" "$quarter")" "$(bytes_each "$peak" "$count")"
done

echo
echo "mps: read and written; clp reads alone; nl: the .nl text read and written"
printf '%9s %8s %8s %6s %14s %8s\n' terms mps clp ratio "bytes an entry" nl
for size in "${sizes[@]}"; do
    text=$(nl_text "$size" linear)
    "$program" export "$text" | sed '1s/$/ FREE/' >"$work/$size.mps"
    words=(0 "$program" mps "$work/$size.mps" ::: 0 "$program" nl "$text")
    [ -z "$clp" ] || words+=(::: 0 "$clp" "$work/$size.mps" -quit)
    times=$(measure "${words[@]}")
    read -r seconds peak nl _ beside _ <<<"$times"
    part=-
    [ -z "$clp" ] || part=$(ratio "$seconds" "$beside")
    printf '%9s %8s %8s %6s %14s %8s\n' "$size" "$seconds" "${beside:--}" "$part" "$(bytes_each "$peak" "$size")" "$nl"
done

echo
echo "mps by names, beside a tenth of the entries"
printf '%9s %9s %8s %8s %6s %8s %6s\n' entries names mps tenth times clp ratio
for names in numbered short long; do
    python3 "$here/generate.py" mps "$work/names.mps" "${sizes[0]}" "$names"
    python3 "$here/generate.py" mps "$work/tenth.mps" $((sizes[0] / 10)) "$names"
    words=(0 "$program" mps "$work/names.mps" ::: 0 "$program" mps "$work/tenth.mps")
    [ -z "$clp" ] || words+=(::: 0 "$clp" "$work/names.mps" -quit)
    read -r seconds _ tenth _ beside _ <<<"$(measure "${words[@]}")"
    part=-
    [ -z "$clp" ] || part=$(ratio "$seconds" "$beside")
    printf '%9s %9s %8s %8s %6s %8s %6s\n' "${sizes[0]}" "$names" "$seconds" "$tenth" "$(ratio "$seconds" "$tenth")" "${beside:--}" "$part"
done

echo
echo "mps by the length of names, numbered ones that are padded to it, beside 7 bytes"
printf '%9s %9s %8s %8s %6s %14s\n' entries names mps "of 7" times "bytes an entry"
for order in ordered mixed; do
    python3 "$here/generate.py" mps "$work/seven.mps" "${sizes[0]}" "${order}7"
    for length in 8 16; do
        python3 "$here/generate.py" mps "$work/names.mps" "${sizes[0]}" "$order$length"
        times=$(measure 0 "$program" mps "$work/names.mps" ::: 0 "$program" mps "$work/seven.mps")
        read -r seconds peak beside _ <<<"$times"
        printf '%9s %9s %8s %8s %6s %14s\n' "${sizes[0]}" "$order$length" "$seconds" "$beside" "$(ratio "$seconds" "$beside")" \
            "$(bytes_each "$peak" "${sizes[0]}")"
    done
done

echo
echo "texts written in another manner (of generate.py), beside the plain one: export of rows of ten terms, mps of names of 8 bytes"
printf '%9s %8s %9s %8s %8s %6s\n' terms command manner seconds plain times
python3 "$here/generate.py" mps "$work/plain.mps" "${sizes[0]}" ordered8
in_manner() {
    local command=$1 plain=$2 manner=$3 other=$1
    [ "$manner" != fixed ] || other=fixed
    python3 "$here/generate.py" written "$work/manner" "$plain" "$manner"
    times=$(measure 0 "$program" "$other" "$work/manner" ::: 0 "$program" "$command" "$plain")
    read -r seconds _ beside _ <<<"$times"
    printf '%9s %8s %9s %8s %8s %6s\n' "${sizes[0]}" "$other" "$manner" "$seconds" "$beside" "$(ratio "$seconds" "$beside")"
}
for manner in crlf trailing comments padded tabs empty remarks digits; do
    in_manner export "$(nl_text "${sizes[0]}" linear)" "$manner"
done
for manner in crlf trailing tabs empty digits fixed; do
    in_manner mps "$work/plain.mps" "$manner"
done

echo
echo "verify_mps beside verify of the same program as .nl: that the point 0 is feasible"
printf '%9s %10s %8s %6s %8s %14s %13s\n' terms verify_mps verify ratio "floor's" "bytes an entry" "verify: bytes"
printf 'certificate 1\nfeasible 0\npoint 0\n' >"$work/feasible.certificate"
for size in "${sizes[@]}"; do
    text=$(nl_text "$size" linear)
    "$program" export "$text" >"$work/$size.mps"
    words=(0 "$program" verify_mps "$work/$size.mps" "$work/feasible.certificate")
    words+=(::: 0 "$program" verify "$text" "$work/feasible.certificate")
    words+=(::: 0 "$work/rows" "$work/$size.mps" ::: 0 "$work/rows" "$text")
    read -r seconds peak beside other least _ bottom _ <<<"$(measure "${words[@]}")"
    printf '%9s %10s %8s %6s %8s %14s %13s\n' "$size" "$seconds" "$beside" "$(ratio "$seconds" "$beside")" \
        "$(ratio "$least" "$bottom")" "$(bytes_each "$peak" "$size")" "$(bytes_each "$other" "$size")"
done

echo
echo "verify: trees of splits with 2^18 and 2^20 leaves of three rows, chains of planes, on 1,000 rows and variables"
printf '%16s %8s %14s %15s\n' certificate verify "bytes of text" "peak, kilobytes"
for made in "leaves 18" "leaves 20" "planes 16384" "planes 65535"; do
    read -r kind size <<<"$made"
    python3 "$here/generate.py" "$kind" "$work" "$size"
    read -r seconds peak <<<"$(measure 0 "$program" verify "$work/$kind.nl" "$work/$kind.certificate")"
    printf '%16s %8s %14s %15s\n' "$made" "$seconds" "$(stat -c %s "$work/$kind.certificate")" "$peak"
done
