#!/bin/sh
# Counts by callgrind what calls execute, for several registers on the same input. Prints its tables in Markdown; with a
# folder as argument, `./count.sh ../docs`, they are also put into that folder's BENCHMARKS.md, at `counted` and at
# `closings`. The counts do not depend on the machine's load: two runs give the same numbers.
#
# 1. Executed instructions of the proved and of the independent register: of sets, clears, new readings, look-backs and
#    windows apart; and of all changes, which is the sum of the first three.
# 2. Instructions and data writes of the calls that close a block: by the proved register, which moves records straight
#    from slot to slot, and by the second build, crates/array_build, which takes them through an array. For the words
#    that such calls write, all writes of a shorter work are traced by lackey, another tool of valgrind.
#
# Collection is on only inside `counted_change`, `counted_look_back` and `counted_window` (--toggle-collect), through
# which bench/src/count.rs makes the calls of one kind, so inputs, start, the calls of other kinds and the program's own
# start are left out. What these functions execute around a call is counted once more with a register that does nothing,
# and taken off all others.
set -eu
case $# in
    0) docs= ;;
    1) docs=$(cd "$1" && pwd) ;;
    *) echo 'usage: count.sh [FOLDER]' >&2; exit 2 ;;
esac
cd "$(dirname "$0")"
cargo build --release --offline --quiet --package bench --features array
program=target/release/bench
folder=$(mktemp -d)
trap 'rm -rf "$folder"' EXIT
tools="$(valgrind --version), $(rustc --version | cut -d' ' -f1-2), $(rt version | cut -d' ' -f1), commit $(git rev-parse --short HEAD)."

# The instructions of one kind of call: count WHO WHAT WORK B Q. With the option --cache-sim=yes after these, the data
# writes as well. What the program printed last, how many calls they were, is then in $folder/number.
count() {
    valgrind --tool=callgrind --toggle-collect=counted_change --toggle-collect=counted_look_back \
        --toggle-collect=counted_window ${6-} \
        --callgrind-out-file="$folder/out" "$program" count "$1" "$2" "$3" "$4" "$5" >"$folder/said" 2>&1 ||
        { cat "$folder/said" >&2; exit 1; }
    grep '^[0-9]' "$folder/said" >"$folder/number"
    sed -n 's/^summary: //p' "$folder/out" | cut -d' ' -f1,3 # of Ir, Dr, Dw and misses; or Ir alone
}

# A line for each kind of call: work, b, kind, the three counts, how many calls.
counts() {
    for work in year stress; do
        for b in 8 16 64; do
            for what in sets clears readings lookbacks windows; do
                nothing=$(count nothing $what $work $b $((b / 4)))
                proved=$(count proved $what $work $b $((b / 4)))
                independent=$(count independent $what $work $b $((b / 4)))
                echo "$work $b $what $nothing $proved $independent $(cat "$folder/number")"
            done
        done
    done
}

counts_table() {
    echo "By callgrind of $tools"
    echo
    echo '| Work | b | q | Of | Proved / independent | Proved, each | Independent, each | Number |'
    echo '|---|---|---|---|---|---|---|---|'
    awk '
        function row(what, p, i, n) {
            printf "| %s | %d | %d | %s | **%.2f** | %.0f | %.0f | %d |\n", $1, $2, $2 / 4, what, p / i, p / n, i / n, n
        }
        { p = $5 - $4; i = $6 - $4; n = $7 }
        $3 == "sets" { row("sets", p, i, n); ps = p; is = i; ns = n }
        $3 == "clears" { row("clears", p, i, n); ps += p; is += i; ns += n }
        $3 == "readings" { row("new readings", p, i, n); row("all changes", ps + p, is + i, ns + n) }
        $3 == "lookbacks" { row("look-backs", p, i, n) }
        $3 == "windows" { row("windows", p, i, n) }
    ' "$folder/counts"
}

# A line for each setting: work, b, q; instructions and data writes by nothing, straight and through the array; how many
# calls, closings, records moved, and words of the store by the rule.
closings() {
    for work in year stress; do
        for setting in '8 2' '16 4' '64 16' '64 32'; do
            nothing=$(count nothing closings $work $setting --cache-sim=yes)
            straight=$(count proved closings $work $setting --cache-sim=yes)
            array=$(count array closings $work $setting --cache-sim=yes)
            echo "$work $setting $nothing $straight $array $(cat "$folder/number")"
        done
    done
}

# Words written while calls run that close a block, in the store and elsewhere: written WHO B Q. The program tells where
# the store is, and a word that it writes right before and right after each such call. Its last line is kept as above.
written() {
    valgrind --tool=lackey --trace-mem=yes --log-fd=1 "$program" count "$1" closings days "$2" "$3" |
        LC_ALL=C awk -v number="$folder/number" '
            # Addresses are compared as strings of one length: 004e1000 is not a number with an exponent.
            function wide(address) { return sprintf("%16s", address) }
            $1 == "lent" { first = wide($2); after = wide($3); mark = wide($4) }
            /^[0-9]+ [0-9]+ [0-9]+ [0-9]+$/ { print >number; ended = 1 }
            $1 != "S" && $1 != "M" { next }
            # Address and bytes of a write (S), or of a word read and written (M).
            { split($2, at, ","); where = wide(at[1]) }
            where == mark { inside = !inside; next }
            inside && first <= where && where < after { store += at[2] / 4; next }
            inside { elsewhere += at[2] / 4 }
            END { if (!ended) exit 1; print store + 0, elsewhere + 0 }
        '
}

# A line for each setting: b, q; words of the store and elsewhere by nothing, straight and through the array; the rest as
# above.
writings() {
    for setting in '8 2' '16 4' '64 32'; do
        nothing=$(written nothing $setting)
        straight=$(written proved $setting)
        array=$(written array $setting)
        echo "$setting $nothing $straight $array $(cat "$folder/number")"
    done
}

closings_tables() {
    echo "By callgrind and lackey of $tools"
    echo
    echo '### Closings: instructions and data writes'
    echo
    printf '| Work | b | q | Closings | Records, each | Instructions, straight | array | ratio |'
    echo ' Data writes, straight | array | ratio |'
    echo '|---|---|---|---|---|---|---|---|---|---|---|'
    awk '
        function pair(straight, array) { printf " %.0f | %.0f | **%.2f** |", straight / n, array / n, array / straight }
        { n = $11; printf "| %s | %d | %d | %d | %.2f |", $1, $2, $3, n, $12 / n }
        { pair($6 - $4, $8 - $4); pair($7 - $5, $9 - $5); printf "\n" }
    ' "$folder/closings"
    echo
    echo '### Closings: words written'
    echo
    printf '| b | q | Closings | Records, each | Of the closing, by the rule |'
    echo ' Store, straight | array | Elsewhere, straight | array |'
    echo '|---|---|---|---|---|---|---|---|---|'
    awk '
        function pair(straight, array) { printf " %.1f | %.1f |", straight / n, array / n }
        { n = $10; printf "| %d | %d | %d | %.2f | %.1f |", $1, $2, n, $11 / n, $12 / n }
        { pair($5 - $3, $7 - $3); pair($6 - $4, $8 - $4); printf "\n" }
    ' "$folder/writings"
}

counts >"$folder/counts"
counts_table >"$folder/counted"
closings >"$folder/closings"
writings >"$folder/writings"
closings_tables >"$folder/closed"
cat "$folder/counted"
echo
cat "$folder/closed"
[ -z "$docs" ] || "$program" put counted "$docs" <"$folder/counted"
[ -z "$docs" ] || "$program" put closings "$docs" <"$folder/closed"
