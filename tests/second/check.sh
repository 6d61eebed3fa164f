#!/bin/sh
# Builds the second replay into a temporary folder and tests it; under a minute. Usage: check.sh [SEEDS [COUNT]]
set -eu
here=$(cd "$(dirname "$0")" && pwd)
seeds=${1:-3}
count=${2:-4000}
work=$(mktemp -d)
trap 'rm -rf "$work"' EXIT
export ASAN_OPTIONS=detect_leaks=0 # that search takes seconds for each run; one run below has it
logs="python3 $here/../logs.py"
fail() { echo "FAILED: $*"; exit 1; }

cd "$here"
flags="-std=c11 -Wall -Wextra -Wpedantic -Wconversion -Wshadow -Werror"
sanitize="-g -O1 -fsanitize=address,undefined -fno-sanitize-recover=all"
kernel="replay.c rules.c notes.c undo.c tables.c images.c"
program="main.c both.c stored.c $kernel"
gcc $flags -O2 -o "$work/second" $program
gcc $flags -O2 -DNDEBUG -o "$work/quick" $program
gcc $flags $sanitize -o "$work/careful" $program
gcc $flags $sanitize -o "$work/unit" unit.c unit_flags.c unit_images.c $kernel
echo "built plain, quick (no asserts) and careful (sanitizers)"

"$work/unit" || fail unit

$logs samples "$work/samples"
for expected in "$work"/samples/*.expected; do
    for program in second quick careful; do
        "$work/$program" printed < "${expected%.expected}" | cmp - "$expected" || fail "$program $expected"
    done
done
echo "samples $(ls "$work"/samples/*.expected | wc -l) as expected"

# An empty input, a short one and a dropped tail.
[ "$(printf '' | "$work/careful" printed)" = "uptime 0" ] || fail empty
[ "$(printf 'fifteen bytes..' | "$work/careful" printed)" = "uptime 0" ] || fail short
(cat "$work/samples/printed"; printf 'tail') | "$work/careful" printed |
    cmp - "$work/samples/printed.expected" || fail tail

numbers() {
    awk '$1 != "uptime" { n[$2]++ } END { for (i = 0; i < 15; i++) if (n[i]) printf " %d:%d", i, n[i] }' "$@"
}

# $1 names a log: both builds with asserts and the Python model give the same lines.
compare() {
    "$work/careful" printed < "$work/$1" > "$work/$1.lines" || fail "$1 careful"
    "$work/second" printed < "$work/$1" | cmp - "$work/$1.lines" || fail "$1 plain"
    $logs replay < "$work/$1" | cmp - "$work/$1.lines" || fail "$1 against the model"
}

# $1 names a log, $2 a number that its lines must have.
must_occur() { grep -q "^[0-9]* $2 " "$work/$1.lines" || fail "$1 has no number $2"; }

$logs edges > "$work/edges"
compare edges
for n in 0 1 2 3 4 5 6 7 8 9 10 11 12; do must_occur edges $n; done
echo "edges:$(numbers "$work/edges.lines")"

suitable() {
    case $1 in
    mixed) echo 1 2 3 4 5 6 7 8 9 10 11 12 ;;
    ticks) echo 1 2 3 4 5 6 12 ;;
    semaphores) echo 1 2 3 4 5 6 7 10 12 ;;
    messages) echo 1 2 4 5 6 7 8 9 ;;
    events) echo 1 2 3 4 5 6 ;;
    priorities) echo 1 2 4 5 6 7 ;;
    regions) echo 1 2 3 4 5 6 7 11 ;;
    flags) echo 1 2 3 4 5 6 7 10 ;;
    senseless) echo 1 2 ;;
    esac
}

for family in mixed ticks semaphores messages events priorities regions flags senseless; do
    for seed in $(seq "$seeds"); do
        $logs $family $seed $count > "$work/$family.$seed"
        compare $family.$seed
        "$work/quick" images same < "$work/$family.$seed" > "$work/said" || fail "$family.$seed: $(cat "$work/said")"
        [ "$count" -lt 4000 ] || for n in $(suitable $family); do must_occur $family.$seed $n; done
    done
    echo "$family, $seeds seeds of $count:$(numbers "$work/$family".*.lines)"
done

# Notes: two builds write the same, and in the build $2 each leads back; $1 names a log.
notes() {
    "$work/second" notes < "$work/$1" > "$work/$1.notes" || fail "notes $1"
    "$work/quick" notes < "$work/$1" | cmp - "$work/$1.notes" || fail "notes $1 differ"
    "$work/$2" back < "$work/$1" > "$work/said" || fail "back $1: $(cat "$work/said")"
    grep -q " bytes $(wc -c < "$work/$1.notes") fresh\$" "$work/said" || fail "back $1: $(cat "$work/said")"
}

# The mode both: good lines agree, each kind of bad line is found.
fake() { python3 "$here/fake_both.py" "$work/$1.notes" < "$work/$1" > "$work/fake" || fail "notes of $1"; }
agrees() {
    "$work/$2" both "$work/fake" < "$work/$1" > "$work/said" || fail "both $1: $(cat "$work/said")"
    cat "$work/said"
}
differs() {
    if "$work/careful" both "$work/bad" < "$work/mixed.1" > "$work/said"; then fail "both missed: $1"; fi
    grep -q "^differ at line $2:" "$work/said" || fail "both, $1: $(cat "$work/said")"
}

# Stored states: every image along the log $1 gives back its state, and a run over images answers as the model, there and back.
stored() {
    "$work/$2" images same < "$work/$1" > "$work/said" || fail "images same $1: $(cat "$work/said")"
    "$work/$2" images < "$work/$1" | python3 "$here/images_lines.py" "$work/$1" > "$work/lines" || fail "images $1"
    sed -e 's/ [0-9]*$//' -e '/^uptime/d' "$work/fake" | cmp - "$work/lines" || fail "images $1 against the model"
    printf 'images of %s: ' $1
    cat "$work/said"
}

$logs ticks 7 42000 > "$work/long" # more than its notes' log can hold
for log in mixed.1 ticks.1 semaphores.1 messages.1 events.1 priorities.1 regions.1 flags.1 senseless.1 edges long; do
    build=careful
    case $log in edges | long) build=second ;; esac # long ones in the quicker build
    notes $log $build
    fake $log
    printf 'notes of %s: ' $log
    agrees $log $build
    [ $log = mixed.1 ] || build=second
    stored $log $build
done
full=$(grep -c '^[0-9]* 13 ' "$work/fake") || fail "no number 13"
echo "$full times number 13 in a full log"

fake mixed.1
(export ASAN_OPTIONS=detect_leaks=1; agrees mixed.1 careful)
[ "$(wc -l < "$work/fake")" -gt "$count" ] || fail fake
sed '7s/ [0-9]* \([0-9]*\)$/ 99 \1/' "$work/fake" > "$work/bad"; differs "a wrong runner" 7
line=$(awk 'NR > 8 && $2 == 0 { print NR; exit }' "$work/fake")
awk -v n="$line" 'NR == n { $0 = n " 13 255 " runner " 0" } { runner = $4; print }' "$work/fake" > "$work/bad"
differs "a 13 with room" "$line"
for by in -1 1; do
    awk -v n="$line" -v by=$by 'NR == n { $5 += by } { print }' "$work/fake" > "$work/bad"
    differs "a wrong length" "$line"
done
line=$(grep -n '^back' "$work/fake" | sed -n '5s/:.*//p')
sed "${line}s/ 0 / 15 /" "$work/fake" > "$work/bad"; differs "a failed undo" "$line"
sed "${line}s/\$/0/" "$work/fake" > "$work/bad"; differs "a wrong used" "$line"
sed "${line}d" "$work/fake" > "$work/bad"; differs "a missing undo" "$line"
last=$(wc -l < "$work/fake")
sed 's/^fresh$/other/' "$work/fake" > "$work/bad"; differs "not fresh" "$last"
sed '$d' "$work/fake" > "$work/bad"; differs "no last line" "$last"
(cat "$work/fake"; echo more) > "$work/bad"; differs "a line too many" $((last + 1))

# Damaged images of a few states of each family: no read goes beyond them. Another uptime or message's address is another right image.
damaged() {
    "$work/second" damaged $((count / 3 + 1)) < "$work/$1.1" > "$work/stream" || fail "damaged $1"
    "$work/careful" recalled < "$work/stream" > "$work/lines" || fail "recalled $1"
    "$work/quick" recalled < "$work/stream" | cmp - "$work/lines" || fail "recalled $1 differs"
    awk '{ n[$1]++ } END { exit n[0] + n[16] != NR || n[0] < 3 || n[16] < NR / 3 }' "$work/lines" || fail "recalled $1"
    printf ' %s %d of %d' $1 "$(grep -c '^0$' "$work/lines")" "$(wc -l < "$work/lines")"
}
printf 'damaged images that are images:'
for family in mixed ticks semaphores messages events priorities regions flags senseless; do damaged $family; done
echo
# Not images at all: the log itself, read as a stream, with a cut tail.
"$work/careful" recalled < "$work/mixed.1" | awk '$1 != 16 { bad = 1 } END { exit bad || NR == 0 }' || fail "a log read as images"
if "$work/careful" damaged 0 < "$work/mixed.1" 2> /dev/null; then fail "damaged 0"; fi

# Rounds write what `notes` writes, 256 times, and accept the same with and without notes.
head -c 65536 "$work/mixed.1" > "$work/round"
rounds=$("$work/quick" rounds < "$work/round")
[ "${rounds##* }" = $((256 * $("$work/quick" notes < "$work/round" | wc -c))) ] || fail "rounds: $rounds"
[ "${rounds% bytes *}" = "$("$work/quick" rounds plain < "$work/round")" ] || fail "rounds plain: $rounds"
echo "$rounds"
"$work/careful" rounds < "$work/samples/printed"
# All notes of a round are undone, 64 times, each time to the fresh state.
notes=$("$work/quick" back < "$work/round" | sed 's/.* accepted \([0-9]*\) .*/\1/')
undone=$("$work/quick" rounds undo < "$work/round")
[ "$undone" = "${rounds%% rounds *} rounds 64 undone $((64 * notes)) left 0 fresh 64" ] || fail "rounds undo: $undone"
echo "$undone"
"$work/careful" rounds undo < "$work/samples/printed"
echo "second: all checks passed"
