#!/bin/sh
# Counts and times LMS with keys of kind W4.
#
# Counted with valgrind's callgrind, which is the same in each run, and asserted: the blocks that are hashed
# alone and those of leaves' public keys that are hashed four at a time, exactly as many as RFC 8554's
# algorithms hash besides those of chains; the steps of chains, four at a time, of whose lanes no more than 8
# in 100 may stand idle, and none where a key is made; the share of all instructions that is inside these three, at
# least 95 of 100; and the instructions of a key, a signature and a verification, at most 40, 52 and 52 of 100 of
# what they take with one chain after another. Also asserted: the memory that a key takes.
# Timed in one run beside `openssl speed` and Bouncy Castle, and only reported.
set -u
top=$(cd "$(dirname "$0")/.." && pwd)
program=$top/crates/lms_bench/out/lms_bench
passed=0
failed=0
check() {
    if [ "$2" = yes ]; then passed=$((passed + 1)); echo "ok: $1"; else failed=$((failed + 1)); echo "FAILED: $1"; fi
}
# Built anew where it isn't there or is older than its sources.
stale=$(find "$top"/crates/sha_lanes/src "$top"/crates/lmots_core/src "$top"/crates/lms_tree/src "$top"/crates/lms_bench/src -newer "$program" 2>/dev/null)
if [ ! -x "$program" ] || [ -n "$stale" ]; then
    (cd "$top/crates/lms_bench" && rt run -- 5 0 0 >/dev/null 2>&1 </dev/null)
fi
if [ ! -x "$program" ]; then
    echo "FAILED: lms_bench could not be built"
    echo "0 passed, 1 failed"
    exit 1
fi
work=$(mktemp -d)
trap 'rm -rf "$work"' EXIT

# Prints the calls of a function.
calls() {
    awk -v name="$1" '/^c?fn=/ { key = $1; sub(/^c?fn=/, "", key); if ($0 ~ name) keys[key] = 1; is = /^cfn=/ && (key in keys) }
        /^calls=/ { if (is) { split($0, part, /[= ]/); sum += part[2] } is = 0 } END { print sum + 0 }' "$work/out"
}
# Prints the calls of the block function, of a step of four chains of one leaf, of a step of one chain of four leaves and
# of a block of four public keys, the instructions inside these, and all instructions.
count() {
    valgrind --tool=callgrind --callgrind-out-file="$work/out" "$program" "$@" >/dev/null 2>"$work/log" || return 1
    inside=$(callgrind_annotate "$work/out" | awk '/block256::compress|steps::step4|steps::step_leaves|states::absorb4/ { gsub(",", "", $1); sum += $1 } END { print sum + 0 }')
    all=$(awk '/^(summary|totals):/ { print $2; exit }' "$work/out")
    echo "$(calls block256::compress) $(calls steps::step4) $(calls steps::step_leaves) $(calls states::absorb4) $inside $all"
}

if command -v valgrind >/dev/null 2>&1; then
    # The words of the program, the blocks that the algorithms hash, and what they are.
    # A key of height h: 2^h leaves of 67 chains with 1 + 15 blocks, 34 blocks for the public key, all of them four
    # leaves at a time, and one for the leaf, and 2^h - 1 nodes of two blocks. A signature with its verification: the randomizer 2,
    # the message 2 and 2, the starts 67, the steps 67 * 15, the public key 34, the leaf 1, the path 2h.
    # The digest of the signatures is the program's own: a signature of 2,348 bytes has 37 blocks and one
    # of 2,508 has 40, and no signature has 1.
    while read -r words blocks leaves keys steps name; do
        set -- $(echo "$words" | tr ',' ' ')
        set -- $(count "$@") || set -- 0 0 0 0 0 1
        share=$(awk "BEGIN { printf \"%.2f\", 100 * $5 / $6 }")
        check "$name: $1 blocks of $blocks alone" "$([ "$1" -eq "$blocks" ] && echo yes)"
        check "$name: $3 steps of four for the $leaves of its leaves" "$([ $((4 * $3)) -eq "$leaves" ] && echo yes)"
        check "$name: $4 blocks of four for the $keys of their public keys" "$([ $((4 * $4)) -eq "$keys" ] && echo yes)"
        check "$name: $2 steps of four for the $steps of its signature" "$([ $((4 * $2)) -ge "$steps" ] && [ $((400 * $2)) -le $((108 * steps)) ] && echo yes)"
        check "$name: $share of 100 instructions inside these, $6 in all" "$(awk "BEGIN { if ($share >= 95) print \"yes\" }")"
        case $words in
            5,0,0) small=$6 ;;
            5,1,1) both=$6 ;;
            10,0,0) large=$6 ;;
        esac
    done <<END
5,0,0 $((35486 + 1 - 34304 - 1088)) 34304 1088 0 a key of height 5, and one block of the program's
10,0,0 $((1135614 + 1 - 1097728 - 34816)) 1097728 34816 0 a key of height 10, and one block of the program's
5,1,1 $((35486 + 1113 + 10 + 37 - 34304 - 1088 - 1072)) 34304 1088 1072 a key of height 5, a signature and its verification
10,1,1 $((1135614 + 1113 + 20 + 40 - 1097728 - 34816 - 1072)) 1097728 34816 1072 a key of height 10, a signature and its verification
END
    # Beside what the same program takes where chains are run one after another (kind W4, rt's default processor). The signature
    # has the program's digest of it in both.
    set -- $(count 5 1 0) || set -- 0 0 0 0 0 1
    while read -r now alone most name; do
        share=$(awk "BEGIN { printf \"%.1f\", 100 * $now / $alone }")
        check "$name: $now instructions, $share of 100 of $alone, at most $most" "$(awk "BEGIN { if ($now > 0 && $share <= $most) print \"yes\" }")"
    done <<END
$large 3532229859 40 a key of height 10
$(($6 - small)) 1877239 52 a signature
$((both - $6)) 1738053 52 its verification
END
    for part in "5 8192" "10 131072"; do
        set -- $part
        taken=$(valgrind --tool=massif --massif-out-file="$work/massif" "$program" "$1" 0 0 >/dev/null 2>&1; awk -F= '/mem_heap_B/ { if ($2 > most) most = $2 } END { print most + 0 }' "$work/massif")
        check "at height $1 the whole program takes at most $taken bytes of $2 at a time" "$([ "$taken" -gt 0 ] && [ "$taken" -le "$2" ] && echo yes)"
    done
else
    echo "no valgrind: nothing counted"
fi

# Microseconds for one run with these words, the least of a few.
least() {
    best=
    for _ in 1 2 3 4 5; do
        start=$(date +%s%N)
        "$program" "$@" >/dev/null
        took=$((($(date +%s%N) - start) / 1000))
        if [ -z "$best" ] || [ $took -lt $best ]; then best=$took; fi
    done
    echo "$best"
}
none5=$(least 5 0 0)
none10=$(least 10 0 0)
echo
echo "this repository:"
for height in 5 10; do
    none=$([ $height = 5 ] && echo "$none5" || echo "$none10")
    signed=$(least $height 1000 0)
    both=$(least $height 1000 1000)
    awk "BEGIN { printf \"height %d: key %.2f ms, sign %.3f ms, verify %.3f ms\n\", $height, $none / 1e3, ($signed - $none) / 1e6, ($both - $signed) / 1e6 }"
done
awk "BEGIN { printf \"%.0f ns a block, by the key of height 10\n\", $none10 * 1000 / 1135615 }"
if command -v openssl >/dev/null 2>&1; then
    echo
    echo "openssl speed -evp sha256 (bytes a second at 64 and 16,384 bytes):"
    openssl speed -evp sha256 -bytes 64 -seconds 1 2>/dev/null | tail -1
    openssl speed -evp sha256 -bytes 16384 -seconds 1 2>/dev/null | tail -1
fi
if command -v javac >/dev/null 2>&1 && [ -r /usr/share/java/bcprov.jar ]; then
    echo
    echo "Bouncy Castle:"
    java -cp /usr/share/java/bcprov.jar "$top/bench/LmsSpeed.java"
fi
echo
echo "$passed passed, $failed failed"
[ $failed -eq 0 ]
