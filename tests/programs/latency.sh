# Latencies tried (document 02, Ask 7): counts as text, as an option and of packets; the table, its refusals and the picture. Sourced by run.sh.

# A bench of its own: mode's N, a latency and counts; prints dry ticks, the first of them or a dash, and the most packets waiting. With the word
# `ticks` before them it prints what waits at each tick, after any adding.
bench() {
    local what=numbers
    if [ "$1" = ticks ]; then
        what=ticks
        shift
    fi
    printf '%s\n' "${@:3}" | awk -v n="$1" -v v="$2" -v what="$what" '
        {
            waiting += $1
            for (k = 0; k < n; k += 1) {
                if (what == "ticks") print waiting
                if (waiting > most) most = waiting
                if (tick >= 2 * v) {
                    if (waiting > 0) waiting -= 1
                    else if (dry++ == 0) first = tick
                }
                tick += 1
            }
        }
        END { if (what == "numbers") print dry + 0, dry ? first : "-", most + 0 }'
}

# The sum of numbers.
sum() {
    local all=0 one
    for one in "$@"; do
        all=$((all + one))
    done
    echo "$all"
}

# The smallest latency without a dry tick, as the bench here has it; none where all have one.
smallest() {
    local v
    for v in 0 1 2 3 4 5 6 7; do
        if [ "$(bench "$1" "$v" "${@:2}" | cut -d ' ' -f 1)" = 0 ]; then
            echo "$v"
            return
        fi
    done
    echo none
}

# What is said of the smallest latency.
found() {
    if [ "$1" = none ]; then
        echo "every latency from 0 to 7 has a dry tick"
    else
        echo "smallest latency without a dry tick: $1"
    fi
}

# The table that counts ought to have: mode, stream, N, and the counts.
table_of() {
    local n=$3 v
    echo "mode $1, stream $2: a PDU every $n ticks"
    echo "PDUs $(($# - 3)), packets $(sum "${@:4}"), ticks $((n * ($# - 3)))"
    echo
    echo "latency  dry ticks  first dry tick  most packets waiting"
    for v in 0 1 2 3 4 5 6 7; do
        # shellcheck disable=SC2046
        printf '%7s%11s%16s%22s\n' "$v" $(bench "$n" "$v" "${@:4}")
    done
    echo
    found "$(smallest "$n" "${@:4}")"
}

# Checks table and summary of the last run: what it is about, mode, stream, N, and the counts.
same_table() {
    same "$1, the table" "$(table_of "${@:2}")" "$(cat out)"
    said "$1" 0 latency "barzhilup latency: PDUs $(($# - 4)), packets $(sum "${@:5}"); $(found "$(smallest "${@:4}")")"
}

# A table by hand, word for word: counts 3 and 5, 4 ticks each.
check_latency_table() {
    run latency --mode 1 --counts 3,5
    same "counts 3 and 5" "mode 1, stream 0: a PDU every 4 ticks
PDUs 2, packets 8, ticks 8

latency  dry ticks  first dry tick  most packets waiting
      0          1               3                     5
      1          0               -                     6
      2          0               -                     8
      3          0               -                     8
      4          0               -                     8
      5          0               -                     8
      6          0               -                     8
      7          0               -                     8

smallest latency without a dry tick: 1" "$(cat out)"
    said "counts 3 and 5" 0 latency "barzhilup latency: PDUs 2, packets 8; smallest latency without a dry tick: 1"
    run latency --counts 0
    same "a count of 0, 32 ticks" "every latency from 0 to 7 has a dry tick" "$(tail -n 1 out)"
    said "a count of 0, 32 ticks" 0 latency "barzhilup latency: PDUs 1, packets 0; every latency from 0 to 7 has a dry tick"
}

# Values known before: mode, stream, the smallest latency, and the counts.
check_latency_values() {
    local mode stream wanted counts
    while read -r mode stream wanted counts; do
        run latency --mode "$mode" --stream "$stream" --counts "${counts// /,}"
        same "mode $mode, stream $stream, counts $counts" "$(found "$wanted")" "$(tail -n 1 out)"
        # The counts are words without spaces in them.
        same "mode $mode, stream $stream, counts $counts, by the bench here" "$wanted" \
            "$(smallest "$([ "$mode $stream" = "1 0" ] || [ "$mode $stream" = "10 1" ] && echo 4 || echo 32)" $counts)"
    done <<'VALUES'
1 0 2 0
1 0 1 3
1 0 0 4 4
10 1 1 3 5
1 0 6 0 0 0
1 0 7 0 0 0 2
1 0 none 0 0 0 0
0 0 none 0
1 1 1 31 33
10 0 1 31 33
1 0 0 63
VALUES
}

# Random counts around the ticks that take them, of each mode and stream: the whole table.
check_latency_random() {
    local mode stream n counts seed
    for seed in 1 2 3; do
        while read -r mode stream n; do
            read -r -a counts < <(awk -v n="$n" -v seed="$seed$mode$stream" 'BEGIN {
                srand(seed)
                for (k = 0; k < 5 + 9 * rand(); k += 1) printf "%d ", n - 2 + int(5 * rand())
                print ""
            }')
            printf '%s\n' "${counts[@]}" >some
            run latency --mode "$mode" --stream "$stream" --in some
            same_table "mode $mode, stream $stream, counts ${counts[*]}" "$mode" "$stream" "$n" "${counts[@]}"
        done <<'MODES'
0 0 32
1 0 4
2 0 4
3 0 4
1 1 32
2 1 32
3 1 32
10 0 32
10 1 4
13 0 4
MODES
    done
}

# Counts in a file: blanks of every kind between them, before and after; zeros before a number; a last line without its end; blocks of blanks.
check_latency_text() {
    local form
    run latency --mode 1 --counts 3,5,0,63
    cp out wanted
    for form in '3 5 0 63\n' '3\n5\n0\n63\n' '3\n5\n0\n63' '\n\n 3\t5\r\n0\r\n63\r\n' '003 5 00 0000000063\n' '3 5\n\n\n0 63   \n\t\n'; do
        printf "$form" >some
        run latency --mode 1 --in some
        same_file "counts as $(printf '%q' "$form")" wanted out
        ended "counts as $(printf '%q' "$form")" 0 latency
    done
    { printf '3 5'; head -c 70000 /dev/zero | tr '\0' ' '; printf '0'; head -c 140000 /dev/zero | tr '\0' '\n'; printf '63'; } >some
    run latency --mode 1 --in some
    same_file "counts with blocks of blanks between them" wanted out
    { printf '3 5 '; sleep 0.1; printf '0 6'; sleep 0.1; printf '3\n'; } | "$program" latency --mode 1 >out 2>err
    same_file "counts that come in parts" wanted out
}

# What is no count is said with its line; nothing is made.
check_latency_strange() {
    local line text
    while IFS='|' read -r line text; do
        printf '%b' "$text" >some
        stops "barzhilup latency: some: line $line: not counts with blanks between them" latency --in some --out new --svg new.svg
        there "counts that are none" no new
        there "counts that are none" no new.svg
    done <<'LINES'
1|x
1|-1
1|3,5
1|3.5
1|+3
1|0x3
2|3\n5a\n
3|3\n\n# five\n
1|\x00
1|\xef\xbb\xbf3
LINES
    stops "barzhilup latency: packets: line 1: not counts with blanks between them" latency --in packets
    stops "barzhilup latency: folder: Is a directory" latency --in folder
}

# Number 21 at its edges, and 5 before it; nothing is made.
check_latency_refused() {
    local words="refused with 21"
    stops "barzhilup latency: empty: $words: no counts" latency --in empty --out new
    there "no counts" no new
    says 1 /dev/null "barzhilup latency: standard input: $words: no counts" latency
    printf ' \n\t\n' >some
    stops "barzhilup latency: some: $words: no counts" latency --in some
    stops "barzhilup latency: --counts: $words: a count over 63, that of PDU 1" latency --counts 63,64 --svg new
    there "a count over 63" no new
    printf '0 1 99999999999999999999999\n' >some
    stops "barzhilup latency: some: $words: a count over 63, that of PDU 2" latency --in some
    stops "barzhilup latency: --counts: $words: a count over 63, that of PDU 0" latency --counts 4294967295
    head -c 8192 /dev/zero | tr '\0' '4' | sed 's/\(.\)./\1 /g' >some
    run latency --mode 1 --in some
    same "4,096 counts" "PDUs 4096, packets 16384, ticks 16384" "$(sed -n 2p out)"
    ended "4,096 counts" 0 latency
    printf ' 0' >>some
    stops "barzhilup latency: some: $words: more than 4,096 counts" latency --mode 1 --in some
    printf ' 64 x' >>some
    stops "barzhilup latency: some: $words: more than 4,096 counts" latency --mode 1 --in some
    stops "barzhilup latency: refused with 5: $(generate_words --mode 4)" latency --mode 4 --in none --out new
    stops "barzhilup latency: refused with 5: $(generate_words --mode 4)" latency --mode 13 --stream 1 --counts 64
    stops "barzhilup latency: refused with 5: $(generate_words --mode 4)" latency --mode 5 --packets --in none
    there "a mode that is not there" no new
}

# Counts as an option: what is no list of numbers is wrong usage, and so are two inputs.
check_latency_option() {
    local value
    for value in '' , 3, ,3 3,,5 '3 5' '3, 5' x 3,x -1 3.5 4294967296; do
        wrong "barzhilup latency: --counts: not numbers with commas between them: $value" latency --counts "$value" --out new
    done
    for value in "--in some" "--packets" "--in - --packets"; do
        # The options are words without spaces in them.
        wrong "barzhilup latency: --counts: takes the place of --in and --packets" latency --counts 3 $value
    done
    run latency --mode 1 --counts=3,5
    same_table "--counts=3,5" 1 0 4 3 5
    run latency --mode 1 --counts "$(head -c 4095 /dev/zero | tr '\0' '4' | sed 's/\(.\)./\1,/g')"
    same "2,048 counts in an option" "PDUs 2048, packets 8192, ticks 8192" "$(sed -n 2p out)"
    wrong "barzhilup latency: --counts: value too long" latency --counts "$(head -c 4097 /dev/zero | tr '\0' '4')"
}

# The packets that end in each PDU of a file of PDUs, from their control words: NOP, less 1 with Plast.
ended_in() {
    od -An -v -tu1 -w$(($2 + 2)) "$1" | awk '{ print int($15 / 2) % 64 - int($14 / 4) % 2 }'
}

# Packets: the table is that of the counts of the PDUs that `generate` makes of them with the same settings. The table of settings has a length and
# options.
check_latency_packets() {
    local length options
    while read -r length options; do
        # The options are words without spaces in them.
        run generate --in packets --length "$length" $options
        ended "generate --length $length $options" 0 generate
        ended_in out "$length" >some
        run latency --in some $(grep -o -- '--\(mode\|stream\) [0-9]*' <<<"$options" || true)
        cp out wanted
        cp err wanted.err
        run latency --packets --in packets --length "$length" $options
        same_file "latency --packets --length $length $options" wanted out
        same_file "latency --packets --length $length $options, what is said" wanted.err err
        ended "latency --packets --length $length $options" 0 latency
    done <<'SETTINGS'
300
300 --psd psd
96
1024 --psd psd --program 3
4096 --mode 1
700 --mode 1 --stream 1 --type 7
96 --mode 13 --blend 1 --gain 3 --common-delay 9 --latency 5 --crc-start 255
2000 --mode 10 --class 1 --program 2 --access 1 --services 1 --marker 77
512 --mode 10 --stream 1 --displacement
SETTINGS
    run latency --packets --in packets --length 300
    cp out wanted
    run latency --packets --adts --in dump --length 300
    same_file "a dump is packed as its packets are" wanted out
    run latency --packets --length 300 <packets
    same_file "packets on standard input" wanted out
    run latency --packets --in packets --length 300 --psd - <psd
    cp out wanted
    run latency --packets --in packets --length 300 --psd psd
    same_file "PSD on standard input" wanted out
}

# Packets that are refused, or cut; settings that are refused, in the words of `generate`; and more PDUs than counts may be.
check_latency_packets_refused() {
    stops "barzhilup latency: refused with 3: $(generate_words --length 95)" latency --packets --in none --length 95
    stops "barzhilup latency: refused with 14: $(generate_words --gain 7)" latency --packets --in none --gain 7
    head -c 129 /dev/zero >psd129
    stops "barzhilup latency: refused with 16: $(generate_words --psd psd129)" latency --packets --in none --psd psd129
    stops "barzhilup latency: none: No such file or directory" latency --packets --in none --out new
    stops "barzhilup latency: none: No such file or directory" latency --packets --in packets --psd none
    { record 100; record 0; } >zero
    stops "barzhilup latency: zero: at byte 102: refused with 15: packet 1 has no bytes" latency --packets --in zero --out new
    head -c 110 packets >part
    stops "barzhilup latency: part: at byte 102: ends inside packet 1" latency --packets --in part --svg new
    stops "barzhilup latency: empty: refused with 21: no counts" latency --packets --in empty
    there "packets that are refused" no new
    wrong "barzhilup latency: --psd: standard input has the packets" latency --packets --psd -
    records 9 3000 >some
    run latency --packets --in some --length 300
    ended "packets that take ninety-seven PDUs" 0 latency
    records 90 4096 >many
    stops "barzhilup latency: many: refused with 21: more than 4,096 counts" latency --packets --in many --length 96
}

# The picture of a small run has a column for each tick, as the bench here has it, and a mark for each dry tick.
check_latency_picture() {
    local counts=(3 0 6 5) v most
    most=$(bench 4 0 "${counts[@]}" | cut -d ' ' -f 3)
    for v in 0 1 7; do
        run latency --mode 1 --counts 3,0,6,5 --out new --svg - --draw "$v"
        ended "a picture of latency $v" 0 latency
        rm new
        most=$(bench 4 "$v" "${counts[@]}" | cut -d ' ' -f 3)
        same "latency $v, what waits at each tick" "M0 $most$(bench ticks 4 "$v" "${counts[@]}" | awk -v most="$most" '{ printf "V%dh1", most - $1 }')V${most}z" \
            "$(sed -n 's/^<path class="a" d="\(.*\)".*/\1/p' out)"
        same "latency $v, the fewest are the same where a column is a tick" "$(sed -n 's/^<path class="a" d="\(.*\)".*/\1/p' out)" \
            "$(sed -n 's/^<path class="b" d="\(.*\)".*/\1/p' out)"
        same "latency $v, a mark for each dry tick" "$(bench 4 "$v" "${counts[@]}" | cut -d ' ' -f 1)" "$(sed -n 's/^<path class="d" d="\(.*\)".*/\1/p' out | tr -cd M | wc -c)"
        has_line "latency $v, the title" "<title>Packets waiting, latency $v</title>" out
    done
    check_latency_drawn
    check_latency_long_picture
}

# Which latency is drawn where none is asked for: the smallest without a dry tick, or 7.
check_latency_drawn() {
    rm -f new new.svg
    run latency --mode 1 --counts 3,5 --svg new.svg
    same_table "counts 3 and 5 with a picture" 1 0 4 3 5
    has_line "the smallest is drawn" "<title>Packets waiting, latency 1</title>" new.svg
    rm new.svg
    run latency --mode 1 --counts 0,0,0,0 --svg new.svg
    has_line "7 is drawn where all have a dry tick" "<title>Packets waiting, latency 7</title>" new.svg
    if command -v xmllint >/dev/null; then
        same "a picture of no packets is XML" "" "$(xmllint --noout new.svg 2>&1)"
    fi
    rm new.svg
    run latency --mode 1 --counts 3,5 --draw 3
    same_table "a latency to be drawn without a picture" 1 0 4 3 5
}

# A long run: some ticks in a column, and the picture stays small.
check_latency_long_picture() {
    local counts
    read -r -a counts < <(awk 'BEGIN { srand(5); for (k = 0; k < 300; k += 1) printf "%d ", 30 + int(5 * rand()); print "" }')
    printf '%s\n' "${counts[@]}" >some
    run latency --in some --out new --svg - --draw 2
    rm new
    bench ticks 32 2 "${counts[@]}" >waits
    same "a long run, the most in a column of 15 ticks" "$(awk '{ if (NR % 15 == 1 || $1 > most) most = $1; if (NR % 15 == 0 || NR == 9600) print most }' waits)" \
        "$(sed -n 's/^<path class="a" d="M0 [0-9]*\(.*\)V[0-9]*z".*/\1/p' out | sed 's/V\([0-9]*\)h1/\1\n/g' | awk -v most="$(sort -n waits | tail -n 1)" 'NF { print most - $1 }')"
    same "a long run, the fewest in a column" "$(awk '{ if (NR % 15 == 1 || $1 < least) least = $1; if (NR % 15 == 0 || NR == 9600) print least }' waits)" \
        "$(sed -n 's/^<path class="b" d="M0 [0-9]*\(.*\)V[0-9]*z".*/\1/p' out | sed 's/V\([0-9]*\)h1/\1\n/g' | awk -v most="$(sort -n waits | tail -n 1)" 'NF { print most - $1 }')"
    same "a long run, columns with a dry tick" "$(awk 'NR > 4 && $1 == 0 { print int((NR - 1) / 15) }' waits | uniq | wc -l)" \
        "$(sed -n 's/^<path class="d" d="\(.*\)".*/\1/p' out | tr -cd M | wc -c)"
    head -c 8192 /dev/zero | tr '\0' '9' | sed 's/\(.\)./\1 /g' >some
    run latency --in some --out new --svg - --draw 0
    rm new
    same "4,096 counts, a picture under 60,000 bytes" yes "$([ "$(wc -c <out)" -lt 60000 ] && echo yes || echo no)"
    same "4,096 counts, the picture is whole" "</svg>" "$(tail -n 1 out)"
    if command -v xmllint >/dev/null; then
        same "4,096 counts, the picture is XML" "" "$(xmllint --noout out 2>&1)"
    fi
}

# The picture's file is made as that of --out is, and neither is left where the other is not made.
check_latency_made() {
    rm -f new new.svg new.svg~
    echo old >new.svg
    stops "$(taken latency new.svg)" latency --in counts --out new --svg new.svg
    same "a picture's name that is taken" old "$(cat new.svg)"
    there "a picture whose name is taken" no new
    run latency --in counts --out new --svg new.svg --force
    ended "a picture with --force" 0 latency
    has_line "a picture with --force" "barzhilup latency: new.svg: renamed to new.svg~" err
    same "a picture with --force, the old file" old "$(cat new.svg~)"
    rm new.svg new.svg~
    stops "$(taken latency new)" latency --in counts --out new --svg new.svg
    there "the picture of a table whose name is taken" no new.svg
    stops "barzhilup latency: none/new.svg: No such file or directory" latency --in counts --out other.new --svg none/new.svg
    there "a picture in no directory" no other.new
    stops "$(taken latency both.new)" latency --in counts --out both.new --svg both.new
    there "table and picture of one name" no both.new
    rm new
    wrong "barzhilup latency: --svg: standard output has the table" latency --in counts --svg -
    wrong "barzhilup latency: --svg: standard output has the table" latency --in counts --svg=- --out -
    run_to /dev/full latency --in counts --svg - --out new
    same "a picture to a full device" "barzhilup latency: standard output: No space left on device" "$(head -n 1 err)"
    ended "a picture to a full device" 1 latency
    rm new
}
