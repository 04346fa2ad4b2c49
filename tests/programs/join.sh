# Core and enhanced side by side (document 02, Ask 11): logs as records of words, frames of them joined, refused frames, files that are no logs, and drives.
# Sourced by run.sh.

# Words, given in hexadecimal: each in four bytes, low byte first.
words() {
    local word
    for word in "$@"; do
        printf '%b' "$(sed -E 's/^(..)(..)(..)(..)$/\\x\4\\x\3\\x\2\\x\1/' <<<"$word")"
    done
}

# The record of a PDU's log: its words, in hexadecimal.
logged() {
    printf '%b' "$(printf '\\x%02x\\x%02x' $((4 * $# % 256)) $((4 * $# / 256)))"
    words "$@"
}

# The records of a file without their lengths, and how many there are.
contents() {
    od -An -v -tu1 -w1 "$1" | awk '
        left == 0 && head == 0 { low = $1; head = 1; next }
        head == 1 { left = low + 256 * $1; head = 0; records += 1; next }
        { printf "%02x", $1; left -= 1 }
        END { print " " records }'
}

# A file of logs has the words of the format words, in a record for each PDU, whether it is received alone, in a batch or as a pair.
check_join_records() {
    local file
    for file in sent damaged steps; do
        run log --in "$file" --format words
        cp out wanted
        run log --in "$file" --format records
        ended "log --format records" 0 log
        same "log --format records of $file" "$(od -An -v -tx1 -w1 wanted | tr -d ' \n') $(sed -n 's/^barzhilup log: PDUs \([0-9]*\):.*/\1/p' err)" "$(contents out)"
        cp out wanted
        run log --in "$file" --format records --batch 8
        same_file "log --format records of $file by batches" wanted out
        run log --in "$file" --format records --second "$file"
        same_file "log --format records of $file as pairs" wanted out
    done
}

# Frames joined by hand: a core of 62, 63 and 0 with an enhanced 63, 0 and 1; a frame of notes alone; and one that the enhanced file no longer has.
check_join_frames() {
    { logged 003e0001 41010000 c0020001; logged 003f0001 41020000; logged 80000002 42090900 00000001 41030000
        logged c0060000; logged; logged c0060000
        logged 00040005 43010203 42040500; } >core
    { logged 003f0004 43040506 41070000 00000001 41080000 00010002 42090900; logged 00050001 41010000 00050001 41010000; } >enhanced
    run join --in core --enhanced enhanced --core-pdus 3
    same "frames joined" "frame,number,core,enhanced,both
0,62,1,0,0
0,63,1,4,1
0,0,1,1,1
0,1,0,2,0
1,5,0,1,0
1,5,0,1,0
2,4,5,0,0
,end,3,,whole" "$(cat out)"
    said "frames joined" 0 join "barzhilup join: frames 3: refused with 23 0, with 24 0
barzhilup join: packets: core alone 2, both 2, enhanced dropped 3"
    run join --in core --enhanced enhanced --core-pdus 3 --format words
    words 003e0001 41010000 003f0001 41020000 203f0004 43040506 41070000 00000001 41030000 20000001 41080000 00040005 43010203 42040500 >wanted
    same_file "frames joined, as words" wanted out
    run join --in core --core-pdus 64
    same "without an enhanced log" "frame,number,core,enhanced,both
0,62,1,0,0
0,63,1,0,0
0,0,1,0,0
0,4,5,0,0
,end,1,,whole" "$(cat out)"
    run join --in empty --enhanced enhanced --enhanced-pdus 2
    same "without a core packet" "frame,number,core,enhanced,both
0,63,0,4,0
0,0,0,1,0
0,1,0,2,0
0,5,0,1,0
0,5,0,1,0
,end,1,,whole" "$(cat out)"
    run join --in - --enhanced enhanced --core-pdus 3 <core
    ended "the core's log from standard input" 0 join
    cp out wanted
    run join --in core --enhanced - --core-pdus 3 <enhanced
    same_file "the enhanced log from standard input" wanted out
}

# Frames that are refused: those before and after them are joined, and the first five are said.
check_join_refused() {
    local turn
    { logged 00050001 41010000; logged 00050000; logged 00030001 41010000 00030001 41010000; logged 00060001 41010000; } >core
    { logged 00050001 41010000; logged; logged; logged 20060001 41010000; } >enhanced
    run join --in core --enhanced enhanced --core-pdus 1
    same "refused frames" "frame,number,core,enhanced,both
0,5,1,1,1
1,refused,23,,
2,refused,24,,
3,refused,23,,
,end,4,,whole" "$(cat out)"
    said "refused frames" 0 join "barzhilup join: frame 1: refused with 23: words that are no log
barzhilup join: frame 2: refused with 24: packet numbers that do not rise within a log
barzhilup join: frame 3: refused with 23: words that are no log
barzhilup join: frames 4: refused with 23 2, with 24 1
barzhilup join: packets: core alone 0, both 1, enhanced dropped 0"
    for ((turn = 0; turn < 9; turn += 1)); do
        logged 41010000
    done >core
    run join --in core --core-pdus 1
    same "the first five refused frames are said" 5 "$(grep -c ': frame [0-9]: refused with 23: ' err || true)"
    has_line "that further ones are counted" "barzhilup join: further refused frames are counted only" err
    has_line "they are counted" "barzhilup join: frames 9: refused with 23 9, with 24 0" err
    # the result of a join with a pair is no log
    logged 00050001 41010000 >core
    run join --in core --enhanced core --format words
    # shellcheck disable=SC2046
    logged $(od -An -v -tx4 -w4 out | tr -d ' ') >again
    run join --in again --core-pdus 1
    has_line "a result joined again" "barzhilup join: frame 0: refused with 23: words that are no log" err
}

# Files that are no logs, or end too early: what was joined before stays.
check_join_files() {
    local turn
    logged 00050001 41010000 >core
    stops "barzhilup join: none: No such file or directory" join --in none
    stops "barzhilup join: none: No such file or directory" join --in core --enhanced none
    wrong "barzhilup join: --enhanced: standard input has the core's log" join --enhanced -
    wrong "barzhilup join: --enhanced: standard input has the core's log" join --enhanced - --in -
    wrong "barzhilup join: --format: not words or csv: text" join --format text
    { cat core; printf '\x03\x00abc'; } >odd
    run join --in odd --core-pdus 1
    said "a record that is no row of words" 1 join "barzhilup join: odd: the record of PDU 1 is no row of words: is this a file of log --format records?
barzhilup join: frames 1: refused with 23 0, with 24 0
barzhilup join: packets: core alone 1, both 0, enhanced dropped 0"
    same "what was joined before" "frame,number,core,enhanced,both
0,5,1,0,0" "$(cat out)"
    head -c 9 core >cut.log
    run join --in core --enhanced cut.log
    said "a log that is cut" 1 join "barzhilup join: cut.log: ends inside the record of PDU 0
barzhilup join: frames 0: refused with 23 0, with 24 0
barzhilup join: packets: core alone 0, both 0, enhanced dropped 0"
    for turn in 1 2 3; do
        record 33600
    done >long
    run join --in long --core-pdus 3
    said "a frame of more than 25,000 words" 1 join "barzhilup join: long: more than 25,000 words in a frame, at PDU 2
barzhilup join: frames 0: refused with 23 0, with 24 0
barzhilup join: packets: core alone 0, both 0, enhanced dropped 0"
    # files of PDUs in place of logs: with 300 bytes they are rows of words, but no logs; with 301 they are no rows of words
    run join --in sent
    turn=$((($(stat -c %s sent) / 302 + 7) / 8))
    ended "a file of PDUs" 0 join
    same "a file of PDUs, what is said at the end" "barzhilup join: frames $turn: refused with 23 $turn, with 24 0
barzhilup join: packets: core alone 0, both 0, enhanced dropped 0
barzhilup join: no frame was joined: are these files of log --format records?" "$(tail -n 3 err)"
    run generate --in packets --length 301 --out odd.pdus
    run join --in odd.pdus
    said "a file of PDUs of 301 bytes" 1 join "barzhilup join: odd.pdus: the record of PDU 0 is no row of words: is this a file of log --format records?
barzhilup join: frames 0: refused with 23 0, with 24 0
barzhilup join: packets: core alone 0, both 0, enhanced dropped 0"
    run_to /dev/full join --in core
    said "a result to a full device" 1 join "barzhilup join: standard output: No space left on device
barzhilup join: frames 0: refused with 23 0, with 24 0
barzhilup join: packets: core alone 0, both 0, enhanced dropped 0"
}

# What two logs, as CSV, ought to be joined to: PDUs of either in a frame, and the two files.
joined_by_hand() {
    awk -F , -v core_pdus="$1" -v enhanced_pdus="$2" '
        FNR == 1 { file += 1; next }
        $2 == "end" { last = int(($3 + (file == 1 ? core_pdus : enhanced_pdus) - 1) / (file == 1 ? core_pdus : enhanced_pdus)); if (last > frames) frames = last; next }
        $2 != "packet" { next }
        file == 1 { frame = int($1 / core_pdus); core[frame, cores[frame]++] = $3 "," $4; has[frame, $3] = 1; next }
        { frame = int($1 / enhanced_pdus); enhanced[frame, enhanceds[frame]++] = $3 "," $4; part[frame, $3] = $4 }
        END {
            print "frame,number,core,enhanced,both"
            for (frame = 0; frame < frames; frame += 1) {
                for (i = 0; i < cores[frame]; i += 1) {
                    split(core[frame, i], packet, ",")
                    other = part[frame, packet[1]] + 0
                    print frame "," packet[1] "," packet[2] "," other "," (other > 0)
                }
                for (i = 0; i < enhanceds[frame]; i += 1) {
                    split(enhanced[frame, i], packet, ",")
                    if (!((frame, packet[1]) in has)) print frame "," packet[1] ",0," packet[2] ",0"
                }
            }
            print ",end," frames ",,whole"
        }' "$3" "$4"
}

# A frame of 12,500 enhanced packets without core, the most that its log can have, after a million frames without words: no line is left out.
check_join_long() {
    local turn
    { head -c 4000000 /dev/zero
        for turn in 1 2; do
            printf '\x50\xc3'
            printf '\x01\x00\x3f\x00\x00\x00\x01\x41%.0s' {1..6250}
        done; } >long
    run join --in empty --enhanced long --enhanced-pdus 2
    ended "a frame of 12,500 packets" 0 join
    { echo "frame,number,core,enhanced,both"
        printf '1000000,63,0,1,0\n%.0s' {1..12500}
        echo ",end,1000001,,whole"; } >wanted
    same_file "a frame of 12,500 packets" wanted out
    rm long
}

# Which PDUs of a file came, each with a 1, and which are lost, each with a 0.
pdus_come() {
    od -An -v -tu1 -w1 "$1" | awk '
        left > 0 { left -= 1; next }
        !head { low = $1; head = 1; next }
        { left = low + 256 * $1; head = 0; print (left > 0) }'
}

# What a drive ought to give of which 4 packets of 50 bytes stand in each core PDU and 32 in each enhanced one, from which PDUs came: a packet is there if
# the PDU came in which it stands.
whole_by_hand() {
    pdus_come "$2" | paste -s >came
    pdus_come "$1" | paste -s >>came
    awk '
        NR == 1 { for (i = 1; i <= NF; i += 1) enhanced[i - 1] = $i; next }
        {
            print "frame,number,core,enhanced,both"
            for (frame = 0; frame < NF / 8; frame += 1) {
                for (k = 0; k < 32; k += 1)
                    if ($(8 * frame + int(k / 4) + 1)) print frame "," (32 * frame + k) % 64 ",50," 50 * enhanced[frame] "," enhanced[frame]
                for (k = 0; k < 32; k += 1)
                    if (enhanced[frame] && !$(8 * frame + int(k / 4) + 1)) print frame "," (32 * frame + k) % 64 ",0,50,0"
            }
            print ",end," NF / 8 ",,whole"
        }' came
}

# Logs either stream and joins them: the files of PDUs that came.
joins() {
    rm -f core.log enhanced.log
    run log --in "$1" --mode 1 --format records --out core.log
    run log --in "$2" --mode 1 --stream 1 --format records --out enhanced.log
    run join --in core.log --enhanced enhanced.log
}

# A drive of 320 packets of which each frame has the same 32 in both streams: without a loss all have both parts; with losses those whose PDUs came. A
# file that begins a frame too late is doubted.
check_join_whole() {
    local seed question="do both files begin with the same frame, and do the same packets end in each frame of both?"
    rm -f core* enhanced*
    records 320 50 >fifty
    run generate --in fifty --mode 1 --length 224 --out core
    run generate --in fifty --mode 1 --stream 1 --length 1710 --out enhanced
    joins core enhanced
    same "a drive without a loss" "$(whole_by_hand core enhanced)" "$(cat out)"
    said "a drive without a loss" 0 join "barzhilup join: frames 10: refused with 23 0, with 24 0
barzhilup join: packets: core alone 0, both 320, enhanced dropped 0"
    for seed in 1 2 3; do
        rm -f core.came enhanced.came
        run channel --in core --seed "$seed" --loss 150 --out core.came
        run channel --in enhanced --seed "$((seed + 9))" --loss 250 --out enhanced.came
        joins core.came enhanced.came
        same "a drive with losses, seed $seed" "$(whole_by_hand core.came enhanced.came)" "$(cat out)"
        same "nothing is doubted, seed $seed" 2 "$(wc -l <err)"
    done
    tail -c +1713 enhanced >later
    joins core later
    said "an enhanced file that begins a frame later" 0 join "barzhilup join: frames 10: refused with 23 0, with 24 0
barzhilup join: packets: core alone 320, both 0, enhanced dropped 288
barzhilup join: frames without a loss whose packets yet are alone and dropped: 9: $question"
    # PDUs of other lengths: the same packets come, and end in other frames
    rm -f enhanced
    run generate --in fifty --mode 1 --stream 1 --length 1500 --out enhanced
    joins core enhanced
    same "packets that end in other frames are doubted" 1 "$(grep -c "^barzhilup join: frames without a loss whose packets yet are alone and dropped: [0-9]*: $question" err || true)"
}

# Both streams of a drive with losses: the result is what a join of the two CSVs by hand gives.
check_join_drive() {
    local seed
    for seed in 1 2 3 4; do
        rm -f core* enhanced*
        records 60 40 | run_quietly generate --mode 1 --length 120 --out core
        records 60 30 | run_quietly generate --mode 1 --stream 1 --length 400 --out enhanced
        run channel --in core --seed "$seed" --loss 120 --out core.came
        run channel --in enhanced --seed "$((seed + 9))" --loss 120 --out enhanced.came
        run log --in core.came --mode 1 --format records --out core.log
        run log --in core.came --mode 1 --format csv --out core.csv
        run log --in enhanced.came --mode 1 --stream 1 --format records --out enhanced.log
        run log --in enhanced.came --mode 1 --stream 1 --format csv --out enhanced.csv
        run join --in core.log --enhanced enhanced.log
        same "a drive joined, seed $seed" "$(joined_by_hand 8 1 <(older core.csv) <(older enhanced.csv))" "$(cat out)"
        ended "a drive joined, seed $seed" 0 join
        has_line "its counts" "$(awk -F , '
            NR > 1 && $2 != "end" && $3 > 0 && $5 == 0 { alone += 1 }
            $5 == 1 { both += 1 }
            $3 == 0 && $4 > 0 { dropped += 1 }
            END { print "barzhilup join: packets: core alone " alone + 0 ", both " both + 0 ", enhanced dropped " dropped + 0 }' out)" err
    done
}

# Runs a subcommand on standard input that has to do all.
run_quietly() {
    "$program" "$@" 2>err
}
