# Entitled programs (document 02, Ask 10): which PDUs are withheld, what the log, the summary and the picture say of them, alone, in batches, as pairs and with
# marks, and lists that are none or are refused. Sourced by run.sh.

# The settings of programs 3 and 5; applied services 1 go with class and access 1 only (document 01, "Expansion, PSD, pieces").
program_three=(--class 1 --program 3 --access 1)
program_five=(--class 1 --program 5 --access 1)

# PDUs of program 3, of the same packets in the same places, by the packets, the mode, the length and the PSD: free ones, with applied services 0, and paid
# ones, with 1.
make_programs() { # PACKETS MODE LENGTH [PSD]
    run generate --in "$1" --mode "$2" --length "$3" --psd "${4:-psd}" "${program_three[@]}" --services 0
    cp out free
    run generate --in "$1" --mode "$2" --length "$3" --psd "${4:-psd}" "${program_three[@]}" --services 1
    cp out paid
    size=$(($3 + 2))
    programmed=$(($(stat -c %s paid) / size))
}

# PDUs of program 5, free and paid, of the same packets in the same places.
make_program_five() { # PACKETS MODE LENGTH
    run generate --in "$1" --mode "$2" --length "$3" --psd psd "${program_five[@]}" --services 0
    cp out free.five
    run generate --in "$1" --mode "$2" --length "$3" --psd psd "${program_five[@]}" --services 1
    cp out paid.five
}

# The PDU of a number of one of these files.
pdu_of() { # FILE PDU
    head -c $((size * ($2 + 1))) "$1" | tail -c "$size"
}

# PDUs from the first on, each free or paid as the letters say, f or p, or F or P of program 5; x is one that is lost.
chosen() { # LETTERS
    local pdu
    for ((pdu = 0; pdu < ${#1}; pdu += 1)); do
        case ${1:pdu:1} in
            f) pdu_of free "$pdu" ;;
            p) pdu_of paid "$pdu" ;;
            F) pdu_of free.five "$pdu" ;;
            P) pdu_of paid.five "$pdu" ;;
            x) record 0 ;;
        esac
    done
}

# The PDUs that a CSV has as withheld, in a line.
withheld_in() {
    sed -n 's/^\([0-9]*\),note,,,,,,,8,withheld,,,,,$/\1/p' "$1" | tr '\n' ' ' | sed 's/ $//'
}

# How many PDUs the summary of a log, or the line of a picture, has as withheld.
withheld_said() {
    sed -n 's/.*received [^;]*, \(of these \)\?withheld \([0-9]*\)[, ].*/\2/p' err | head -n 1
}

# Lists that are none are asked wrongly, those with a number over 7 or one twice are refused; nothing is made.
check_entitled_values() {
    local list
    for list in '' x '1,' ,1 1,,2 '1 2' '1;2' 1.2 -1 +1 None 'none,' none,1 all 4294967296 0,1,2,3,4,5,6,7,0,x; do
        wrong "barzhilup log: --entitled: not none, nor numbers with commas between them: $list" log --in sent --entitled "$list" --out new
    done
    wrong "barzhilup log: --entitled: not none, nor numbers with commas between them: " log --entitled=
    wrong "barzhilup log: --mode: not a number from 0 to 255: x
barzhilup log: --entitled: not none, nor numbers with commas between them: y
barzhilup log: --format: not words, text, csv, json or records: z" log --format z --entitled y --mode x
    for list in 8 0,8 7,7 1,2,1 0,1,2,3,4,5,6,7,0 0,1,2,3,4,5,6,7,8 255 256 300 4294967295 1,1,1,1,1,1,1,1,1,1,1,1; do
        stops "barzhilup log: refused with 22: program number over 7 or repeated" log --in sent --entitled "$list" --out new
        there "a list that is refused" no new
    done
    stops "barzhilup log: refused with 22: program number over 7 or repeated" log --in none --entitled 8
    stops "$(unlisted_line)" log --mode 4 --in sent --entitled 8
    for list in generate channel coverage latency; do
        wrong "barzhilup $list: unknown option --entitled=3" "$list" --entitled=3
    done
}

# All programs, in any order, and the one that comes: as without the option, whatever the services are.
check_entitled_all() {
    local format list
    make_programs packets 0 300
    for format in words text csv; do
        run log --in paid --format "$format"
        cp out wanted
        cp err wanted.err
        for list in 0,1,2,3,4,5,6,7 7,6,5,4,3,2,1,0 3 03 5,3; do
            run log --in paid --format "$format" --entitled "$list"
            same_file "entitled to $list, $format" wanted out
            same_file "entitled to $list, $format, what is said" wanted.err err
            same "entitled to $list, $format, exit status" 0 "$status"
        done
        run log --in free --format "$format"
        cp out wanted
        run log --in free --format "$format" --entitled=none
        same_file "services 0 and entitled to none, $format" wanted out
    done
    run log --in sent --format csv
    cp out wanted
    run log --in sent --format csv --entitled none
    same_file "services that are not sent and entitled to none" wanted out
}

# A paid program, and a receiver that is not entitled to it: each PDU is received and withheld, and nothing else is logged.
check_entitled_none() {
    local list
    printf '\0\0\10\300' >word
    for list in none 0,1,2,4,5,6,7; do
        run log --in paid --format csv --entitled "$list"
        same "entitled to $list, the CSV" "$(awk -v many="$programmed" -v title="$older_title" 'BEGIN { print title; for (k = 0; k < many; k += 1) print k ",received,0,300,,0,0\n" k ",note,0,,withheld,,"; print ",end," many ",,whole,," }')" "$(older out)"
        said "entitled to $list" 0 log "barzhilup log: PDUs $programmed: received $programmed, of these withheld $programmed, lost 0, refused 0
barzhilup log: headers corrected 0, bytes corrected 0
barzhilup log: packets 0, PSD entries 0, notes $programmed
barzhilup log:   note withheld: $programmed
$(loss_line 0 0)"
        run log --in paid --entitled "$list"
        same "entitled to $list, the text" "$(awk -v many="$programmed" 'BEGIN { for (k = 0; k < many; k += 1) print "PDU " k ": received, 0 header bytes corrected\n  note: withheld" }')" "$(cat out)"
        run log --in paid --format words --entitled "$list"
        same "entitled to $list, the words" "$(copies "$programmed" word | od -An -v -tx1)" "$(od -An -v -tx1 out)"
    done
}

# A packet of 200 bytes in PDUs of one piece each: it follows the right of the PDU in which it began.
check_entitled_spans() {
    record 200 >big
    make_programs big 0 120
    same "a packet of 200 bytes in PDUs of 120" 3 "$programmed"
    chosen fpp >mixed
    run log --in mixed --format csv --entitled none
    same "begun in a free PDU" "0,received,0,120,
0,psd,,14,
1,received,0,120,
1,note,0,,withheld
2,received,0,120,
2,note,0,,withheld
2,packet,0,200," "$(bare out | grep '^[0-9]')"
    same_in_batches "begun in a free PDU" mixed --entitled none
    same_in_pair "begun in a free PDU" mixed 3
    chosen pff >mixed
    run log --in mixed --format csv --entitled none
    same "begun in a paid PDU" "0,received,0,120,
0,note,0,,withheld
1,received,0,120,
1,psd,,14,
1,note,0,,nothing held
2,received,0,120,
2,psd,,14,
2,note,0,,nothing held" "$(bare out | grep '^[0-9]')"
    same_in_batches "begun in a paid PDU" mixed --entitled none
    same_in_pair "begun in a paid PDU" mixed 2
    { pdu_of free 0; pdu_of paid 0; pdu_of paid 1; } >mixed
    run log --in mixed --entitled none
    same "a paid PDU that does not continue" "PDU 1: received, 0 header bytes corrected
  note: sequence
  note: withheld
PDU 2: received, 0 header bytes corrected
  note: withheld" "$(sed -n '/^PDU 1/,$p' out)"
    same_in_batches "a paid PDU that does not continue" mixed --entitled none
    same_in_pair "a paid PDU that does not continue" mixed 1
    check_entitled_asked
}

# A check of a file with itself: the words are those of the file alone, each copy alone has its withheld PDUs, and so many pieces were looked at.
same_in_pair() { # WHAT FILE PIECES
    run log --in "$2" --format words --entitled none
    cp out wanted
    { alone_withheld first; alone_withheld second; } >wanted.err
    run log --in "$2" --second "$2" --format words --entitled none
    same_file "$1, with itself" wanted out
    same "$1, with itself, what each gives alone" "$(cat wanted.err)" "$(grep ' alone: ' err)"
    has_line "$1, with itself, the pieces that were looked at" \
        "barzhilup log: pieces taken from the first copy 0, from the second 0, alike in both $3" err
}

# The line of the summary for what a file gives alone, from the summary of its own log.
alone_withheld() {
    local count
    count=$(withheld_said)
    sed 's/, of these withheld [0-9]*//' err >plain.err
    alone_line "$1" plain.err | sed "s/\(received [0-9]*\);/\1${count:+, of these withheld $count};/"
}

# Pieces that were not looked at count neither as right nor as wrong: whether nearly all CRCs were wrong is asked as if they were not there. Two right ones, one
# of them held on in a withheld PDU, and then wrong ones, with paid PDUs of many pieces between them.
check_entitled_asked() {
    local count
    run generate --in one --length 120 --crc-start 255
    cp out one.wrong
    for count in 32 33; do
        { pdu_of free 0; pdu_of paid 1; copies "$count" one.wrong; } >mixed
        run log --in mixed --entitled none
        same "$count wrong CRCs to two right ones" $((count - 32)) "$(grep -c 'nearly all CRCs' err || true)"
        same_in_batches "$count wrong CRCs to two right ones" mixed --entitled none
    done
    records 6 10 >short
    run generate --in short --length 120 "${program_three[@]}" --services 1
    { cat one.wrong out one.wrong; } >mixed
    run log --in mixed --entitled none
    has_line "wrong CRCs beside a withheld PDU of six pieces" "$(all_wrong_line 0)" err
    same_in_batches "wrong CRCs beside a withheld PDU of six pieces" mixed --entitled none
}

# For each packet of a file of PDUs of 300 bytes, in order, the PDU in which it began: by the pieces of each PDU, and by the packets that its log has.
begins() { # FILE CSV
    od -An -v -tu1 -w302 "$1" | awk '{ print int($15 / 2) % 64 }' | awk -F , '
        FNR == NR { pieces[many++] = $1; next }
        $2 == "packet" { ended[$1] += 1 }
        END {
            begun = -1
            for (k = 0; k < many; k += 1) {
                for (i = 0; i < ended[k]; i += 1) { print begun < 0 ? k : begun; begun = -1 }
                if (ended[k] < pieces[k] && begun < 0) begun = k
            }
        }' - "$2"
}

# Drives whose services change from PDU to PDU: the log has exactly the packets that began in a free one, alone, in batches, as a pair and with marks.
check_entitled_drives() {
    local letters samples=$here/../../samples
    make_programs "$samples/packets" 0 300
    run log --in free --format csv
    cp out all.csv
    begins free all.csv >begun
    same "each packet has its beginning" "$(grep -c '[0-9],packet,' all.csv)" "$(wc -l <begun)"
    for letters in fp ffppp pppffffp fffffffffp pf ppppppppppppppppppppf; do
        letters=$(awk -v many="$programmed" -v some="$letters" 'BEGIN { while (length(all) < many) all = all some; print substr(all, 1, many) }')
        chosen "$letters" >mixed
        grep '[0-9],packet,' all.csv | paste -d ' ' begun - | awk -v letters="$letters" 'substr(letters, $1 + 1, 1) == "f" { print $2 }' >wanted
        run log --in mixed --format csv --entitled 0,7
        ended "a drive ${letters:0:24}" 0 log
        cp out mixed.csv
        same_file "a drive ${letters:0:24}, its packets" wanted <(grep '[0-9],packet,' mixed.csv)
        same "a drive ${letters:0:24}, the withheld PDUs" "$(awk -v letters="$letters" 'BEGIN { for (k = 1; k <= length(letters); k += 1) if (substr(letters, k, 1) == "p") print k - 1 }' | tr '\n' ' ' | sed 's/ $//')" "$(withheld_in mixed.csv)"
        same "a drive ${letters:0:24}, PSD" "$(tr -cd f <<<"$letters" | wc -c)" "$(grep -c ',psd,' mixed.csv || true)"
        same "a drive ${letters:0:24}, how many it says" "$(tr -cd p <<<"$letters" | wc -c)" "$(withheld_said)"
        check_entitled_picture "${letters:0:24}"
        no_marks "$programmed" >none.marks
        run log --in mixed --marks none.marks --format csv --entitled 0,7
        same_file "a drive ${letters:0:24}, with marks" mixed.csv out
        run log --in mixed --second mixed --format csv --entitled 0,7
        same_file "a drive ${letters:0:24}, with itself" mixed.csv <(sed 's/,either,/,,/' out)
    done
    same_in_batches "a drive of two kinds" mixed --entitled 0,7
    same_in_batches "a drive of two kinds by another register" mixed --entitled 0,7 --crc-start 9
    run channel --in mixed --seed 5 --loss 100 --bytes 5
    cp out mixed
    same_in_batches "a damaged drive of two kinds" mixed --entitled 0,7
}

# Drives of programs 3 and 5, each free and paid by turns: a list withholds the paid PDUs of the programs that it has not.
check_entitled_two() {
    local list barred letters samples=$here/../../samples
    make_programs "$samples/packets" 0 300
    make_program_five "$samples/packets" 0 300
    run log --in free --format csv
    cp out all.csv
    begins free all.csv >begun
    letters=$(awk -v many="$programmed" 'BEGIN { while (length(all) < many) all = all "fFpPfPPpFpp"; print substr(all, 1, many) }')
    chosen "$letters" >mixed
    while read -r list barred; do
        grep '[0-9],packet,' all.csv | paste -d ' ' begun - | awk -v letters="$letters" -v barred="$barred" '!index(barred, substr(letters, $1 + 1, 1)) { print $2 }' >wanted
        run log --in mixed --format csv --entitled "$list"
        ended "two programs, entitled to $list" 0 log
        same_file "two programs, entitled to $list, the packets" wanted <(grep '[0-9],packet,' out)
        same "two programs, entitled to $list, the withheld PDUs" "$(awk -v letters="$letters" -v barred="$barred" 'BEGIN { for (k = 1; k <= length(letters); k += 1) if (index(barred, substr(letters, k, 1))) print k - 1 }' | tr '\n' ' ' | sed 's/ $//')" "$(withheld_in out)"
        same_in_batches "two programs, entitled to $list" mixed --entitled "$list"
    done <<'LISTS'
3,5 x
5,3 x
3,4 P
5,7 p
2,5 p
4,6 pP
5 p
none pP
LISTS
}

# The picture of a log, and the line of its totals: a hollow cell for each withheld PDU. What is withheld counts as missing.
check_entitled_picture() { # WHAT
    local many
    many=$(grep -c ',withheld,,,,,$' mixed.csv)
    same "a drive $1, delivered and missing" "$(counted_loss mixed.csv)" "$(last_loss mixed.csv)"
    run coverage --in mixed.csv
    ended "the picture of a drive $1" 0 coverage
    same "the picture of a drive $1, how many it says" "$many" "$(withheld_said)"
    same "the picture of a drive $1, delivered and missing" "$(loss_said "$(counted_loss mixed.csv)")" "$(said_loss)"
    same "the picture of a drive $1, hollow cells, and one in the legend" $((many + 1)) "$(grep -c 'class="i"' out || true)"
    same "the picture of a drive $1, the legend" 1 "$(grep -c ">received, and withheld: $many<" out || true)"
    if command -v xmllint >/dev/null; then
        same "the picture of a drive $1 is XML" "" "$(xmllint --noout out 2>&1)"
    fi
}

# A note for a withheld PDU counts once, and only for one that was received. Without withheld PDUs there is no cell for one.
check_entitled_noted() {
    draws_lines 0,received,0,96,,0,0 0,note,0,,withheld,, 0,note,0,,withheld,, 1,lost,,,,0,0 1,note,0,,withheld,, 2,refused,4,96,,0,0 2,note,0,,withheld,,
    same "noted twice, and for a lost PDU, how many" 1 "$(withheld_said)"
    same "noted twice, and for a lost PDU, hollow cells, and one in the legend" 2 "$(grep -c 'class="i"' out || true)"
    run coverage --in log.csv
    same "no withheld PDUs, no cell of one" 0 "$(grep -c 'received, and withheld\|class="i"' out || true)"
    same "no withheld PDUs, how many" "" "$(withheld_said)"
}

# Core of mode 1: the value sent with sequence 0 counts until the next such; it is unknown before the first and after a lost PDU, and then a free program that
# is not listed is withheld too.
check_entitled_kept() {
    records 40 79 >short
    make_programs short 1 150 empty
    same "PDUs of mode 1" yes "$([ "$programmed" -ge 20 ] && echo yes || echo no)"
    keeps "a free drive" "$(printf 'f%.0s' {1..20})" ""
    keeps "a value with sequence 3 is not taken" ffffpfffffpfffffffff ""
    keeps "a value with sequence 0 is taken" pffffffffffffffffffp "0 1 2 3 4 5 6 7"
    keeps "from the next such on" ffffffffpfffffffffff "8 9 10 11 12 13 14 15"
    keeps "a lost PDU" ffxfffffffffffffffff "3 4 5 6 7"
    keeps "a lost PDU of sequence 0" ffffffffxfffffffffff "9 10 11 12 13 14 15"
    { chosen ffffffffffffffffffff | tail -c +$((3 * size + 1)); } >mixed
    run log --mode 1 --in mixed --format csv --entitled none
    same "a log that begins with sequence 3" "0 1 2 3 4" "$(withheld_in out)"
    run log --mode 1 --in mixed --format csv --entitled 3
    same "the same with its program listed" "" "$(withheld_in out)"
    { chosen ffffffffff; pdu_of free 13; pdu_of free 14; pdu_of free 15; pdu_of free 16; } >mixed
    run log --mode 1 --in mixed --format csv --entitled none
    same "PDUs out of sequence" "10 11 12" "$(withheld_in out)"
    same_in_batches "PDUs out of sequence" mixed --mode 1 --entitled none
}

# Which PDUs of mode 1 are withheld from a receiver that is entitled to none, alone and in batches.
keeps() { # WHAT LETTERS WITHHELD
    chosen "$2" >mixed
    run log --mode 1 --in mixed --format csv --entitled none
    ended "$1" 0 log
    same "$1" "$3" "$(withheld_in out)"
    same_in_batches "$1" mixed --mode 1 --entitled none
}

# Two copies of which the first has a damaged piece that is not looked at: neither copy is preferred, and the piece counts for none.
check_entitled_pairs() {
    make_programs packets 0 300
    { altered paid 0 220; tail -c +303 paid; } >one.pdus
    run log --in one.pdus --second paid --format csv
    has_entry "a damaged piece, entitled" "0,received,0,300,second copy" out
    run log --in one.pdus --second paid --format csv --entitled none
    has_entry "a damaged piece, withheld" "0,received,0,300,either copy" out
    has_line "a damaged piece, withheld, the pieces" "barzhilup log: pieces taken from the first copy 0, from the second 0, alike in both 0" err
    has_entry "a damaged piece, withheld, the note" "0,note,0,,withheld" out
    cp out pair.csv
    run coverage --in pair.csv
    same "the picture of a withheld pair" "taken from the first copy 0, the second 0, both 0, either $programmed" "$(sed -n 's/.*; taken/taken/p' err)"
}
