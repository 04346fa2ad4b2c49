# What `log` writes beside its log: the delivered packets as records and in ADTS frames, the PSD, and the comparison with the packets that were sent. Sourced by
# run.sh.

# So many packets of 50 bytes that differ at both ends, from a number on.
told() { # FROM COUNT
    local i
    for ((i = $1; i < $1 + $2; i += 1)); do
        printf '\62\0%-25d%25d' "$i" "$i"
    done
}

# The files that are made beside a log.
beside_files() {
    rm -f beside.log beside.packets beside.adts beside.psd beside.list
}

# Logs a file with all files beside the log.
beside() { # FILE OPTION...
    beside_files
    run log --in "$1" --out beside.log --packets beside.packets --adts beside.adts --psd beside.psd "${@:2}"
}

# The lengths of the packets of a file.
lengths_of() { # FILE
    record_places "$1" | awk '{ print $2 - 2 }'
}

# Packets that all come: as they were sent, whatever the format and however they are received; the PSD once for each PDU.
check_beside_whole() {
    local format count options i
    count=$(record_places sent | wc -l)
    for ((i = 0; i < count; i += 1)); do
        cat psd
    done >psds
    records "$count" 0 >places
    for format in words text csv records; do
        for options in "--format $format" "--format $format --batch 4" "--format $format --marks places" "--format $format --second sent" "--format $format --entitled 0"; do
            # shellcheck disable=SC2086
            run log --in sent $options
            cp out wanted
            cp err wanted.err
            # shellcheck disable=SC2086
            beside sent $options
            same "beside $options, exit status" 0 "$status"
            same_file "beside $options, the log" wanted beside.log
            same_file "beside $options, what is said" wanted.err err
            same_file "beside $options, packets" packets beside.packets
            same_file "beside $options, PSD" psds beside.psd
            run generate --in beside.adts --adts --psd psd --length 300
            same_file "beside $options, frames" sent out
        done
    done
}

# The header of a frame, and packets of the least and the greatest length.
check_beside_frames() {
    { record 1; record 4096; record 2041; } >few
    run generate --in few
    cp out few.sent
    beside few.sent
    same_file "packets of 1, 4,096 and 2,041 bytes" few beside.packets
    same "frame of 1 byte" " ff f1 5c 80 01 1f fc 00" "$(od -An -v -tx1 -N 8 beside.adts)"
    same "frame of 4,096 bytes" " ff f1 5c 82 00 ff fc" "$(od -An -v -tx1 -j 8 -N 7 beside.adts)"
    same "frame of 2,041 bytes" " ff f1 5c 81 00 1f fc" "$(od -An -v -tx1 -j 4111 -N 7 beside.adts)"
    same "three frames" $((8 + 4103 + 2048)) "$(wc -c <beside.adts)"
}

# A bad road: packets, frames and PSD are what the CSV has.
check_beside_drives() {
    local seed
    for seed in 1 2 3; do
        run channel --in sent --seed "$seed" --loss 200 --bursts 100 --bytes 5
        cp out road
        beside road --format csv
        ended "beside a drive, seed $seed" 0 log
        same "beside a drive, seed $seed, packets" "$(awk -F , '$2 == "packet" { print $7 }' beside.log)" "$(lengths_of beside.packets)"
        same "beside a drive, seed $seed, PSD" $((14 * $(grep -c "^[0-9]*,psd," beside.log))) "$(wc -c <beside.psd)"
        cp beside.packets wanted
        cp beside.adts wanted.adts
        beside road --batch 8
        same_file "beside a drive by frames, seed $seed, packets" wanted beside.packets
        same_file "beside a drive by frames, seed $seed, ADTS" wanted.adts beside.adts
    done
}

# How the files are made, and what is asked wrongly.
check_beside_asked() {
    local option
    for option in packets adts compared; do
        wrong "barzhilup log: --$option: names no file" log --in sent --out new --sent packets "--$option="
    done
    for option in packets adts psd compared; do
        wrong "barzhilup log: --$option: standard output has another file" log --in sent --sent packets "--$option" -
        wrong "barzhilup log: --$option: standard output has another file" log --in sent --sent packets --out - "--$option" -
    done
    for option in packets adts psd sent; do
        wrong "barzhilup log: --$option: not with --save or --resume" log --in sent --out new --save state "--$option" packets
        wrong "barzhilup log: --$option: not with --save or --resume" log --in sent --out new --resume state "--$option" packets
    done
    wrong "barzhilup log: --adts: standard output has another file" log --in sent --out new --adts - --packets -
    wrong "barzhilup log: --sent: standard input has another file" log --sent -
    wrong "barzhilup log: --sent: standard input has another file" log --in sent --second - --sent -
    wrong "barzhilup log: --sent: names no file" log --in sent --sent=
    wrong "barzhilup log: --compared: nothing is compared (--sent)" log --in sent --compared new
    wrong "barzhilup log: --sent-adts: nothing is compared (--sent)" log --in sent --sent-adts
}

# A file that is there keeps its name and its bytes, and nothing else is made; with --force it is renamed.
check_beside_made() {
    local option
    for option in packets adts psd compared; do
        beside_files
        cp sent beside.taken
        stops "barzhilup log: beside.taken: File exists (--force renames it beside.taken~ first)" log --in sent --out beside.log --sent packets "--$option" beside.taken
        there "$option that is there" no beside.log
        same_file "$option that is there" sent beside.taken
        rm -f beside.taken~
        run log --in sent --out beside.log --sent packets "--$option" beside.taken --force
        same "$option --force, exit status" 0 "$status"
        same_file "$option --force, the old file" sent beside.taken~
        same "$option --force, the new file" yes "$([ -s beside.taken ] && echo yes || echo no)"
        rm -f beside.taken beside.taken~
    done
    beside_files
    stops "barzhilup log: none/psd: No such file or directory" log --in sent --out beside.log --packets beside.packets --adts beside.adts --psd none/psd
    same "where one cannot be made, no other is" "" "$(ls beside.* 2>/dev/null || true)"
}

# One of the files on standard output, and a device that is full.
check_beside_output() {
    local option
    beside sent
    for option in packets adts psd; do
        rm -f other.log
        run log --in sent --out other.log "--$option" -
        ended "--$option -" 0 log
        same_file "--$option -" "beside.$option" out
        rm -f other.log
        run_to /dev/full log --in sent --out other.log "--$option" -
        ended "--$option - to a full device" 1 log
        has_line "--$option - to a full device" "barzhilup log: standard output: No space left on device" err
    done
    rm -f other.log
    run_to /dev/full log --in sent --out other.log --sent packets --compared -
    ended "--compared - to a full device" 1 log
    has_line "--compared - to a full device" "barzhilup log: standard output: No space left on device" err
    rm -f other.log
}

# The lines of a comparison.
compared_lines() { # SENT DELIVERED MISSING SHARE BEFORE AFTER LATE AGAIN NEVER
    echo "barzhilup log: packets sent $1: delivered $2, missing $3 ($4 % of those sent), of these before the first delivered $5, after the last $6
barzhilup log: packets delivered out of turn $7, delivered again $8, never sent $9"
}

# The lines of packets that were sent, in the order of the file.
list_in_order() {
    grep ',delivered,\|,missing,' beside.list | sort -t , -n -k 1,1
}

# Logs a file against the packets of another, with a list; the log is that without the comparison.
compared() { # SENT FILE OPTION...
    local format=(--format csv)
    run log --in "$2" "${format[@]}" "${@:3}"
    cp out wanted
    beside_files
    run log --in "$2" --out beside.log "${format[@]}" --sent "$1" --compared beside.list "${@:3}"
    same_file "${*:3} compared: the log" wanted beside.log
}

# A check of the list: the packets sent stand in it each once, by index, number and length, delivered or missing; the delivered ones are those of the log.
right_list() { # WHAT SENT
    same "$1, the list's first line" index,number,length,state,pdu "$(head -n 1 beside.list)"
    same "$1, the packets sent" "$(lengths_of "$2" | awk '{ print NR - 1 "," (NR - 1) % 64 "," $1 }')" "$(list_in_order | cut -d , -f 1-3)"
    same "$1, those that came" "$(awk -F , '$2 == "packet" { print $6 "," $7 "," $1 }' beside.log)" "$(grep ',delivered,\|,again,\|,never sent,' beside.list | cut -d , -f 2,3,5)"
    same "$1, the list's last line" ",end,$(lengths_of "$2" | wc -l),,whole" "$(tail -n 1 beside.list)"
}

# Whole drives over bad roads: no packet comes that was never sent, and the loss is exact.
check_sent_drives() {
    local seed options delivered
    told 0 600 >all
    run generate --in all --length 512
    cp out all.sent
    for seed in 1 2 3 4; do
        run channel --in all.sent --seed "$seed" --loss 150 --bursts 60 --bytes 6
        cp out road
        for options in "" "--batch 8" "--second road"; do
            # shellcheck disable=SC2086
            compared all road $options
            same "compared, seed $seed $options, exit status" 0 "$status"
            right_list "compared, seed $seed $options" all
            delivered=$(grep -c ,delivered, beside.list)
            has_line "compared, seed $seed $options, the counts" "$(compared_lines 600 "$delivered" $((600 - delivered)) "$(awk -v n=$((600 - delivered)) 'BEGIN { t = int((n * 1000 + 300) / 600); print int(t / 10) "." t % 10 }')" "$(list_in_order | awk -F , '$4 == "delivered" && !n++ { print $1 }')" "$(list_in_order | awk -F , '$4 == "delivered" { n = 0 } $4 == "missing" { n++ } END { print n + 0 }')" 0 0 0 | sed -n 1p)" err
            has_line "compared, seed $seed $options, none was never sent" "$(compared_lines 0 0 0 0 0 0 0 0 0 | tail -n 1)" err
        done
    done
    compared all all.sent
    has_line "compared, all come" "$(compared_lines 600 600 0 0.0 0 0 0 0 0 | sed -n 1p)" err
    ended "compared, all come" 0 log
}

# The PDUs of the file all.sent, which have 512 bytes, by their numbers.
all_pdus() {
    local number
    for number in "$@"; do
        head -c $((514 * (number + 1))) all.sent | tail -c 514
    done
}

# PDUs that come again or out of turn, and a drive of which the beginning and the end are missing.
check_sent_again() {
    local k
    all_pdus 3 4 5 >road
    compared all road
    k=$(grep -c ,delivered, beside.list)
    ended "the beginning and the end missing" 0 log
    right_list "the beginning and the end missing" all
    same "the beginning is missing" yes "$(sed -n 's/.* before the first delivered \([0-9]*\), after the last \([0-9]*\)$/\1 \2/p' err | awk -v k="$k" '{ print ($1 > 20 && $1 + $2 + k <= 600 ? "yes" : "no") }')"
    all_pdus 3 4 4 5 3 7 >road
    compared all road
    ended "PDUs again and out of turn" 0 log
    right_list "PDUs again and out of turn" all
    same "PDUs again and out of turn, which" "2 4" "$(grep ,again, beside.list | cut -d , -f 5 | uniq | tr '\n' ' ' | sed 's/ $//')"
    same "PDUs again: as many as the counts say" "$(compared_lines 0 0 0 0 0 0 0 "$(grep -c ,again, beside.list)" 0 | tail -n 1)" "$(tail -n 1 err)"
    cat all.sent all.sent >road
    compared all road
    ended "a drive twice" 0 log
    has_line "a drive twice" "$(compared_lines 0 0 0 0 0 0 0 600 0 | tail -n 1)" err
}

# What a comparison has to say of packets that `told` made, by the indices that the delivered ones have in their bytes: the lines of those that came, of those that
# are missing, and the two lines of counts.
truth_told() { # COUNT
    tr '\0' ' ' <beside.packets | fold -b -w 52 | cut -b 3-27 | awk -v n="$1" '
        { i = $1 + 0 }
        i in seen { again++; print i "," i % 64 ",50,again"; next }
        { seen[i] = 1; came++; print i "," i % 64 ",50,delivered"; if (i < top) late++; else top = i + 1; if (came == 1 || i < first) first = i }
        END {
            for (i = 0; i < n; i++) if (!(i in seen)) print i "," i % 64 ",50,missing"
            t = int(((n - came) * 1000 + int(n / 2)) / n)
            print "barzhilup log: packets sent " n ": delivered " came + 0 ", missing " n - came " (" int(t / 10) "." t % 10 " % of those sent), of these before the first delivered " first + 0 ", after the last " n - top
            print "barzhilup log: packets delivered out of turn " late + 0 ", delivered again " again + 0 ", never sent 0"
        }'
}

# Compares a road with packets that `told` made, and holds list and counts to the truth.
right_told() { # WHAT COUNT FILE OPTION...
    rm -f beside.packets
    compared "${@:3}" --packets beside.packets
    ended "$1" 0 log
    truth_told "$2" >truth
    same "$1, the list" "$(grep -v '^barz' truth)" "$(sed '1d;$d' beside.list | cut -d , -f 1-4)"
    same "$1, the counts" "$(grep '^barz' truth)" "$(tail -n 2 err)"
    right_list "$1" "$3"
}

# PDUs lost in long bursts, twice in a row, twice later and out of turn, in every mixture: what is missing is just what never came.
check_sent_disorder() {
    local seed late=0 again=0
    for seed in 1 2 3 4 5 6; do
        run channel --in all.sent --seed "$seed" --loss $((seed % 3 * 60)) --burst 30 --damage 0 --twice $((seed % 2 * 300 + 50)) --swap 200 --cut $((seed % 4 * 10))
        cp out road
        right_told "disorder, seed $seed" 600 all road
        right_told "disorder by frames, seed $seed" 600 all road --batch 8
        right_told "disorder by pairs, seed $seed" 600 all road --second road
        late=$((late + $(sed -n 's/.* out of turn \([0-9]*\),.*/\1/p' truth)))
        again=$((again + $(sed -n 's/.* again \([0-9]*\),.*/\1/p' truth)))
    done
    same "disorder reaches packets out of turn and again" "yes yes" "$([ "$late" -gt 100 ] && echo yes) $([ "$again" -gt 100 ] && echo yes)"
    { all_pdus 40 41 42; records 1 0; all_pdus 3 4 5 6; records 1 0; all_pdus 41 42 43 4 5 7 0 1 2; } >road
    right_told "parts of a drive in another order" 600 all road
    cp beside.list wanted
    beside_files
    run log --in all.sent --adts all.adts
    run log --in road --out beside.log --sent all.adts --sent-adts --compared beside.list
    ended "parts of a drive in another order, ADTS" 0 log
    same_file "parts of a drive in another order, ADTS" wanted beside.list
}

# Packets that are alike: of those with the same number and bytes as many are delivered as came, up to all that were sent.
check_sent_alike() {
    local i count
    for ((i = 0; i < 700; i += 1)); do
        printf '\62\0%50s' silence
    done >quiet
    run generate --in quiet --length 512
    cp out quiet.sent
    { head -c $((514 * 6)) quiet.sent; tail -c +$((514 * 5 + 1)) quiet.sent; } >road
    compared quiet road
    ended "a PDU twice in silence" 0 log
    right_list "a PDU twice in silence" quiet
    count=$(($(grep -c '^[0-9]*,packet,' beside.log) - 700))
    has_line "a PDU twice in silence" "$(compared_lines 700 700 0 0.0 0 0 0 0 0 | sed -n 1p)" err
    same "a PDU twice in silence, again" "$count" "$(sed -n 's/.* delivered again \([0-9]*\),.*/\1/p' err)"
    same "a PDU twice in silence, what is said last" "barzhilup log: packets sent that cannot be told apart from the one 64 before 636" "$(tail -n 1 err)"
    { head -c $((514 * 5)) quiet.sent; records 1 0; tail -c +$((514 * 20 + 1)) quiet.sent; } >road
    compared quiet road
    ended "a gap in silence" 0 log
    right_list "a gap in silence" quiet
    same "a gap in silence, missing" $((700 - $(grep -c '^[0-9]*,packet,' beside.log))) "$(grep -c ,missing, beside.list)"
    rm -f quiet quiet.sent
}

# Gaps of many packets, up to nearly all.
check_sent_far() {
    local gap
    told 0 3000 >long
    run generate --in long --length 1024
    cp out long.sent
    for gap in 10 70 140; do
        { head -c $((1026 * 5)) long.sent; records 1 0; tail -c +$((1026 * (5 + gap) + 1)) long.sent; } >road
        right_told "a gap of $gap PDUs" 3000 long road
    done
    rm -f long long.sent
}

# Packets that were never sent: of another drive, glued of two, and one byte altered. All PDUs are logged, and the status is 1.
check_sent_never() {
    local k
    told 700 600 >other.all
    compared other.all all.sent
    same "packets of another drive, exit status" 1 "$status"
    right_list "packets of another drive" other.all
    same "packets of another drive, lines" "5 1" "$(grep -c 'was never sent$' err) $(grep -cx 'barzhilup log: further packets that were never sent are counted only' err)"
    has_line "packets of another drive, counts" "$(compared_lines 600 0 600 100.0 0 600 0 0 0 | sed -n 1p)" err
    has_line "packets of another drive, never sent" "$(compared_lines 0 0 0 0 0 0 0 0 600 | tail -n 1)" err
    same "packets of another drive, the last line" "barzhilup log: all PDUs are logged, but packets came that were never sent: is the file of --sent that of this drive?" "$(tail -n 1 err)"
    run generate --in other.all --length 512
    { all_pdus 0 1; head -c $((514 * 3)) out | tail -c 514; tail -c +$((514 * 3 + 1)) all.sent; } >road
    compared all road
    same "packets glued of two, exit status" 1 "$status"
    right_list "packets glued of two" all
    same "packets glued of two, the PDUs" "2 3" "$(grep ',never sent,' beside.list | cut -d , -f 5 | uniq | tr '\n' ' ' | sed 's/ $//')"
    k=$(grep ',never sent,' beside.list | sed -n 1p | cut -d , -f 2)
    has_line "packets glued of two, the first" "barzhilup log: PDU 2: packet $k of 50 bytes was never sent" err
    cp all spoiled
    printf 'x' | dd of=spoiled bs=1 seek=$((52 * 100 + 30)) conv=notrunc 2>dd.err
    compared spoiled all.sent
    same "a byte altered, exit status" 1 "$status"
    has_line "a byte altered" "$(compared_lines 600 599 1 0.2 0 0 0 0 1 | sed -n 1p)" err
    same "a byte altered, the packet" "100,36,50,missing," "$(grep ,missing, beside.list)"
    same "a byte altered, what came" ",36,50,never sent" "$(grep ',never sent,' beside.list | cut -d , -f 1-4)"
    tail -c +53 all >spoiled
    compared spoiled all.sent
    same "numbers that are shifted by one, exit status" 1 "$status"
    has_line "numbers that are shifted by one" "$(compared_lines 0 0 0 0 0 0 0 0 600 | tail -n 1)" err
}

# A packet of one byte, 1,048,577 times.
many_packets() {
    local i
    printf '\1\0x' >half.sent
    for ((i = 0; i < 10; i += 1)); do
        cat half.sent half.sent >whole.sent
        mv whole.sent half.sent
    done
    for ((i = 0; i < 1024; i += 1)); do
        cat half.sent
    done
    printf '\1\0x'
    rm half.sent
}

# The file of the packets that were sent: in ADTS frames, empty, cut, with a packet that none is, and one that cannot be gone back in.
check_sent_files() {
    local before
    compared packets damaged
    ended "sent as records" 0 log
    right_list "sent as records" packets
    cp beside.list wanted
    beside_files
    run log --in damaged --out beside.log --sent dump --sent-adts --compared beside.list
    ended "sent in ADTS frames" 0 log
    same_file "sent in ADTS frames" wanted beside.list
    compared empty all.sent
    same "nothing sent, exit status" 1 "$status"
    same "nothing sent, the list's last line" ",end,0,,whole" "$(tail -n 1 beside.list)"
    beside_files
    before=$(ls)
    head -c 5000 packets >cut.sent
    stops "barzhilup log: cut.sent: ends inside packet 7" log --in sent --sent cut.sent --out beside.log
    { cat one; record 0; } >cut.sent
    stops "barzhilup log: cut.sent: refused with 15: packet 1 has no bytes" log --in sent --sent cut.sent --out beside.log
    { cat one; record 4097; } >cut.sent
    stops "barzhilup log: cut.sent: refused with 15: packet 1 has over 4,096 bytes" log --in sent --sent cut.sent --out beside.log
    stops "barzhilup log: packets: no ADTS frame at packet 0" log --in sent --sent packets --sent-adts --out beside.log
    stops "barzhilup log: none: No such file or directory" log --in sent --sent none --out beside.log
    many_packets >cut.sent
    stops "barzhilup log: cut.sent: has over 1,048,576 packets, more than can be compared with" log --in sent --sent cut.sent --out beside.log
    rm cut.sent
    same "sent that cannot be compared with: nothing is made" "$before" "$(ls)"
    status=0
    # shellcheck disable=SC2002
    cat packets | "$program" log --in sent --sent - --out beside.log 2>err || status=$?
    said "sent by a pipe" 1 log "barzhilup log: standard input: is read more than once, so it cannot be a pipe or a terminal"
    there "sent by a pipe" no beside.log
    run log --in sent --sent - --out beside.log <packets
    ended "sent as standard input" 0 log
}

# A run that stops early: the list has the packets up to the last that came, and no last line.
check_sent_early() {
    head -c $((514 * 4 + 100)) all.sent >road
    compared all road
    ended "compared, cut" 1 log
    same "compared, cut, the list" "$(grep -c "^[0-9]*,packet," beside.log)" "$(($(wc -l <beside.list) - 1))"
    same "compared, cut, no last line" 0 "$(grep -c end beside.list || true)"
}
