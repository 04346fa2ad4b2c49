# Files of PDUs that are damaged: lengths that no PDU has, records that were cut with others written behind them, and bytes that are no records; and files whose
# mode and stream are not known. Sourced by run.sh.

# Lengths over 20,480 stop the log at their record, which is named with its place in the file; what is before it is logged. By frames and with marks it is the
# same.
check_long_records() {
    local length option
    pdus 0 3 >before
    run log --in before --format csv
    head -n -1 out >wanted
    records 5 0 >places
    for length in 20481 32768 65535; do
        { pdus 0 3; record "$length"; pdus 3 3; } >broken
        long_record "a record of $length bytes"
        cp err wanted.err
        for option in "--batch 1" "--batch 2" "--batch 3" "--batch 4" "--batch 64" "--marks places"; do
            # shellcheck disable=SC2086
            long_record "a record of $length bytes, $option" $option
            same_file "a record of $length bytes, $option, all that is said" wanted.err err
        done
    done
    same_in_batches "a record of 65535 bytes" broken
    check_long_pipes
    check_long_later
    check_long_second
    check_longest
}

# The log of the file broken stops at PDU 3, after the log that is wanted.
long_record() { # ABOUT OPTION...
    run log --in broken --format csv "${@:2}"
    ended "$1" 1 log
    same_file "$1, what is before it" wanted out
    same "$1, what is said" "$(long_line broken 3 906)" "$(head -n 1 err)"
}

# What is said of a record that is too long.
long_line() { # FILE PDU BYTE
    echo "barzhilup log: $1: the record of PDU $2, at byte $3, has a length over 20480, which no PDU has"
}

# The same where the file has no places.
check_long_pipes() {
    local option
    for option in "" "--batch 2" "--batch 8" "--marks places"; do
        status=0
        # shellcheck disable=SC2086
        cat broken | "$program" log $option >out 2>err || status=$?
        ended "a long record from a pipe $option" 1 log
        same "a long record from a pipe $option" "$(long_line "standard input" 3 906)" "$(head -n 1 err)"
    done
}

# A place that is far on, after PDUs of several lengths and lost ones, and after PDUs that are logged already.
check_long_later() {
    local option
    { cat damaged; record 0; record 95; cat damaged; } >before
    { cat before; record 30000; } >broken
    run log --in before --format words
    cp err before.err
    for option in "" "--batch 5" "--batch 64"; do
        # shellcheck disable=SC2086
        run log --in broken $option
        same "a long record far on $option" "$(long_line broken "$(pdus_logged before.err)" "$(stat -c %s before)")" "$(grep 'has a length' err)"
    done
    rm -f state made.csv
    run log --in damaged --out made.csv --save state
    for option in "" "--batch 5"; do
        # shellcheck disable=SC2086
        run log --in broken --resume state --skip $option
        ended "a long record after a state $option" 1 log
        same "a long record after a state $option" "$(long_line broken "$(pdus_logged before.err)" "$(stat -c %s before)")" "$(grep 'has a length' err)"
    done
    rm -f state made.csv
}

# How many PDUs the summary counts.
pdus_logged() {
    sed -n 's/^barzhilup log: PDUs \([0-9]*\):.*/\1/p' "$1"
}

# In either of two files; the other is not said to be wrong.
check_long_second() {
    { pdus 0 3; record 20481; pdus 3 3; } >broken
    pdus 0 3 >before
    run log --in before --second before --format csv
    head -n -1 out >wanted
    run log --in broken --second sent --format csv
    ended "a long record in the first file" 1 log
    same_file "a long record in the first file, what is before it" wanted out
    same "a long record in the first file, what is said" "$(long_line broken 3 906)" "$(head -n 1 err)"
    same "a long record in the first file, once" 1 "$(grep -c 'barzhilup log: \(broken\|sent\):' err)"
    run log --in sent --second broken --format csv
    ended "a long record in the second file" 1 log
    same_file "a long record in the second file, what is before it" wanted out
    same "a long record in the second file, what is said" "$(long_line broken 3 906)" "$(head -n 1 err)"
    status=0
    cat broken | "$program" log --in sent --second - >out 2>err || status=$?
    ended "a long record in the second file, a pipe" 1 log
    same "a long record in the second file, a pipe" "$(long_line "standard input" 3 906)" "$(head -n 1 err)"
}

# The longest PDU is none of them, and the shortest records are refused.
check_longest() {
    run generate --in packets --length 20480
    { cat out; record 1; record 95; } >broken
    run log --in broken --format csv
    ended "PDUs of the greatest length" 0 log
    same "PDUs of the greatest length, what is refused" 2 "$(grep -c ',refused,' out)"
}

# The channel stops at such a length too: what is before it comes through, from a pipe as well.
check_long_channel() {
    local length
    for length in 20481 65535; do
        { pdus 0 3; record "$length"; pdus 3 3; } >broken
        run channel --in broken --loss 0 --damage 0
        said "channel, a record of $length bytes" 1 channel "barzhilup channel: broken: the record of PDU 3, at byte 906, has a length over 20480, which no PDU has
barzhilup channel: PDUs 3 (lost before 0), lost 0, damaged 0, bytes altered 0"
        same_file "channel, what is before a record of $length bytes" <(pdus 0 3) out
    done
    status=0
    cat broken | "$program" channel --loss 0 --damage 0 --swap 1000 >out 2>err || status=$?
    ended "channel, a long record from a pipe" 1 channel
    same "channel, a long record from a pipe" "barzhilup channel: standard input: the record of PDU 3, at byte 906, has a length over 20480, which no PDU has" "$(head -n 1 err)"
    { pdus 0 1; record 20480; record 1; record 0; } >broken
    run channel --in broken --loss 0 --damage 0
    ended "channel, records of the greatest length and the least" 0 channel
    same_file "channel, records of the greatest length and the least" broken out
}

# What is passed over, and the log of it: the file's bytes as given, which PDUs are lost, how many bytes are passed over, and from where to where.
resynced() { # ABOUT LOST BYTES FROM TO
    run log --in broken --resync --format csv
    ended "$1" 0 log
    same "$1, what is said" "barzhilup log: broken: passed over $3 bytes, from byte $4 to byte $5: no record begins there" "$(head -n 1 err)"
    same "$1, lost PDUs" "$2" "$(sed -n 's/^\([0-9]*\),lost,.*/\1/p' out | tr '\n' ' ' | sed 's/ $//')"
    same "$1, none is refused" 0 "$(grep -c ',refused,' out || true)"
    has_line "$1, the summary" "barzhilup log: places passed over 1 (bytes $3), each logged as a lost PDU" err
    same "$1, the CSV is whole" 1 "$(grep -c ',end,' out)"
    cp out resynced
}

# So many PDUs of 300 bytes that are full of the sample packets, from one on.
busy_pdus() {
    head -c $((302 * ($1 + $2))) busy | tail -c $((302 * $2))
}

# Damage of all kinds in one place: the PDUs before and after it are logged as if one were lost there.
check_resync() {
    run generate --in "$here/../../samples/packets" --psd "$here/../../samples/psd" --length 300
    cp out busy
    run log --in busy --resync --format csv
    cp out wanted
    run log --in busy --format csv
    same_file "a file that is whole" wanted out
    { busy_pdus 0 3; printf '\377\377'; head -c 300 /dev/zero; busy_pdus 4 9; } >broken
    resynced "a wrong length" 3 302 906 1208
    { busy_pdus 0 3; record 0; busy_pdus 4 9; } >plain
    run log --in plain --format csv
    cp out plain.csv
    same_file "a wrong length, the log" plain.csv resynced
    { busy_pdus 0 3; head -c 200 < <(busy_pdus 3 1); busy_pdus 4 9; } >broken
    resynced "a record that was cut, with others behind it" 3 200 906 1106
    same_file "a record that was cut, the log" plain.csv resynced
    { busy_pdus 0 3; head -c 50 < <(busy_pdus 3 1); busy_pdus 4 9; } >broken
    resynced "a record that was cut inside its header" 3 50 906 956
    same_file "a record that was cut inside its header, the log" plain.csv resynced
    { busy_pdus 0 3; head -c 1 < <(busy_pdus 3 1); busy_pdus 4 9; } >broken
    resynced "a record that was cut inside its length" 3 1 906 907
    same_file "a record that was cut inside its length, the log" plain.csv resynced
    { busy_pdus 0 3; head -c 70001 /dev/zero | tr '\0' '\252'; busy_pdus 4 9; } >broken
    resynced "other bytes among the records" 3 70001 906 70907
    same_file "other bytes among the records, the log" plain.csv resynced
    check_resync_cuts
    check_resync_texts
    check_resync_zeros
    check_resync_ends
    check_resync_pipes
    check_resync_many
    check_resync_resumed
    check_resync_asked
}

# The PDUs of a drive of 300 bytes each from one on, and those before it.
behind() { # DRIVE PDU
    tail -c +$((302 * $2 + 1)) "$1"
}

ahead_of() { # DRIVE PDU
    head -c $((302 * $2)) "$1"
}

# The log of the file broken is that of a drive in whose place of damage one PDU is lost.
as_lost() { # ABOUT DRIVE PDU NEXT
    { ahead_of "$2" "$3"; record 0; behind "$2" "$4"; } >plain
    run log --in plain --format csv
    cp out wanted
    run log --in broken --resync --format csv
    ended "$1" 0 log
    same_file "$1, the log" wanted out
}

# A record that was cut after so many of its bytes, in its length, its header and each part of the PDU, in packets of zeros and in others: the PDU before it and
# all behind it are logged once, in turn.
check_resync_cuts() {
    local drive pdu bytes
    for drive in sent busy; do
        for pdu in 2 5 11; do
            for bytes in 1 2 3 10 14 16 20 32 50 66 84 97 98 99 150 201 299 300 301; do
                { head -c $((302 * pdu + bytes)) "$drive"; behind "$drive" $((pdu + 1)); } >broken
                as_lost "$drive, PDU $pdu cut after $bytes bytes" "$drive" "$pdu" $((pdu + 1))
            done
        done
    done
}

# Text among the records, of which two letters may read as a length.
check_resync_texts() {
    local drive line
    for drive in sent busy; do
        for line in "!" "OK" "AT+CSQ" "recorder: disk full, 12 records dropped" "$(seq 100 900)"; do
            { ahead_of "$drive" 4; echo "$line"; behind "$drive" 4; } >broken
            as_lost "$drive, ${#line} letters" "$drive" 4 4
        done
    done
}

# A length that no PDU has, with zeros behind it, where zeros are what packets have.
check_resync_zeros() {
    local bytes
    for bytes in 1 2 299 300 301 4000; do
        { ahead_of sent 6; printf '\377\377'; head -c "$bytes" /dev/zero; behind sent 7; } >broken
        as_lost "$bytes zeros" sent 6 7
    done
}

# Damage at the beginning and at the end, and nothing but damage.
check_resync_ends() {
    { head -c 77 /dev/zero | tr '\0' '\252'; busy_pdus 0 5; } >broken
    resynced "damage at the beginning" 0 77 0 77
    { busy_pdus 0 5; head -c 111 < <(busy_pdus 5 1); } >broken
    resynced "a file that is cut" 5 111 1510 1621
    head -c 3893 /dev/zero | tr '\0' '\252' >broken
    resynced "no records at all" 0 3893 0 3893
}

# PDUs that are lost, refused or damaged beside such places are what they are; and a pipe has the same log.
check_resync_pipes() {
    { cat damaged; record 0; record 95; busy_pdus 0 2; printf '\001\377\377'; cat damaged; records 3 0; } >broken
    run log --in broken --resync --format csv
    cp out wanted
    same "refused, lost and passed over" "$(grep -c ',received,' <(run log --in damaged --format csv && cat out out))" "$(($(grep -c ',received,' wanted) - 2))"
    status=0
    { head -c 1000 broken; sleep 0.1; tail -c +1001 broken; } | "$program" log --resync --format csv >out 2>err || status=$?
    ended "damage in a pipe" 0 log
    same_file "damage in a pipe" wanted out
    same "damage in a pipe, what is said" 1 "$(grep -c 'standard input: passed over 3 bytes' err)"
}

# The first five places are said.
check_resync_many() {
    local turn
    for turn in {0..6}; do
        busy_pdus "$turn" 2
        printf '\377\377\377'
    done >broken
    run log --in broken --resync --format csv
    same "seven places, how many are said" 5 "$(grep -c 'passed over 3 bytes' err)"
    has_line "seven places, the others" "barzhilup log: further places passed over are counted only" err
    has_line "seven places, the summary" "barzhilup log: places passed over 7 (bytes 21), each logged as a lost PDU" err
    same "seven places, lost PDUs" 7 "$(grep -c '^[0-9]*,lost,' out)"
}

# A run over a damaged file that is killed goes on: the places passed over are counted as the PDUs are.
check_resync_resumed() {
    { busy_pdus 0 3; head -c 700 /dev/zero | tr '\0' '\252'; busy_pdus 4 9; } >broken
    run log --in broken --resync --format csv
    cp out wanted
    { busy_pdus 0 3; head -c 700 /dev/zero | tr '\0' '\252'; busy_pdus 4 2; } >part
    rm -f state first.csv second.csv
    run log --in part --resync --format csv --out first.csv --save state
    ended "a damaged drive that is saved" 0 log
    run log --in broken --resume state --skip --resync --format csv --out second.csv
    ended "a damaged drive that is resumed" 0 log
    head -c "$(sed -n 's/.*goes on after [0-9]* PDUs and \([0-9]*\) bytes.*/\1/p' err)" first.csv >joined
    cat second.csv >>joined
    same_file "a damaged drive that is resumed" wanted joined
    run log --in part --resume state --skip --resync
    busy_pdus 0 3 >before
    run log --in before --resume state --skip --resync
    same "a file with fewer PDUs" "barzhilup log: before: has fewer than the 6 PDUs that are logged" "$(sed -n 2p err)"
    rm -f state first.csv second.csv
}

check_resync_asked() {
    local option
    for option in "--batch 2" "--marks marks" "--second sent"; do
        # shellcheck disable=SC2086
        wrong "barzhilup log: --resync: not with --batch, --marks or --second" log --in sent --resync $option
        # shellcheck disable=SC2086
        wrong "barzhilup log: --mode auto: not with --batch, --marks or --second" log --in sent --mode auto $option
    done
}

# Mode and stream of the first PDU that can be read.
check_mode_auto() {
    local mode stream
    for mode in "0 0" "1 0" "2 1" "3 1" "10 0" "10 1" "13 0"; do
        stream=${mode#* }
        mode=${mode% *}
        run generate --in packets --length 400 --mode "$mode" --stream "$stream"
        cp out auto
        run log --in auto --mode "$mode" --stream "$stream" --format csv
        cp out wanted
        run log --in auto --mode auto --format csv
        ended "mode $mode, stream $stream by itself" 0 log
        same "mode $mode, stream $stream by itself, what is said" "barzhilup log: auto: mode $mode, stream $stream, by the first PDU that can be read" "$(head -n 1 err)"
        same_file "mode $mode, stream $stream by itself" wanted out
    done
    check_auto_later
    check_auto_stream
    check_auto_none
}

# Lost and refused PDUs before the first that can be read, in a file and in a pipe; the PDUs before it are logged too.
check_auto_later() {
    { records 3 0; record 95; record 96; steps 0 1 2 3; pdus 0 1; } >auto
    run log --in auto --mode 1 --format csv
    cp out wanted
    run log --in auto --mode auto --format csv
    ended "lost and refused PDUs first" 0 log
    same_file "lost and refused PDUs first" wanted out
    status=0
    cat auto | "$program" log --mode=auto --format csv >out 2>err || status=$?
    ended "lost and refused PDUs first, from a pipe" 0 log
    same_file "lost and refused PDUs first, from a pipe" wanted out
    { printf '\377\377\377'; cat auto; } >broken
    run log --in broken --mode auto --resync --format csv
    ended "damage first" 0 log
    same "damage first, what is said" "barzhilup log: broken: mode 1, stream 0, by the first PDU that can be read" "$(head -n 1 err)"
    check_auto_stops
    check_auto_greetings
}

# Bytes before the first record that look like records themselves: a length of the PDUs, and greetings, of which two bytes are a length that a record may have.
check_auto_greetings() {
    local length text
    for length in 96 256 500 512 1024; do
        run generate --in packets --length "$length" --out greeted --force
        run log --in greeted --format csv
        grep -c ',packet,' out >wanted
        for text in A zzzz 'hello greeting' 'recorder: started' "$(printf '\377\377\377')"; do
            { printf %s "$text"; cat greeted; } >broken
            run log --in broken --mode auto --resync --format csv
            ended "PDUs of $length bytes behind $text" 0 log
            same "PDUs of $length bytes behind $text, what is said" "barzhilup log: broken: mode 0, stream 0, by the first PDU that can be read" "$(head -n 1 err)"
            same "PDUs of $length bytes behind $text, packets" "$(cat wanted)" "$(grep -c ',packet,' out)"
        done
        rm -f greeted greeted~
    done
}

# Damage before the first PDU that can be read, without --resync: the record in the way is said, and nothing is made. With --resync mode and stream are found
# behind bytes of all kinds.
check_auto_stops() {
    local line
    rm -f new
    run log --in broken --mode auto --out new
    said "damage first, without --resync" 1 log "$(long_line broken 0 0)
barzhilup log: broken: no PDU can be read in the 0 bytes before it (--resync looks behind it): mode and stream are not known"
    there "damage first, without --resync" no new
    { records 3 0; record 95; printf '\377\377\377'; steps 0 1 2 3; } >broken
    run log --in broken --mode auto
    said "damage later, without --resync" 1 log "$(long_line broken 4 103)
barzhilup log: broken: no PDU can be read in the 103 bytes before it (--resync looks behind it): mode and stream are not known"
    { printf 'OK'; steps 0 1 2 3; } >broken
    run log --in broken --mode auto
    said "a text first, without --resync" 1 log "barzhilup log: broken: ends inside the record of PDU 0
barzhilup log: broken: no PDU can be read in the 0 bytes before it (--resync looks behind it): mode and stream are not known"
    for line in "!" "OK" "AT+CSQ" "recorder: started" "$(seq 100 900)"; do
        { echo "$line"; steps 0 1 2 3; } >broken
        run log --in broken --mode auto --resync --format csv
        ended "a text of ${#line} letters first" 0 log
        same "a text of ${#line} letters first" "barzhilup log: broken: mode 1, stream 0, by the first PDU that can be read" "$(head -n 1 err)"
        same "a text of ${#line} letters first, PDUs" 4 "$(grep -c ',received,' out)"
    done
}

# Only PDUs of the stream that is given count.
check_auto_stream() {
    { steps 0 1 2; cat other; cat other; } >auto
    run log --in auto --mode auto --stream 1 --format csv
    ended "a stream that is given" 0 log
    same "a stream that is given" "barzhilup log: auto: mode 1, stream 1, by the first PDU that can be read" "$(head -n 1 err)"
    same "a stream that is given, PDUs of the other" 3 "$(grep -c ',refused,,,6,' out)"
}

# No PDU that can be read: nothing is made.
check_auto_none() {
    { records 4 0; records 2 95; } >auto
    rm -f new
    run log --in auto --mode auto --out new
    ended "no PDU that can be read" 1 log
    same "no PDU that can be read" "barzhilup log: auto: no PDU can be read in 202 bytes: mode and stream are not known" "$(head -n 1 err)"
    there "no PDU that can be read" no new
    run log --in empty --mode auto
    ended "an empty file" 1 log
    same "an empty file" "barzhilup log: empty: no PDU can be read in 0 bytes: mode and stream are not known" "$(head -n 1 err)"
    run log --in auto --mode auto --stream 0 --resume auto
    ended "a mode with a state" 2 log
}
