# A drive that is interrupted (document 02, Ask 13): logged in two runs or more it is the log of one, wherever it is cut and whatever the format, also by frames, with
# marks and with entitled programs; a killed run goes on from what it saved, and what is saved is whole at every moment. Sourced by run.sh.

# The records of a file: each in a line, its first byte and its length.
record_places() { # FILE
    od -An -v -tu1 -w1 "$1" | awk '
        want > 0 { want -= 1; at += 1; next }
        half == 0 { low = $1; half = 1; at += 1; next }
        { half = 0; want = low + 256 * $1; at += 1; print at - 2, want + 2 }'
}

# So many records of a file from its first on, and those after them. Sets `first.part` and `second.part`.
parted() { # FILE COUNT
    local bytes
    bytes=$(record_places "$1" | awk -v many="$2" 'NR <= many { n += $2 } END { print n + 0 }')
    head -c "$bytes" "$1" >first.part
    tail -c +$((bytes + 1)) "$1" >second.part
}

# How many bytes of its log, and how many PDUs, the run that goes on says there are.
bytes_said() {
    sed -n 's/^barzhilup log: .*: goes on after [0-9]* PDUs and \([0-9]*\) bytes of their log$/\1/p' err
}

pdus_said() {
    sed -n 's/^barzhilup log: .*: goes on after \([0-9]*\) PDUs and [0-9]* bytes of their log$/\1/p' err
}

# Joins the log of a run to that of the runs before it, after as many bytes as were said.
joined() { # BEFORE NEXT
    head -c "$(bytes_said)" "$1" >joined.part
    cat "$2" >>joined.part
    mv joined.part "$1"
}

# A file that no run has made yet.
fresh() {
    rm -f "$@" "${@/%/~}" "${@/%/.new}"
}

# Logs a file in two runs, cut after so many PDUs; where the joined log is not that of one run, in the file wanted, adds the count to `wrong_cuts`. Options that open
# the receiver are for the first run alone.
in_two() { # FILE COUNT OPENING... -- OPTION...
    local file=$1 many=$2 opening=()
    shift 2
    while [ "$1" != -- ]; do
        opening+=("$1")
        shift
    done
    shift
    parted "$file" "$many"
    fresh state.one log.one log.two
    run log --in first.part --out log.one --save state.one "${opening[@]}" "$@"
    [ "$status" = 0 ] || wrong_cuts="$wrong_cuts first:$many"
    run log --in second.part --out log.two --resume state.one "$@"
    [ "$status" = 0 ] && [ "$(pdus_said)" = "$many" ] || wrong_cuts="$wrong_cuts second:$many"
    joined log.one log.two
    cmp -s wanted log.one || wrong_cuts="$wrong_cuts $many"
}

# The same where the second run has the whole file and passes over what is logged: what it writes is what it wrote before.
passing_over() { # FILE COUNT OPTION...
    fresh log.three
    run log --in "$1" --out log.three --resume state.one --skip "${@:3}"
    cmp -s log.two log.three || wrong_cuts="$wrong_cuts skip:$2"
}

# The same for every count of PDUs of a file, none and all of them too, in some formats.
in_two_everywhere() { # WHAT FILE FORMATS OPENING... -- OPTION...
    local about=$1 file=$2 formats=$3 format many count option options=()
    shift 3
    for option in "$@"; do
        [ "$option" = -- ] || options+=("$option")
    done
    count=$(record_places "$file" | wc -l)
    for format in $formats; do
        wrong_cuts=
        run log --in "$file" --format "$format" "${options[@]}"
        cp out wanted
        for ((many = 0; many <= count; many += 1)); do
            in_two "$file" "$many" "$@" --format "$format"
            if [ "$format" = csv ]; then
                passing_over "$file" "$many" --format "$format"
            fi
        done
        same "$about, $format, cut at each of $count PDUs" "" "$wrong_cuts"
    done
}

# Small drives, cut at every PDU: as sent, inside packets, damaged, lost and refused, out of sequence, by another register, and for entitled programs.
check_resume_cuts() {
    pdus 0 9 >small
    in_two_everywhere "as sent" small csv --
    record 700 >big
    run generate --in big --length 120
    cp out small
    in_two_everywhere "inside a packet" small "words csv" --
    run channel --in sent --seed 3 --loss 200 --bytes 5
    cp out many
    parted many 12
    cp first.part small
    in_two_everywhere "damaged and lost" small "words text csv json" --
    { pdus 0 2; record 95; pdus 2 1; record 0; record 96; pdus 3 1; } >small
    in_two_everywhere "refused" small csv --
    steps 0 1 3 3 4 4 5 7 2 >small
    in_two_everywhere "out of sequence" small csv --mode 1 --
    run generate --in packets --length 300 --crc-start 255
    cp out many
    parted many 5
    cp first.part small
    in_two_everywhere "by another register" small csv --crc-start 255 --
    records 40 79 >short
    make_programs short 1 150 empty
    chosen ffpffxffffpffpffffff >small
    in_two_everywhere "entitled to none" small "words csv" --mode 1 --entitled none --
    in_two_everywhere "entitled to another program" small csv --mode 1 --entitled 5 --
}

# By frames, and with marks.
check_resume_kinds() {
    local many
    fresh places
    run channel --in sent --seed 3 --loss 200 --bytes 8 --marks places
    cp out many
    parted many 12
    cp first.part small
    for many in 1 5 64; do
        in_two_everywhere "by frames of $many" small csv -- --batch "$many"
    done
    run log --in many --marks places --format csv
    cp out wanted
    parted many 7
    mv first.part pdus.one
    mv second.part pdus.two
    parted places 7
    fresh state.one log.one log.two log.three
    run log --in pdus.one --marks first.part --format csv --out log.one --save state.one
    ended "with marks, the first run" 0 log
    run log --in pdus.two --marks second.part --format csv --out log.two --resume state.one
    ended "with marks, the second run" 0 log
    joined log.one log.two
    same_file "with marks" wanted log.one
    run log --in many --marks places --format csv --out log.three --resume state.one --skip
    same_file "with marks that are passed over" log.two log.three
    head -c 5 places >short
    stops "barzhilup log: state.one: goes on after 7 PDUs and $(stat -c %s log.one | awk -v rest="$(stat -c %s log.two)" '{ print $1 - rest }') bytes of their log
barzhilup log: short: has fewer than the 7 PDUs that are logged" log --in many --marks short --format csv --out new --resume state.one --skip
    there "marks that are too few" no new
}

# A drive in many runs, some of no PDU, each of which saves again; the numbers of PDUs and the last line are those of one run, and `coverage` draws it.
check_resume_chain() {
    local leg from=0 many before loss
    run log --in damaged --format csv
    cp out wanted
    loss=$(tail -n 1 err)
    cp damaged rest
    before=()
    : >log.all
    for leg in 1 0 3 2 0 5 100; do
        parted rest "$leg"
        mv second.part rest
        fresh "log.$from" "state.$from"
        run log --in first.part --format csv --out "log.$from" --save "state.$from" "${before[@]}"
        ended "run $from of many" 0 log
        if [ "$from" -gt 0 ]; then
            joined log.all "log.$from"
        else
            cp log.0 log.all
        fi
        before=(--resume "state.$from")
        from=$((from + 1))
    done
    same_file "a drive in $from runs" wanted log.all
    run coverage --in log.all
    same_file "the picture of a drive in $from runs" picture.svg out
    ended "the picture of a drive in $from runs" 0 coverage
    many=$(record_places damaged | wc -l)
    run log --in empty --format csv --resume "state.$((from - 1))"
    same "a run of no PDU after all" "$(end_line "$many")" "$(cat out)"
    said "a run of no PDU after all" 0 log "barzhilup log: state.$((from - 1)): goes on after $many PDUs and $(head -n -1 wanted | wc -c) bytes of their log
$(nothing_of log | head -n -1)
$loss"
    same "its loss column is the drive's" "$(loss_line "$(awk -F , '$2 == "packet"' wanted | wc -l)" "$(awk -F , '$12 ~ /^[0-9]/ { n = $12 } END { print n }' wanted)")" "$loss"
}

# The summary, but for its line of the loss column, and what is asked after it, are of this run alone; its mode, stream and register are those that were saved.
check_resume_said() {
    fresh state.one log.one
    run log --in empty --mode 1 --crc-start 9 --out log.one --save state.one
    said "nothing logged" 0 log "$(nothing_of log)"
    run log --in steps --resume state.one
    same "a run that goes on, the summary" "barzhilup log: PDUs 8: received 8, lost 0, refused 0" "$(sed -n 2p err)"
    same "a run that goes on, by its register" "$(all_wrong_line 9)" "$(tail -n 1 err)"
    run log --in sent --resume state.one
    same "a run that goes on, by its mode" "barzhilup log: no PDU was received: is this a file of PDUs of mode 1, stream 0?" "$(tail -n 1 err)"
    parted damaged 7
    fresh state.two log.two
    run log --in first.part --out log.two --save state.two
    head -c -1 second.part >part
    run log --in part --resume state.two
    has_line "a run that goes on in a cut file" "barzhilup log: part: ends inside the record of PDU $(($(record_places damaged | wc -l) - 1))" err
    ended "a run that goes on in a cut file" 1 log
}

# What is saved: two records of words, each word in four bytes, low byte first; the first alone is enough, and words of older firmware are.
check_resume_words() {
    fresh state.one log.one
    run log --in steps --mode 1 --crc-start 7 --entitled 0,3 --format words --out log.one --save state.one
    same "the first record" "10 00 01 00 00 00 07 00 00 10 07 00 00 30 09 08 00 40" "$(head -c 18 state.one | od -An -v -tx1 -w18 | sed 's/^ //')"
    same "the second record" "10 00 08 00 00 00 00 00 00 00$(stat -c %s log.one | awk '{ printf " %02x %02x 00 00 00 00 00 00", $1 % 256, int($1 / 256) }')" \
        "$(tail -c +19 state.one | od -An -v -tx1 -w18 | sed 's/^ //')"
    head -c 18 state.one >alone
    run log --in steps --resume alone --format csv
    same "the first record alone, what is said" "barzhilup log: alone: goes on after 0 PDUs and 0 bytes of their log" "$(head -n 1 err)"
    same "the first record alone, the first line" "$title" "$(head -n 1 out)"
    ended "the first record alone" 0 log
    printf '\4\0\1\0\0\0' >older
    run log --in steps --resume older --format csv
    cp out older.csv
    run log --in steps --mode 1 --entitled none --format csv
    same_file "words of older firmware: register 0, and nothing entitled" older.csv out
}

# A file of words that are not of this form, or no file of words at all: refused with 25, and nothing is written.
refuses_state() { # WHAT
    local line="refused with 25: words not of a saved receiver or a field outside its range"
    stops "barzhilup log: wrong.state: $line" log --in sent --resume wrong.state --out new --save newer
    there "$1" no new
    there "$1" no newer
}

# A record of words from their bytes as hexadecimal digits, low byte first.
words_record() { # DIGITS
    local count=$((${#1} / 2))
    printf '%b' "$(printf '\\x%02x\\x%02x' $((count % 256)) $((count / 256)))$(sed 's/../\\x&/g' <<<"$1")"
}

check_resume_refused() {
    local words
    : >wrong.state
    refuses_state "an empty file"
    for words in "" 04000000 10000000 0000000001 00000010 000000ff 0000000000000000 0100000008000010 0000000002000010 \
        010000000000003000000010 00000000010000200000003000000040 00000000000000300000004000000051 00000000011000200000003000000040 \
        000000000000003000010040 000000000000003000080040 0000000000000030000000400000006f 4000000000000030 0000000000010030 \
        000000000000003000000140; do
        words_record "$words" >wrong.state
        refuses_state "the words $words"
    done
    head -c 17 state.one >wrong.state
    refuses_state "a cut first record"
    head -c 30 state.one >wrong.state
    refuses_state "a cut second record"
    { cat state.one; printf '\0'; } >wrong.state
    refuses_state "a byte after the second record"
    { cat state.one; record 0; } >wrong.state
    refuses_state "a third record"
    { head -c 18 state.one; record 12; } >wrong.state
    refuses_state "a second record of three words"
    cp sent wrong.state
    refuses_state "a file of PDUs"
    cp log.csv wrong.state
    refuses_state "a log"
    stops "barzhilup log: none: No such file or directory" log --in sent --resume none --out new
    stops "barzhilup log: folder: Is a directory" log --in sent --resume folder --out new
    there "a state that cannot be read" no new
}

# Options that do not go together: nothing is opened or made.
check_resume_asked() {
    local option
    wrong "barzhilup log: --save: the log goes to no file (--out)" log --in sent --save new
    wrong "barzhilup log: --save: the log goes to no file (--out)" log --in sent --save new --out -
    wrong "barzhilup log: --save: names no file" log --in sent --out new --save -
    wrong "barzhilup log: --save: names no file" log --in sent --out new --save=
    wrong "barzhilup log: --resume: names no file" log --in sent --out new --resume -
    wrong "barzhilup log: --resume: names no file" log --in sent --out new --resume ''
    wrong "barzhilup log: --save: not with two recordings" log --in sent --second sent --out new --save newer
    wrong "barzhilup log: --resume: not with two recordings" log --in sent --second sent --out new --resume state.one
    for option in --mode=0 --stream=0 --crc-start=0 --entitled=none; do
        wrong "barzhilup log: --resume: its file has mode, stream, start of CRCs and programs" log --in sent --out new --resume state.one "$option"
    done
    wrong "barzhilup log: --skip: nothing is resumed (--resume)" log --in sent --out new --skip
    wrong "barzhilup log: --skip: nothing is resumed (--resume)" log --in sent --out new --save newer --skip
    fresh new
    parted sent 3
    fresh state.one log.one
    run log --in first.part --out log.one --save state.one
    pdus 0 2 >short
    stops "barzhilup log: state.one: goes on after 3 PDUs and $(stat -c %s log.one) bytes of their log
barzhilup log: short: has fewer than the 3 PDUs that are logged" log --in short --out new --resume state.one --skip
    there "an input without the PDUs that are logged" no new
}

# A state that is there already, by its own name or the one that it is replaced by, and files that cannot be made: what is there stays, and nothing else is made.
check_resume_files() {
    echo old >kept
    stops "$(taken log kept)" log --in sent --out new --save kept
    there "a state whose name is taken" no new
    same "a state whose name is taken" old "$(cat kept)"
    stops "$(taken log sent)" log --in sent --out new --save sent
    stops "barzhilup log: state.one: goes on after 3 PDUs and $(stat -c %s log.one) bytes of their log
$(taken log state.one)" log --in sent --out new --save state.one --resume state.one
    there "a state that is resumed is not replaced" no new
    stops "$(taken log new)" log --in sent --out new --save new
    there "a state of the log's own name" no new
    stops "barzhilup log: none/state: No such file or directory" log --in sent --out new --save none/state
    there "a state in no directory" no new
    echo old >state.new
    stops "barzhilup log: state.new: File exists" log --in sent --out new --save state
    there "the name beside it is taken" no new
    there "the name beside it is taken" no state
    same "the name beside it is taken" old "$(cat state.new)"
    rm state.new
    stops "barzhilup log: state.new: File exists" log --in sent --out state.new --save state
    there "the name beside it is the log's" no state.new
    run log --in sent --out new --save kept --force
    ended "a state with --force" 0 log
    has_line "a state with --force" "barzhilup log: kept: renamed to kept~" err
    same "a state with --force, the old file" old "$(cat kept~)"
    run log --in empty --resume kept
    same "a state with --force, the new one" "$(record_places sent | wc -l)" "$(pdus_said)"
    rm -f new kept kept~
}

# Waits until a file has so many bytes, while a process runs.
grown() { # FILE BYTES PROCESS
    while [ "$(stat -c %s "$1" 2>/dev/null || echo 0)" -lt "$2" ] && kill -0 "$3" 2>/dev/null; do
        sleep 0.002
    done
}

# Runs a log and kills it when its file has so many bytes: the bytes, and the arguments.
killed_at() { # BYTES ARGUMENT...
    local process
    fresh log.next state.next
    "$program" log "${@:2}" --out log.next --save state.next >/dev/null 2>err &
    process=$!
    grown log.next "$1" "$process"
    kill -KILL "$process" 2>/dev/null || true
    wait "$process" 2>/dev/null || true
}

# A long drive whose log is killed at random PDUs, and goes on each time from what is saved: joined it is the log of one run.
check_resume_killed() { # FORMAT OPTION...
    local leg bytes before=() seen=""
    run log --in long --format "$@"
    cp out wanted
    bytes=$(stat -c %s wanted)
    : >log.all
    for leg in 1 2 3 4; do
        killed_at $((RANDOM * (bytes / 4) / 32768)) --in long --format "$@" "${before[@]}"
        [ -s state.next ] || continue
        joined_next
        mv state.next "state.$leg"
        before=(--resume "state.$leg" --skip)
    done
    fresh log.next
    run log --in long --format "$@" --out log.next "${before[@]}"
    ended "$*, a log that was killed" 0 log
    seen=$(pdus_said)
    joined_next
    same_file "$*, killed at random, at last after ${seen:-0} PDUs" wanted log.all
}

# Joins the next log to those before it; the first one is all that there is.
joined_next() {
    if [ -n "$(bytes_said)" ]; then
        joined log.all log.next
    else
        cp log.next log.all
    fi
}

# Whoever reads what is saved while the log goes on finds it whole.
check_resume_whole() {
    local process turn wrong=""
    fresh log.next state.next
    "$program" log --in long --out log.next --save state.next >/dev/null 2>&1 &
    process=$!
    grown state.next 1 "$process"
    for ((turn = 0; turn < 40; turn += 1)); do
        cat state.next >seen.state
        run log --in empty --resume seen.state
        [ "$status" = 0 ] || wrong="$wrong $turn"
    done
    wait "$process" || true
    same "a state that is read while the log goes on" "" "$wrong"
    there "a log that is done" no state.next.new
    run log --in empty --resume state.next
    same "a log that is done, the PDUs" "$(record_places long | wc -l)" "$(pdus_said)"
}

# A drive for logs that are killed.
check_resume_long() {
    local format samples=$here/../../samples
    run generate --in "$samples/packets" --psd "$samples/psd" --length 150
    cp out many
    run channel --in many --seed 7 --loss 30 --bytes 5
    cp out long
    for format in words text csv; do
        check_resume_killed "$format"
    done
    check_resume_killed csv --batch 16
    check_resume_whole
}

# A state that cannot be replaced, since another has the name beside it: the log says why it stops, and the state before is good to go on from.
check_resume_unsaved() {
    local process turn
    fresh log.one state log.two
    rm -rf fifo state.new
    mkfifo fifo
    parted sent 5
    "$program" log --in fifo --out log.one --save state 2>unsaved.err &
    process=$!
    exec 9>fifo
    cat first.part >&9
    for ((turn = 0; turn < 2000; turn += 1)); do
        run log --in empty --resume state
        [ "$(pdus_said)" != 5 ] || break
        sleep 0.02
    done
    cp state kept.state
    mkdir state.new
    cat second.part >&9
    exec 9>&-
    status=0
    wait "$process" || status=$?
    cp unsaved.err err
    same "a state that cannot be replaced" "barzhilup log: state.new: File exists
barzhilup log: PDUs 6: received 6, lost 0, refused 0" "$(head -n 2 err)"
    ended "a state that cannot be replaced" 1 log
    same_file "a state that cannot be replaced is as it was" kept.state state
    run log --in sent --resume state --skip --out log.two
    joined log.one log.two
    run log --in sent
    same_file "a state that cannot be replaced is good to go on from" out log.one
    rm -rf state.new fifo
}
