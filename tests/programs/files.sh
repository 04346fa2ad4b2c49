# Files, devices, pipes and signals: what is read stays, what is there is not overwritten, and what was done before a fault is kept. Sourced by
# run.sh.

# Files that are not there, or cannot be read or written.
check_files() {
    local sub
    mkdir -p folder
    for sub in "${subs[@]}"; do
        stops "barzhilup $sub: none: No such file or directory" "$sub" --in none --out new
        there "$sub without its input" no new
        stops "barzhilup $sub: none/in: No such file or directory" "$sub" --in none/in
        stops "barzhilup $sub: none/out: No such file or directory" "$sub" --in "$(input_of "$sub")" --out none/out
        stops "$(taken "$sub" folder)" "$sub" --in "$(input_of "$sub")" --out folder
    done
    stops "barzhilup generate: none: No such file or directory" generate --in one --psd none
    stops "barzhilup generate: folder: Is a directory" generate --in one --psd folder
    for sub in generate channel log; do
        stops "barzhilup $sub: folder: Is a directory
$(nothing_of "$sub")" "$sub" --in folder
    done
    stops "barzhilup coverage: folder: Is a directory" coverage --in folder
    stops "barzhilup coverage: empty: line 1: not $title" coverage --in empty
}

# A dash is standard input or output.
check_dashes() {
    local sub=$1
    local input
    input=$(input_of "$sub")
    run "$sub" --in "$input"
    cp out wanted
    run "$sub" --in - --out - <"$input"
    same_file "$sub --in - --out -" wanted out
    ended "$sub --in - --out -" 0 "$sub"
    run "$sub" --in=- --out=- <"$input"
    same_file "$sub --in=- --out=-" wanted out
    run "$sub" --in "$input" --out - --force
    same_file "$sub --out - --force" wanted out
    ended "$sub --out - --force" 0 "$sub"
    there "$sub with dashes" no -
    there "$sub with dashes" no ./-~
    head -c -1 "$input" >cut.in
    run "$sub" --in - <cut.in
    cp err wanted
    run "$sub" <cut.in
    same_file "$sub --in - is called standard input" err wanted
}

# PSD from standard input; packets and PSD cannot both come from there.
check_dash_psd() {
    run generate --in packets --length 300 --psd - <psd
    same_file "generate --psd -" sent out
    ended "generate --psd -" 0 generate
    says 1 folder "barzhilup generate: standard input: Is a directory" generate --in one --psd -
    wrong "barzhilup generate: --psd: standard input has the packets" generate --psd -
    wrong "barzhilup generate: --psd: standard input has the packets" generate --psd=- --in - --out new
}

# What a subcommand says of a name that is taken.
taken() {
    echo "barzhilup $1: $2: File exists (--force renames it $2~ first)"
}

# A name that is taken is not written; what is there stays.
check_taken() {
    local sub=$1
    echo old >kept
    stops "$(taken "$sub" kept)" "$sub" --in "$(input_of "$sub")" --out kept
    same "$sub: a name that is taken" old "$(cat kept)"
    : >kept
    stops "$(taken "$sub" kept)" "$sub" --in "$(input_of "$sub")" --out=kept
    same "$sub: an empty file" "" "$(cat kept)"
    rm -f kept
}

# The recording's own file, by its name, by other names and by links. Sets `names`.
names_of_recording() {
    rm -rf both both~ link link~ hard hard~ far far~
    cp "$1" both
    ln -s both link
    ln both hard
    ln -s link far
    names=(both ./both "$work/both" folder/../both link hard far ./far)
}

# Without --force none of its names is written.
check_recording() {
    local sub=$1
    local input name
    input=$(input_of "$sub")
    names_of_recording "$input"
    for name in "${names[@]}"; do
        stops "$(taken "$sub" "$name")" "$sub" --in both --out "$name"
        same_file "$sub --out $name: the recording" "$input" both
        stops "$(taken "$sub" both)" "$sub" --in "$name" --out both
        same_file "$sub --in $name: the recording" "$input" both
    done
    stops "$(taken "$sub" both)" "$sub" --out both
    there "$sub without --force" no both~
}

# With --force the old file has the name with a tilde, and the recording is there byte for byte and with its time, also where it is the file
# that is read. A symbolic link to it is not renamed.
check_forced() {
    local sub=$1
    local input name
    input=$(input_of "$sub")
    run "$sub" --in "$input"
    cp out wanted
    for name in both ./both "$work/both" folder/../both hard; do
        names_of_recording "$input"
        touch -d @1000000000 both
        run "$sub" --in both --out "$name" --force
        ended "$sub --out $name --force" 0 "$sub"
        has_line "$sub --out $name --force" "barzhilup $sub: $name: renamed to $name~" err
        same_file "$sub --out $name --force, what is written" wanted "$name"
        same_file "$sub --out $name --force, the recording" "$input" "$name~"
        same "$sub --out $name --force, the recording's time" 1000000000 "$(stat -c %Y "$name~")"
    done
    same_file "$sub --force on another name of the recording, the recording by its own" "$input" both
    names_of_recording "$input"
    run "$sub" --out both --force <both
    ended "$sub --force on standard input's file" 0 "$sub"
    same_file "$sub --force on standard input's file, what is written" wanted both
    same_file "$sub --force on standard input's file, the recording" "$input" both~
    names_of_recording "$input"
    touch -d @1000000000 both
    for name in link far ./far; do
        check_not_renamed "$sub" "$name"
        same_file "$sub --out $name --force, the recording" "$input" both
        same "$sub --out $name --force, the recording's time" 1000000000 "$(stat -c %Y both)"
    done
}

# With --force a name that is not renamed: that is said, and what has the name keeps it.
check_not_renamed() {
    local sub=$1
    local name=$2
    local before
    before=$(stat -c '%F %i %N' "$name")
    stops "barzhilup $sub: $name: is not an ordinary file that may be written, so it is not renamed" "$sub" --in "$(input_of "$sub")" --out "$name" --force
    same "$sub --out $name --force, what has the name" "$before" "$(stat -c '%F %i %N' "$name")"
    there "$sub --out $name --force" no "$name~"
}

# With --force a name with a tilde that is taken is not written either, and a name that is free is simply made.
check_forced_taken() {
    local sub=$1
    local input
    input=$(input_of "$sub")
    cp "$input" both
    echo older >kept~
    echo old >kept
    run "$sub" --in both --out kept --force
    said "$sub --force where the tilde's name is taken" 1 "$sub" "barzhilup $sub: kept~: File exists"
    same "$sub --force where the tilde's name is taken, the older" older "$(cat kept~)"
    same "$sub --force where the tilde's name is taken, the old" old "$(cat kept)"
    rm kept~
    run "$sub" --in none --out kept --force
    same "$sub --force without its input" old "$(cat kept)"
    there "$sub --force without its input" no kept~
    rm kept
    run "$sub" --in both --out kept --force
    ended "$sub --force with a free name" 0 "$sub"
    same_file "$sub --force with a free name" wanted kept
    there "$sub --force with a free name" no kept~
    rm kept both
}

# With --force what is no ordinary file keeps its name: a directory, a FIFO, a device, a link to what standard output is, to a device or to
# nothing; and so does a file that may not be written.
check_forced_kinds() {
    local sub=$1
    local name
    ln -sfn /proc/self/fd/1 onto
    ln -sfn /dev/null null
    ln -sfn none nowhere
    for name in folder waiting /dev/null /dev/stdout onto null nowhere; do
        check_not_renamed "$sub" "$name"
    done
    there "$sub --force on a link to nothing" no none
    rm onto null nowhere
    check_forced_locked "$sub"
}

# With --force a file that may not be written. Root may write all files, so the program is then run as another user.
check_forced_locked() {
    local sub=$1
    local other=()
    if [ "$(id -u)" = 0 ]; then
        other=(setpriv --reuid 65534 --regid 65534 --clear-groups)
    fi
    rm -rf locked
    mkdir locked
    cp "$program" locked/program
    cp "$(input_of "$sub")" locked/read
    echo old >locked/kept
    chmod 755 . locked/program
    chmod 777 locked
    chmod 444 locked/read locked/kept
    if ! "${other[@]}" test -x locked/program 2>/dev/null; then
        echo "programs: no user but root here; $sub --force on a file that may not be written is not looked at"
        return
    fi
    status=0
    "${other[@]}" locked/program "$sub" --in locked/read --out locked/kept --force >out 2>err || status=$?
    said "$sub --force on a file that may not be written" 1 "$sub" \
        "barzhilup $sub: locked/kept: is not an ordinary file that may be written, so it is not renamed"
    same "$sub --force on a file that may not be written, the file" old "$(cat locked/kept)"
    there "$sub --force on a file that may not be written" no locked/kept~
    rm -rf locked
}

# Standard input, output and error may be closed. What is to be said then goes nowhere, and least of all into a file.
check_closed() {
    local sub=$1
    local input file
    input=$(input_of "$sub")
    head -c -1 "$input" >cut.in
    for file in "$input" cut.in; do
        check_mute "$sub" "$file"
    done
    run "$sub" <&-
    ended "$sub without standard input" 1 "$sub"
    rm -f written
    run "$sub" --out written <&-
    ended "$sub without standard input, to a file" 1 "$sub"
    rm -f written
    status=0
    "$program" "$sub" --out written <&- 2>&- || status=$?
    same "$sub without standard input or error, exit status" 1 "$status"
    there "$sub without standard input or error" no written
    status=0
    "$program" "$sub" --in "$input" >&- 2>err || status=$?
    ended "$sub without standard output" 1 "$sub"
    same "$sub without standard output" "barzhilup $sub: standard output: Bad file descriptor" "$(head -n 1 err)"
}

# Without standard error a file is written whole or not made, and what is read stays.
check_mute() {
    local sub=$1
    local file=$2
    cp "$file" read.in
    rm -f wanted written
    run "$sub" --in read.in --out wanted
    local before=$status
    status=0
    "$program" "$sub" --in read.in --out written 2>&- || status=$?
    same "$sub without standard error, $file, exit status" "$before" "$status"
    same "$sub without standard error, $file, what is written" "$(cksum <wanted 2>/dev/null || echo none)" "$(cksum <written 2>/dev/null || echo none)"
    same_file "$sub without standard error, $file, what is read" "$file" read.in
    rm -f written
    status=0
    "$program" "$sub" --out written <read.in 2>&- || status=$?
    same "$sub without standard error or a name to read, $file, exit status" 1 "$status"
    there "$sub without standard error or a name to read, $file" no written
    same_file "$sub without standard error or a name to read, $file, what is read" "$file" read.in
}

# Cuts a file at every byte: what stands before the cut is kept, and what is missing is said.
check_cuts() {
    local cut wrong=""
    "$program" generate --in packets --length 96 2>/dev/null >short
    head -c 196 short >two
    run log --in two --format csv
    cp out two.csv
    for ((cut = 0; cut <= 196; cut += 1)); do
        head -c "$cut" two >part
        run log --in part --format csv
        wanted_of_cut "$cut"
        cmp -s wanted out && cmp -s wanted.err <(head -n "$(wc -l <wanted.err)" err) && [ "$status" = $((cut % 98 > 0)) ] || wrong="$wrong $cut"
    done
    same "the log of a file cut at each byte" "" "$wrong"
}

# The log, and the first lines said, of the first bytes of two PDUs. A log that is not whole has no last line.
wanted_of_cut() {
    local whole=$(($1 / 98))
    awk -F , -v whole="$whole" 'NR == 1 || $1 != "" && $1 < whole' two.csv >wanted
    : >wanted.err
    if [ $(($1 % 98)) = 0 ]; then
        end_line "$whole" >>wanted
    else
        echo "barzhilup log: part: ends inside the record of PDU $whole" >wanted.err
    fi
    echo "barzhilup log: PDUs $whole: received $whole, lost 0, refused 0" >>wanted.err
}

# The other subcommands with a file that is cut.
check_cut_files() {
    head -c 400 sent >part
    run channel --in part --loss 0 --damage 0
    said "channel with a cut file" 1 channel "barzhilup channel: part: ends inside the record of PDU 1
barzhilup channel: PDUs 1 (lost before 0), lost 0, damaged 0, bytes altered 0"
    same_file "what channel sends of it" <(pdus 0 1) out
    head -c 103 packets >part
    run generate --in part
    said "generate with a cut file" 1 generate "barzhilup generate: part: at byte 102: ends inside packet 1
barzhilup generate: packets 1 (bytes 100), PDUs 1 (bytes 1024)"
    head -c 110 dump >part
    run generate --in part --adts
    said "generate with a cut dump" 1 generate "barzhilup generate: part: at byte 107: ends inside packet 1
barzhilup generate: packets 1 (bytes 100), PDUs 1 (bytes 1024)"
}

# A full device, by redirection: an error line, the counts, and the line that ends it.
check_full() {
    local what=$1
    local counts=$2
    shift 2
    run_to /dev/full "$@"
    said "$what" 1 "$1" "barzhilup $1: standard output: No space left on device
$counts"
    run_to /dev/full "$@" --out -
    said "$what, by a dash" 1 "$1" "barzhilup $1: standard output: No space left on device
$counts"
}

check_full_devices() {
    local format
    check_full "PDUs to a full device" "$(nothing_of generate)" generate --in packets
    check_full "long PDUs to a full device" "$(nothing_of generate)" generate --in packets --length 20480
    check_full "damaged PDUs to a full device" "$(nothing_of channel)" channel --in sent
    for format in words text csv json records; do
        check_full "$format to a full device" "$(nothing_of log)" log --in sent --format "$format"
    done
    run coverage --in log.csv
    check_full "a picture to a full device" "$(cat err)" coverage --in log.csv
    stops "$(taken log /dev/full)" log --in sent --out /dev/full
}

# The same through pipes and redirections.
check_pipes() {
    local all
    all=$("$program" generate --length 300 --psd psd <packets 2>/dev/null | "$program" channel --seed 3 --loss 200 2>/dev/null \
        | "$program" log --format csv 2>err)
    same "three subcommands in pipes" "$(cat log.csv)" "$all"
    same "the last one counts" "barzhilup log: PDUs $(grep -c ',received,\|,lost,,,,,,,,' log.csv)" "$(head -n 1 err | cut -d : -f 1,2)"
    run coverage <log.csv
    same_file "a picture from standard input" picture.svg out
    "$program" coverage <"$work/log.csv" 2>err | cat >out
    same_file "a picture into a pipe" picture.svg out
    { head -c 150 sent; sleep 0.1; tail -c +151 sent; } | "$program" log --format csv >slow.csv 2>err
    run log --in sent --format csv
    same_file "a pipe that comes in parts" slow.csv out
    status=0
    head -c 400 sent | "$program" log >out 2>err || status=$?
    same "a cut pipe" "barzhilup log: standard input: ends inside the record of PDU 1
barzhilup log: PDUs 1: received 1, lost 0, refused 0" "$(head -n 2 err)"
    ended "a cut pipe" 1 log
}

# The CSV is read twice, and a pipe cannot be.
check_twice() {
    local words="is to be read twice, and cannot be: not a file"
    says 1 <(cat log.csv) "barzhilup coverage: standard input: $words" coverage
    says 1 <(cat log.csv) "barzhilup coverage: standard input: $words" coverage --in - --out new
    there "a picture of a pipe" no new
    exec 8<>waiting
    stops "barzhilup coverage: waiting: $words" coverage --in waiting --out new
    exec 8>&-
    there "a picture of a FIFO" no new
}

# Waits until a file has so many bytes, five seconds at the most.
wait_for() {
    local turn
    for ((turn = 0; turn < 100; turn += 1)); do
        if [ "$(stat -c %s "$1" 2>/dev/null || echo 0)" -ge "$2" ]; then
            return
        fi
        sleep 0.05
    done
}

# Kills a log that waits inside the record of a PDU: it has all PDUs before, in whole lines, and no last line.
check_killed() {
    local format=$1
    local process
    rm -f fifo killed
    mkfifo fifo
    pdus 0 7 >seven
    run log --in seven --format "$format"
    sed '/^,end,\|"kind":"end"/d' out >wanted
    "$program" log --in fifo --format "$format" --out killed 2>err &
    process=$!
    exec 9>fifo
    head -c $((7 * 302 + 100)) sent >&9
    wait_for killed "$(stat -c %s wanted)"
    kill -KILL "$process"
    wait "$process" 2>/dev/null || true
    exec 9>&-
    same_file "the $format of a killed log" wanted killed
    same "a killed log has said nothing yet" "" "$(cat err)"
}

# The picture of a killed log is drawn, and says that the log is not whole.
check_killed_picture() {
    check_killed csv
    run coverage --in killed
    same "the picture of a killed log" "barzhilup coverage: killed: has no last line: the log is not whole" "$(head -n 1 err)"
    ended "the picture of a killed log" 0 coverage
    same "it is said in the picture" 1 "$(grep -c 'log is not whole' out || true)"
}

# How often progress is shown on standard error: on a terminal, and not.
check_progress() {
    local wanted=$1
    shift
    run "$@"
    same "$*, no progress where nobody looks on" 0 "$(tr -cd '\r' <err | wc -c)"
    if ! command -v script >/dev/null; then
        echo "programs: no script here; progress on a terminal is not looked at"
        return
    fi
    script -qec "$program $* 2>&1 >/dev/null" /dev/null >terminal </dev/null
    same "$*, progress on a terminal" "$wanted" "$(tr '\r' '\n' <terminal | grep -x "$wanted" | sort -u || true)"
}

# A log of PDUs that come slowly shows how far it is once a second: here at the first PDU after a pause, which is the first of a frame, has marks, or is the
# first copy of two.
check_progress_live() {
    local first option pdus
    if ! command -v script >/dev/null; then
        return
    fi
    pdus=$(($(stat -c %s many) / 302))
    records $((pdus + $(stat -c %s sent) / 302)) 0 >places
    first="barzhilup log: PDUs $((pdus + 1))"
    for option in "" "--batch 1" "--marks places" "--second many"; do
        script -qec "{ cat many; sleep 1.1; cat sent; } | $program log $option 2>&1 >/dev/null" /dev/null >terminal </dev/null
        same "progress once a second on a terminal $option" "$first" "$(tr '\r' '\n' <terminal | grep -x "$first" | sort -u || true)"
    done
}

# The picture of a log shows how far it is once a second: here a long one, of which a second begins while it is read.
check_progress_read() {
    local line
    run coverage --in many.csv
    same "a picture, no progress where nobody looks on" 0 "$(tr -cd '\r' <err | wc -c)"
    if ! command -v script >/dev/null; then
        return
    fi
    { echo "$older_title"; seq 0 599999 | sed 's/$/,lost,,,,0,0/'; } >many.csv
    while [ "$(date +%N | cut -c 1)" != 9 ]; do
        sleep 0.02
    done
    script -qec "$program coverage --in many.csv --rows 1 2>&1 >/dev/null" /dev/null >terminal </dev/null
    line=$(tr '\r' '\n' <terminal | sed -n 's/^barzhilup coverage: lines [1-9][0-9]*$/lines/p' | sed -n 1p)
    same "a picture, progress once a second on a terminal" lines "$line"
}

# Work whose input pauses shows how far it is once a second; not where nobody looks on.
check_progress_paused() { # WHAT FIRST THEN ARGUMENTS
    local what=$1
    local first=$2
    local rest=$3
    shift 3
    run "$@" <"$first"
    same "$*, no progress where nobody looks on" 0 "$(tr -cd '\r' <err | wc -c)"
    if ! command -v script >/dev/null; then
        return
    fi
    script -qec "{ cat $first; sleep 1.1; cat $rest; } | $program $* 2>&1 >/dev/null" /dev/null >terminal </dev/null
    same "$*, progress on a terminal" "barzhilup $what" "$(tr '\r' '\n' <terminal | grep -ox "barzhilup $what [0-9]*" | sed 's/ [0-9]*$//' | sort -u || true)"
}

check_terminals() {
    local copy
    for ((copy = 0; copy < 60; copy += 1)); do
        cat sent
    done >many
    for ((copy = 0; copy < 1100; copy += 1)); do
        echo "$copy,lost,,,,0,0"
    done | sed "1i $older_title" >many.csv
    for ((copy = 0; copy < 15; copy += 1)); do
        cat packets
    done >many.packets
    check_progress_paused "generate: PDUs" many.packets packets generate --length 96
    check_progress_paused "channel: PDUs" many sent channel
    check_progress_paused "join: frames" log.records log.records join --enhanced log.records
    check_progress_live
    check_progress_read
}
