# What all checks use: counting them, running a subcommand, and making records, frames and files to run it on. Sourced by run.sh.

checks=0
failed=0

# A check: what it is about, what is expected and what came.
same() {
    checks=$((checks + 1))
    if [ "$2" != "$3" ]; then
        failed=$((failed + 1))
        printf 'failed: %s\n  expected: %s\n  came:     %s\n' "$1" "$2" "$3"
    fi
}

# A check that two files are the same.
same_file() {
    same "$1" "the bytes of $2" "$(cmp -s "$2" "$3" && echo "the bytes of $2" || echo "others in $3")"
}

# A check that a file is there, or is not.
there() {
    same "$1: is $3 there" "$2" "$([ -e "$3" ] && echo yes || echo no)"
}

# A check that a line stands somewhere in a file.
has_line() {
    same "$1" "a line: $2" "$(grep -qxF -- "$2" "$3" && echo "a line: $2" || cat "$3")"
}

# A CSV in the columns of older logs. In these the number is that of header bytes corrected, of the refusal, of the packet, or of the piece of a note, 0 if
# there is none; and the copy of a received PDU stands in words in place of the cause.
older() {
    awk -F , -v OFS=, -v title="$older_title" '
        NR == 1 { print title; next }
        $2 == "end" { print "", "end", $15, "", $10, "", ""; next }
        { number = $4 $5 $6; cause = $10 }
        $2 == "note" { number = $8 == "" ? 0 : $8 }
        $2 == "received" && $3 != "" { cause = $3 ($3 == "both" ? " copies" : " copy") }
        { print $1, $2, number, $7, cause, $11, $12 }' "$1"
}

# The same without the loss column, delivered and missing.
bare() {
    older "$1" | cut -d , -f 1-5
}

# The last line of a CSV of so many PDUs.
end_line() {
    echo ",end,,,,,,,,whole,,,,,$1"
}

# A check that a line stands somewhere in a CSV, in the first five columns of older logs.
has_entry() {
    same "$1" "a line: $2" "$(grep -qxF -- "$2" <(bare "$3") && echo "a line: $2" || cat "$3")"
}

# Runs the program: what it writes goes to the file out, what it says to err, and its exit status to the variable status.
run() {
    run_to out "$@"
}

# The same, where what it writes goes to a named file.
run_to() {
    status=0
    "$program" "${@:2}" >"$1" 2>err || status=$?
}

# The last line that a subcommand says, by its exit status; none of its own where all is done.
last_line() {
    case $1 in
        1) echo "barzhilup $2: stopped early" ;;
        2) echo "try 'barzhilup $2 --help'" ;;
    esac
}

# Checks the exit status and all that was said: what it is about, the status, the subcommand, and the lines before the one that goes with the status.
said() {
    same "$1, exit status" "$2" "$status"
    same "$1, what is said" "$(printf '%s\n' "$4" "$(last_line "$2" "$3")" | sed '/^$/d')" "$(cat err)"
}

# Checks the exit status, and that the line which goes with it stands last and nowhere else: what it is about, the status, and the subcommand.
ended() {
    local lines
    same "$1, exit status" "$2" "$status"
    lines=$(grep -x "barzhilup.*: stopped early\|try '.*'" err || true)
    same "$1, the line of that status" "$(last_line "$2" "$3")" "$lines"
    if [ "$2" != 0 ]; then
        same "$1, it stands last" "$lines" "$(tail -n 1 err)"
    fi
}

# Runs a subcommand and checks its exit status and all that it says; it writes nothing: the status, a file as standard input, the lines before the
# one that goes with the status, and the arguments.
says() {
    local wanted=$1
    local input=$2
    local lines=$3
    shift 3
    run "$@" <"$input"
    said "$*" "$wanted" "$1" "$lines"
    same "$* writes nothing" "" "$(od -An -c out | head -n 3)"
}

# The same where it stops early, with a file that could be read.
stops() {
    says 1 "$(input_of "$2")" "$@"
}

# The same where it is asked wrongly: nothing is made.
wrong() {
    local before
    before=$(ls)
    says 2 "$(input_of "$2")" "$@"
    same "${*:2} makes no file" "$before" "$(ls)"
}

# A file that a subcommand can read.
input_of() {
    case $1 in
        generate) echo packets ;;
        channel | log) echo sent ;;
        coverage) echo log.csv ;;
        latency) echo counts ;;
        join) echo log.records ;;
    esac
}

# The options of a subcommand that take a file, a text or a number, or are flags; with no such word all of them.
options_of() {
    awk -v command="$1" -v kind="${2:-.}" '$1 == command && $3 ~ kind { print $2 }' "$data/options"
}

# The least and the greatest number that an option of a subcommand takes.
range_of() {
    awk -v command="$1" -v name="$2" '$1 == command && $2 == name { print $4, $5 }' "$data/options"
}

# What a subcommand counts where it has done nothing. The picture is not begun then, so that one counts nothing.
nothing_of() {
    case $1 in
        generate) echo "barzhilup generate: packets 0 (bytes 0), PDUs 0 (bytes 0)" ;;
        channel) echo "barzhilup channel: PDUs 0 (lost before 0), lost 0, damaged 0, bytes altered 0" ;;
        log) echo "barzhilup log: PDUs 0: received 0, lost 0, refused 0
barzhilup log: headers corrected 0, bytes corrected 0
barzhilup log: packets 0, PSD entries 0, notes 0
$(loss_line 0 0)" ;;
        join) echo "barzhilup join: frames 0: refused with 23 0, with 24 0
barzhilup join: packets: core alone 0, both 0, enhanced dropped 0" ;;
    esac
}

# The line of a log's summary for the loss column.
loss_line() { # DELIVERED MISSING
    echo "barzhilup log: delivered $1, missing $2; missing is exact from the first packet delivered to the last where each PDU comes or is marked lost once, in turn, and fewer than 64 packets are missing between two delivered"
}

# The line of a picture for the loss column.
exact_line() {
    echo "barzhilup coverage: withheld packets and those with a damaged piece count as missing; missing is exact from the first packet delivered to the last where each PDU comes or is marked lost once, in turn, and fewer than 64 packets are missing between two delivered"
}

# What the line of a picture's totals says of delivered and missing.
said_loss() {
    sed -n 's/.*; \(packets delivered [^;]*\).*/\1/p' err
}

# The first line of a CSV, and that of older ones.
title=pdu,kind,copy,corrected,refusal,packet,length,piece,note,cause,delivered,missing,crc32,text,pdus
older_title=pdu,kind,number,length,cause,delivered,missing

# A record: its length in two bytes, low byte first, and bytes of zero.
record() {
    printf '%b' "$(printf '\\x%02x\\x%02x' $(($1 % 256)) $(($1 / 256)))"
    head -c "$1" /dev/zero
}

# So many records of a length.
records() {
    local turn
    for ((turn = 0; turn < $1; turn += 1)); do
        record "$2"
    done
}

# An ADTS frame with the syncword and a header of 7 bytes: its whole length, and bytes of zero.
frame() {
    printf '%b' "$(printf '\\xff\\xf1\\x50\\x%02x\\x%02x\\x%02x\\xfc' $((128 + $1 / 2048)) $(($1 / 8 % 256)) $(($1 % 8 * 32 + 31)))"
    head -c $(($1 < 7 ? 0 : $1 - 7)) /dev/zero
}

# So many PDUs of the file sent, which have 300 bytes, from one on.
pdus() {
    head -c $((302 * ($1 + $2))) sent | tail -c $((302 * $2))
}

# The PDUs of the file steps by their numbers, in the order given. They have 96 bytes.
steps() {
    local number
    for number in "$@"; do
        head -c $((98 * (number + 1))) steps | tail -c 98
    done
}

# Makes a file by a subcommand that does all.
made() {
    local file=$1
    shift
    run "$@" --out "$file"
    same "$file has something" yes "$([ -s "$file" ] && echo yes || echo no)"
    ended "$file is whole" 0 "$1"
}

# Files for all checks: packets, their PDUs, a bad road's, and its log; PDUs of mode 1 that end one packet each; counts of packets ended in PDUs.
prepare() {
    local length
    for length in 100 50 1 4096 700 33 2 9 600 5 80 1200; do
        record "$length"
        frame $((length + 7)) >>dump
    done >packets
    printf 'Song by Singer' >psd
    printf '%s\n' 30 33 31 34 32 >counts
    : >empty
    record 100 >one
    records 8 79 >eight
    made sent generate --in packets --length 300 --psd psd
    made damaged channel --in sent --seed 3 --loss 200
    made log.csv log --in damaged --format csv
    made log.text log --in damaged
    made log.words log --in damaged --format words
    made log.records log --in damaged --format records
    made picture.svg coverage --in log.csv
    made steps generate --in eight --length 96 --mode 1
}
