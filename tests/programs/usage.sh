# How the program is asked: its help and version, subcommands, options and their values. Sourced by run.sh.

# What the program says of itself: its subcommands, on standard output.
check_program() {
    local sub
    run --help </dev/null
    ended "barzhilup --help" 0 ""
    same "barzhilup --help, first line" "usage: barzhilup SUBCOMMAND [OPTION]..." "$(head -n 1 out)"
    same "barzhilup --help, standard error" "" "$(cat err)"
    same "barzhilup --help, longest line up to 80" yes "$([ "$(wc -L <out)" -le 80 ] && echo yes || echo no)"
    for sub in "${subs[@]}"; do
        same "barzhilup --help names $sub" 1 "$(grep -c "^  $sub " out || true)"
    done
    cp out help
    run -h </dev/null
    same_file "barzhilup -h" help out
    same "barzhilup -h, exit status" 0 "$status"
    run --version </dev/null
    same "barzhilup --version" "barzhilup" "$(cut -d ' ' -f 1 out)"
    same "barzhilup --version has one line with a number" 1 "$(grep -c '^barzhilup [0-9]' out || true)"
    said "barzhilup --version" 0 "" ""
}

# The program's help and version where they cannot be written.
check_program_full() {
    local option
    for option in --help -h --version; do
        run_to /dev/full "$option" </dev/null
        same "barzhilup $option to a full device, exit status" 1 "$status"
        same "barzhilup $option to a full device" "barzhilup: standard output: No space left on device
barzhilup: stopped early" "$(cat err)"
    done
}

# No subcommand, or one that is not known: nothing is read, written or made.
check_subcommands() {
    local word
    run <packets
    said_of_subcommand "no subcommand" "barzhilup: subcommand missing"
    for word in generator logger Generate lo logs '' -x --in --unknown --help=1 -h=1; do
        run "$word" --in packets --out new <packets
        said_of_subcommand "subcommand $word" "barzhilup: unknown subcommand $word"
        there "subcommand $word" no new
    done
}

# Checks what is said where there is no such subcommand: what it is about, and the first line.
said_of_subcommand() {
    same "$1, exit status" 2 "$status"
    same "$1" "$2
usage: barzhilup generate|channel|log|coverage|latency|join [OPTION]...
try 'barzhilup --help'" "$(cat err)"
    same "$1 writes nothing" "" "$(cat out)"
}

check_help() {
    local sub=$1
    local option
    run "$sub" --help </dev/null
    said "$sub --help" 0 "$sub" ""
    same "$sub --help, first line" "usage: barzhilup $sub [--in FILE] [--out FILE] [OPTION]..." "$(head -n 1 out)"
    same "$sub --help, longest line up to 80" yes "$([ "$(wc -L <out)" -le 80 ] && echo yes || echo no)"
    for option in $(options_of "$sub"); do
        same "$sub --help names --$option" 1 "$(grep -c -- "^  \(-h, \)\?--$option\( \|$\)" out || true)"
    done
    same "$sub --help tells the last line" yes "$(tr '\n' ' ' <out | grep -q "barzhilup $sub: stopped early" && echo yes || echo no)"
    cp out help
    check_help_again "$sub"
}

# Help that is asked for in another way, among wrong options, and where it cannot be written.
check_help_again() {
    local sub=$1
    run "$sub" -h </dev/null
    same_file "$sub -h" help out
    said "$sub -h" 0 "$sub" ""
    run "$sub" --mode x --help --unknown </dev/null
    same_file "$sub --help among wrong options" help out
    said "$sub --help among wrong options" 0 "$sub" ""
    run "$sub" --in none --out new --help </dev/null
    same_file "$sub --help with files" help out
    there "$sub --help" no new
    run_to /dev/full "$sub" --help </dev/null
    said "$sub --help to a full device" 1 "$sub" "barzhilup $sub: standard output: No space left on device"
}

# A value that an option takes.
right_value() {
    case $2 in
        in | out | second | summary | psd | marks | save | resume | svg | enhanced | title | packets | adts | sent | compared | station | date | source | note) echo value ;;
        format) echo csv ;;
        counts) echo 3 ;;
        entitled) echo 0,3 ;;
        *) range_of "$1" "$2" | cut -d ' ' -f 1 ;;
    esac
}

# Options that are unknown, have no value, have one and take none, or are given twice.
check_options() {
    local sub=$1
    local option
    for option in --unknown word -x -i -- --inn --inn=sent --i --in-sent --=1 -h=1 ''; do
        wrong "barzhilup $sub: unknown option $option" "$sub" "$option"
    done
    wrong "barzhilup $sub: unknown option --later" "$sub" --in one --later
    wrong "barzhilup $sub: unknown option --sooner
barzhilup $sub: unknown option --later" "$sub" --sooner --in one --later
    for option in $(options_of "$sub" 'FILE|TEXT|NUMBER'); do
        wrong "barzhilup $sub: --$option: value missing" "$sub" "--$option"
        wrong "barzhilup $sub: --$option: given twice" "$sub" "--$option" "$(right_value "$sub" "$option")" "--$option=$(right_value "$sub" "$option")"
    done
    for option in $(options_of "$sub" FLAG | grep -v help); do
        wrong "barzhilup $sub: --$option: takes no value" "$sub" "--$option=1"
        wrong "barzhilup $sub: --$option: given twice" "$sub" "--$option" "--$option"
    done
    wrong "barzhilup $sub: --help: takes no value" "$sub" --help=1
    wrong "barzhilup $sub: --help: takes no value" "$sub" --in one --help=
    for option in $(options_of "$sub" FILE); do
        wrong "barzhilup $sub: --$option: value missing" "$sub" "--$option" ''
        wrong "barzhilup $sub: --$option: value missing" "$sub" "--$option="
    done
    wrong "barzhilup $sub: --in: value too long" "$sub" --in "$(head -c 5000 /dev/zero | tr '\0' x)"
    wrong "barzhilup $sub: --in: value too long" "$sub" --in="$(head -c 5000 /dev/zero | tr '\0' x)"
}

# Where it is asked wrongly no file is opened: a FIFO that nobody writes would hold it up.
check_unopened() {
    local sub=$1
    local number status=0
    number=$(options_of "$sub" NUMBER | head -n 1)
    timeout 5 "$program" "$sub" --in waiting --out new --unknown 2>err || status=$?
    same "$sub with an unknown option opens nothing, exit status" 2 "$status"
    status=0
    timeout 5 "$program" "$sub" --in waiting --out new "--$number" x 2>err || status=$?
    same "$sub with a wrong number opens nothing, exit status" 2 "$status"
    there "$sub asked wrongly" no new
}

# Values that are no number in the range that an option takes, and the ends of that range.
check_numbers() {
    local sub=$1
    local option value low high
    for option in $(options_of "$sub" NUMBER); do
        read -r low high < <(range_of "$sub" "$option")
        for value in x 1x +1 1.5 0x10 ' 1' '' -5 $((low - 1)) $((high + 1)) 99999999999 18446744073709551616; do
            wrong "barzhilup $sub: --$option: not a number from $low to $high: $value" "$sub" "--$option" "$value"
        done
        wrong "barzhilup $sub: --$option: not a number from $low to $high: 1=1" "$sub" "--$option=1=1"
        for value in "$low" "$high" "00$high"; do
            check_number "$sub" "$option" "$value"
        done
    done
}

# A number that an option takes, in both forms: both do the same, and neither is wrong.
check_number() {
    run "$1" "--$2" "$3" <"$(input_of "$1")"
    same "$1 --$2 $3 is a number in its range" no "$([ "$status" = 2 ] && echo yes || echo no)"
    cp out wanted
    cp err wanted.err
    local before=$status
    run "$1" "--$2=$3" <"$(input_of "$1")"
    same "$1 --$2=$3, exit status" "$before" "$status"
    same_file "$1 --$2=$3, what is written" wanted out
    same_file "$1 --$2=$3, what is said" wanted.err err
}

# Files and texts in the form with an equals sign do as in the other.
check_equals() {
    local sub=$1
    local input
    input=$(input_of "$sub")
    run "$sub" --in "$input"
    cp out wanted
    run "$sub" --in="$input"
    same_file "$sub --in=$input" wanted out
    ended "$sub --in=$input" 0 "$sub"
    rm -f new
    run "$sub" --in="$input" --out=new
    same_file "$sub --out=new" wanted new
    ended "$sub --out=new" 0 "$sub"
    rm new
}

check_equal_texts() {
    run generate --in=packets --psd=psd --length=300
    same_file "generate --psd=psd" sent out
    run log --in=damaged --format=csv
    same_file "log --format=csv" log.csv out
    run coverage --in=log.csv --title=a=b
    same "coverage --title=a=b" 1 "$(grep -c '<title>a=b</title>' out || true)"
    run coverage --in=log.csv --title=
    cp out wanted
    run coverage --in=log.csv --title ''
    same_file "a title of no bytes, in both forms" wanted out
}

# Values that an option does not take, each said in a line.
check_values() {
    wrong "barzhilup generate: --mode: not a number from 0 to 255: x
barzhilup generate: --length: not a number from 0 to 65535: 70000
barzhilup generate: --marker: not a number from 0 to 4294967295: -1" generate --marker -1 --length 70000 --mode x
    wrong "barzhilup log: --format: not words, text, csv, json or records: xml" log --format xml
    wrong "barzhilup log: --format: not words, text, csv, json or records: CSV" log --format=CSV
    wrong "barzhilup log: --stream: not a number from 0 to 255: 256
barzhilup log: --format: not words, text, csv, json or records: " log --format '' --stream 256
    wrong "barzhilup coverage: --title: over 200 bytes, or not UTF-8" coverage --in log.csv --title "$(head -c 201 /dev/zero | tr '\0' x)"
    wrong "barzhilup coverage: --title: over 200 bytes, or not UTF-8" coverage --in log.csv --title "$(printf 'a\xff')"
    run coverage --in log.csv --title "$(head -c 200 /dev/zero | tr '\0' x)"
    same "a title of 200 bytes is taken" 2 "$(grep -c 'x\{200\}' out || true)"
}
