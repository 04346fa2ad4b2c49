# Frames of PDUs that are received in one call (document 02, Ask 1): what is written, what is said and the exit status are the same for every count of records
# in a frame, and without frames. Sourced by run.sh.

# Some counts of records in a frame.
batch_counts=(1 2 3 8 64)

# A check that a file has the same log in each format, the same is said, and the status is the same for every count: what it is about, the file, and other options.
same_in_batches() {
    local about=$1 file=$2 format before many
    shift 2
    for format in words text csv json records; do
        run log --in "$file" --format "$format" "$@"
        cp out wanted
        cp err wanted.err
        before=$status
        for many in "${batch_counts[@]}"; do
            run log --in "$file" --format "$format" --batch "$many" "$@"
            same "$about, $format, $many in a call, exit status" "$before" "$status"
            same_file "$about, $format, $many in a call" wanted out
            same_file "$about, $format, $many in a call, what is said" wanted.err err
        done
    done
}

# PDUs as they were sent, damaged and lost ones, refused ones of all kinds alone and in a row, at the beginning and at the end, and none at all.
check_batches() {
    same_in_batches "as sent" sent
    same_in_batches "damaged and lost" damaged
    make_drive
    same_in_batches "refused and lost" drive
    { pdus 0 1; records 4 95; pdus 1 1; records 3 96; pdus 2 1; record 95; } >mixed
    same_in_batches "many refused" mixed
    { records 2 0; record 95; pdus 0 9; record 0; record 1; pdus 9 3; records 4 20480; pdus 12 9; record 0; } >mixed
    same_in_batches "at the beginning, in the middle and at the end" mixed
    same_in_batches "of another mode" other
    same_in_batches "none" empty
    records 5 0 >mixed
    same_in_batches "lost ones alone" mixed
    same_in_batches "ends of packets" steps --mode 1
    steps 0 1 3 3 4 4 5 7 2 >mixed
    same_in_batches "out of sequence" mixed --mode 1
}

# Drives over bad roads, some of whose headers are beyond correction; and by another register, where nearly all CRCs are wrong.
check_batches_drives() {
    local seed right samples=$here/../../samples
    run generate --in "$samples/packets" --psd "$samples/psd" --length 512
    cp out many
    for seed in 1 2 3; do
        run channel --in many --seed "$seed" --loss 100 --bytes 5
        cp out mixed
        same_in_batches "a drive, seed $seed" mixed
        same_in_batches "a drive by another register, seed $seed" mixed --crc-start 9
    done
    run generate --in packets --length 96
    cp out mixed
    same_in_batches "packets over many PDUs" mixed
    same_in_batches "packets over many PDUs, by another register" mixed --crc-start 9
    for right in one held ends chance; do
        { copies 16 one.wrong; cat "$right.right"; } >mixed
        same_in_batches "16 wrong CRCs to a right one, $right" mixed
        { copies 17 one.wrong; cat "$right.right"; } >mixed
        same_in_batches "17 wrong CRCs to a right one, $right" mixed
    done
}

# Frames that end before their count is reached, since their PDUs are long, and logs that would not fit: 64 PDUs, the last of which is the longest.
check_batches_long() {
    local turn
    run generate --in packets --length 20480
    cp out mixed
    same_in_batches "long PDUs" mixed
    record 40 >short
    for turn in {1..12}; do
        cat short short >mixed
        mv mixed short
    done
    run generate --in short --length 2080
    head -c $((63 * 2082)) out >mixed
    records 63 320 >large
    run generate --in large --length 20480
    head -c 20482 out >>mixed
    run log --in mixed --format words
    same "64 PDUs with more words than the room of a frame" yes "$([ "$(stat -c %s out)" -gt 200000 ] && echo yes || echo no)"
    same_in_batches "a log for which the room of a frame is too short" mixed
}

# Files that end inside a record, wherever that is; a pipe; and a log that cannot be written.
check_batches_files() {
    local length many
    for length in 1 2 3 100 301 303 2000 2416 2417 2418; do
        head -c "$length" sent >mixed
        same_in_batches "a file of $length bytes" mixed
    done
    run log --in sent
    cp out wanted
    status=0
    { pdus 0 3; sleep 0.1; tail -c +$((302 * 3 + 1)) sent; } | "$program" log --batch 8 >out 2>err || status=$?
    ended "batches from a pipe" 0 log
    same_file "batches from a pipe" wanted out
    run_to /dev/full log --in sent
    cp err wanted.err
    for many in "${batch_counts[@]}"; do
        run_to /dev/full log --in sent --batch "$many"
        ended "$many in a call, onto a full disk" 1 log
        same_file "$many in a call, onto a full disk, what is said" wanted.err err
    done
}

# A batch takes no marks and no pairs; and it goes with the other options.
check_batches_asked() {
    wrong "barzhilup log: --batch: a batch takes no marks" log --batch 8 --marks empty
    wrong "barzhilup log: --batch: a batch takes no pairs" log --batch 8 --in sent --second empty
    wrong "barzhilup log: --batch: not a number from 1 to 64: 65
barzhilup log: --batch: a batch takes no marks" log --batch 65 --marks empty
    wrong "barzhilup log: --batch: given twice" log --batch 8 --batch 8
    rm -f made.csv made.csv~
    run log --in sent --format csv --batch 8 --out made.csv
    ended "a log by batches in a file" 0 log
    run log --in sent --format csv
    cp out wanted
    same_file "a log by batches in a file" wanted made.csv
    run log --in sent --format csv --batch 3 --out made.csv --force
    ended "a log by batches with --force" 0 log
    same_file "a log by batches with --force" wanted made.csv
}
