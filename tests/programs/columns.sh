# The columns of a log as CSV and as JSON: one meaning for each, the CRC-32 of packets and PSD, the text of PSD; and the CSV that a spreadsheet saved. Sourced by
# run.sh.

# Whether there is something to read CSV and JSON with; where there is nothing, says so.
has_python() {
    if ! command -v python3 >/dev/null; then
        echo "programs: no python3 here; $1"
        return 1
    fi
}

# What is different between a CSV, its JSON lines and the words of the same log; nothing where they say the same. Each line of JSON is read by itself.
differences() { # CSV JSON WORDS
    python3 - "$@" <<'PYTHON'
import array, csv, json, sys, zlib

rows = list(csv.DictReader(open(sys.argv[1], newline="", encoding="utf-8")))
objects = [json.loads(line) for line in open(sys.argv[2], encoding="utf-8")]
texts = ("kind", "copy", "cause", "crc32", "text")
wanted = [{name: text if name in texts else int(text) for name, text in row.items() if text} for row in rows]
for row in wanted:
    if row["kind"] == "end":
        assert row.pop("cause") == "whole"
    if row.get("text", "")[:2] in (" =", " +", " -", " @"):
        row["text"] = row["text"][1:]
for number, (row, one) in enumerate(zip(wanted, objects)):
    if row != one:
        print("line", number, row, one)
if len(wanted) != len(objects):
    print(len(wanted), "rows and", len(objects), "objects")
words = array.array("I", open(sys.argv[3], "rb").read())
came, data = [], None
for word in words:
    if word >> 30 == 1:
        data += (word & 0xFFFFFF).to_bytes(3, "big")[:word >> 24 & 3]
        continue
    data = bytearray()
    came.append((word, data))
entries = [row for row in wanted if row["kind"] in ("packet", "psd", "note")]
if len(came) != len(entries):
    print(len(came), "entries of words and", len(entries), "rows")
for (word, data), row in zip(came, entries):
    kind = ("packet", "", "psd", "note")[word >> 30]
    told = {"kind": kind, "length": word & 0xFFFF, "crc32": "%08x" % zlib.crc32(data)}
    if kind == "packet":
        told["packet"] = word >> 16 & 63
    if kind == "note":
        told = {"kind": kind, "note": word >> 16 & 0x3FFF}
        if told["note"] in (2, 3, 5, 7):
            told["piece"] = word & 0xFFFF
    if {name: row.get(name) for name in told} != told or ("piece" in row) != ("piece" in told):
        print(told, row)
PYTHON
}

# Logs a file in the three formats, which have to say the same.
says_the_same() { # WHAT OPTION...
    local about=$1 format
    shift
    for format in csv json words; do
        run log "$@" --format "$format"
        cp out "same.$format"
    done
    same "$about: CSV, JSON and words" "" "$(differences same.csv same.json same.words 2>&1 | sed -n 1,5p)"
}

# Lengths of every remainder by 3, losses, refusals, wrong CRCs, pairs, withheld PDUs.
check_columns_same() {
    has_python "CSV and JSON are not held to each other" || return 0
    says_the_same "a drive" --in damaged
    same "its JSON has all PDUs" "$(tail -n 1 same.csv | cut -d , -f 15)" "$(sed -n '$s/^{"kind":"end","pdus":\([0-9]*\)}$/\1/p' same.json)"
    says_the_same "a drive with refused PDUs" --in drive
    says_the_same "a drive with wrong CRCs" --in sent --crc-start 1
    says_the_same "a pair of drives" --in sent --second damaged
    says_the_same "a pair of which both have damage" --in damaged --second sent
    steps 0 3 2 5 >order
    says_the_same "PDUs out of order" --in order --mode 1
    record 95 >short.pdu
    run log --in short.pdu --format json
    same "a refused PDU and its note as JSON" '{"pdu":0,"kind":"refused","refusal":3,"length":95,"cause":"length not 96 to 20480","delivered":0,"missing":0}
{"pdu":0,"kind":"note","note":6,"cause":"lost"}
{"kind":"end","pdus":1}' "$(cat out)"
    run log --in empty --format json
    same "no PDUs as JSON" '{"kind":"end","pdus":0}' "$(cat out)"
    run log --in <(head -c 400 sent) --format json
    ended "a cut file as JSON" 1 log
    same "a cut file as JSON has no last line" 0 "$(grep -c '"kind":"end"' out || true)"
}

# The CSV and the JSON of a PSD: its field in the CSV, and what it is in JSON with the comma before it.
has_text() { # WHAT PSD FIELD JSON
    printf '%b' "$2" >some.psd
    rm -f some.pdus
    run generate --in one --length 1200 --psd some.psd --out some.pdus
    run log --in some.pdus --format csv
    same "the text of PSD, $1" "$3" "$(sed -n 's/^0,psd,,,,,[0-9]*,,,,,,[0-9a-f]*,\(.*\),$/\1/p' out)"
    run log --in some.pdus --format json
    same "the text of PSD as JSON, $1" "$4" "$(sed -n 's/^{"pdu":0,"kind":"psd","length":[0-9]*,"crc32":"[0-9a-f]*"\(.*\)}$/\1/p' out)"
    says_the_same "the text of PSD, $1" --in some.pdus
}

check_columns_text() {
    local long
    has_python "texts of PSD are not looked at" || return 0
    has_text "all of it" 'Song by Singer' '"Song by Singer"' ',"text":"Song by Singer"'
    has_text "one letter" 'x' '"x"' ',"text":"x"'
    has_text "quotes, a comma and a backslash" 'a "b", c\\' '"a ""b"", c\"' ',"text":"a \"b\", c\\"'
    has_text "a tag" 'ID3\x03\x00\x00\x00TIT2\x00\x00\x00\x05\x00\x00\x00Song\x00TPE1\x00\x00\x00\x07\x00\x00\x00Singer' '"ID3 TIT2 Song TPE1 Singer"' ',"text":"ID3 TIT2 Song TPE1 Singer"'
    has_text "runs of one and two" 'ab\x00c\x00\xe9de\x7f' '' ''
    has_text "letters of ISO 8859-1" 'Caf\xe9 \xc0 \xabla Cit\xe9\xbb' '"Café À «la Cité»"' ',"text":"Café À «la Cité»"'
    has_text "letters in UTF-8" 'Caf\xc3\xa9 \xe2\x82\xac 5\x00d\xc3\xbcnn' '"Café € 5 dünn"' ',"text":"Café € 5 dünn"'
    has_text "both, and what is no letter" 'Caf\xc3\xa9\x00Caf\xe9,\x80\x9fbar' '"Café Café,  bar"' ',"text":"Café Café,  bar"'
    has_text "UTF-16" 'TIT2\x00\xff\xfeS\x00o\x00n\x00g\x00' '"TIT2"' ',"text":"TIT2"'
    has_text "letters of no ASCII" '\xe9\xe8\xea\xeb' '' ''
    long=$(printf '%0120d' 0 | sed 's/0/\\xe9/g')
    has_text "letters that do not all fit" "abc$long" "\"abc$(printf '%098d' 0 | sed 's/0/é/g')\"" ",\"text\":\"abc$(printf '%098d' 0 | sed 's/0/é/g')\""
    has_text "line ends" 'one\r\ntwo\nthree' '"one two three"' ',"text":"one two three"'
    has_text "a formula" '=1+1' '" =1+1"' ',"text":"=1+1"'
    has_text "a sign" '-1' '" -1"' ',"text":"-1"'
    has_text "an at sign" '@all' '" @all"' ',"text":"@all"'
    has_text "a plus" '\x00+12' '" +12"' ',"text":"+12"'
    long=$(printf '%0128d' 0 | tr 0 x)
    has_text "the longest" "$long" "\"$long\"" ",\"text\":\"$long\""
    long=${long//x/\"}
    has_text "the longest, of quotes" "$long" "\"$long$long\"" ",\"text\":\"$(sed 's/"/\\"/g' <<<"$long")\""
    run log --in some.pdus --format csv
    cp out quotes.csv
    run coverage --in quotes.csv
    ended "the picture of a log with the longest text" 0 coverage
}

# Saves a CSV as a spreadsheet does: what it begins with, its separator, what ends a line, 1 for every field in quotes, else some, and how many empty fields are
# added at a line's end, or -1 where those that are there are left out.
saving='
import csv, sys

begin, separator, end, quotes, added = sys.argv[1:]
rows = list(csv.reader(sys.stdin))
for row in rows:
    row += [""] * int(added)
    while added == "-1" and not row[-1]:
        row.pop()
sys.stdout.write("\ufeff" if begin else "")
csv.writer(sys.stdout, delimiter=separator, lineterminator=end, quoting=csv.QUOTE_ALL if quotes == "1" else csv.QUOTE_MINIMAL).writerows(rows)
'

saved() { # BEGIN SEPARATOR END QUOTES ADDED
    PYTHONIOENCODING=utf-8 python3 -c "$saving" "$@"
}

check_columns_saved() {
    local begin separator end quotes added file
    has_python "CSVs that a spreadsheet saved are not read" || return 0
    older log.csv >counted.csv
    bare log.csv >uncounted.csv
    for file in log counted uncounted; do
        run coverage --in "$file.csv"
        cp out wanted.svg
        for begin in "" mark; do
            for separator in , ';' $'\t'; do
                for quotes in 0 1; do
                    for added in -1 0 3; do
                        end=$([ "$added" = 0 ] && printf '\n.' || printf '\r\n.')
                        saved "$begin" "$separator" "${end%.}" "$quotes" "$added" <"$file.csv" >saved.csv
                        run coverage --in saved.csv
                        same_file "$file.csv saved with '$begin' '$separator' $quotes $added" wanted.svg out
                        ended "$file.csv saved with '$begin' '$separator' $quotes $added" 0 coverage
                    done
                done
            done
        done
    done
    { older log.csv | grep -v ,end, | sed -n 1,12p; tail -n +13 log.csv; } >mixed.csv
    run coverage --in mixed.csv
    same_file "an older log that another goes on" picture.svg out
}
