#!/usr/bin/env bash
# The documents against what they speak of. Each test says in a line what it compared; the exit status is 1 where something differs.
set -euo pipefail
cd "$(dirname "$0")/../.."
export LC_ALL=C
failed=0

fail() {
    echo "documents: $1"
    failed=$((failed + 1))
}

# docs/CLAIMS.md has the figure that scripts/believe counts.
check_believe() {
    local told
    told=$(bash scripts/believe total)
    grep -qxF "    $told" docs/CLAIMS.md || fail "docs/CLAIMS.md has not the line \"$told\""
    echo "documents: docs/CLAIMS.md, what a reader has to believe: held against scripts/believe"
}

# docs/AUDIT.md says that no name is defined in the specs/ of two crates, nor one of a library.
check_names() {
    local line
    while read -r line; do
        [ -z "$line" ] || fail "docs/AUDIT.md: a name with two meanings, $line"
    done <<<"$(bash scripts/names)"
    echo "documents: docs/AUDIT.md: one meaning for each name of specs/, held by scripts/names"
}

# The drawing of docs/ARCHITECTURE.md: a line for each layer and crate, "LAYER CRATE".
drawn() {
    awk '
        /^## The house/ { house = 1 }
        /^## / && !/^## The house/ { house = 0 }
        house && /^    / {
            line = substr($0, 5)
            sub(/\|.*/, "", line)
            if (line !~ /^ /) layer++
            line = substr(line, 16)
            gsub(/[^a-z_0-9 ]|PDUs/, " ", line)
            n = split(line, name, " ")
            for (k = 1; k <= n; k++) print layer, name[k]
        }' docs/ARCHITECTURE.md
}

# Each crate stands in it once, no other name does, and a crate uses only crates of its own layer and of those below.
check_house() {
    local wrong line
    wrong=$(drawn | awk '
        NR == FNR { if ($2 in layer) print $2 " stands twice in the drawing"; layer[$2] = $1; next }
        { sub(/#.*/, ""); sub(/ +staticlib *:/, ":") }
        split($0, part, ":") == 2 { needs[part[1]] = part[2] }
        END {
            for (c in layer) if (!(c in needs)) print c " stands in the drawing and not in crates.txt"
            for (c in needs) {
                if (!(c in layer)) print c " does not stand in the drawing"
                n = split(needs[c], name, " ")
                for (k = 1; k <= n; k++) if (c in layer && name[k] in layer && layer[name[k]] < layer[c]) print c " uses " name[k] ", which stands above it"
            }
        }' - crates.txt | sort)
    while read -r line; do
        [ -z "$line" ] || fail "docs/ARCHITECTURE.md: $line"
    done <<<"$wrong"
    echo "documents: docs/ARCHITECTURE.md, the drawing: $(drawn | wc -l) crates in $(drawn | cut -d ' ' -f 1 | sort -u | wc -l) layers, held against crates.txt"
}

# The table under it names each crate, and each crate is a folder.
check_crates() {
    local crate count=0
    for crate in $(sed -n 's/^\([a-z_0-9]*\)\( staticlib\)\?:.*/\1/p' crates.txt); do
        count=$((count + 1))
        grep -q "^|.*\`$crate\`" docs/ARCHITECTURE.md || fail "docs/ARCHITECTURE.md: no row names $crate"
        [ -d "crates/$crate" ] || fail "there is no folder crates/$crate"
    done
    [ "$count" = "$(ls crates | wc -l)" ] || fail "crates.txt has $count crates, and crates/ $(ls crates | wc -l)"
    echo "documents: docs/ARCHITECTURE.md, the table: $count crates"
}

# The first sentence of each crate's first comment, "CRATE:SENTENCE" to a line: at most two lines of 160 characters; without such a sentence there is only "CRATE:".
sentences() {
    local crate
    for crate in $(ls crates); do
        echo "$crate:$(cat "crates/$crate/src/"{lib,main}.rt 2>/dev/null | awk '
            !/^\/\/ / || NR > 2 || length > 160 { exit }
            { text = text substr($0, 3) }
            match(text, /[.]( |$)/) { print substr(text, 2, RSTART - 1); exit }')"
    done
}

# Each says what the crate may use: it names in backquotes crates of its line in crates.txt and no other, and among them all that no other of that line stands on;
# a crate whose line has none stands on nothing. No crate uses the program's own, so `barzhilup` there is the program.
check_uses() {
    local wrong line
    wrong=$(sentences | awk -F : '
        function reach(list, seen, k, n, name) {
            n = split(list, name, " ")
            for (k = 1; k <= n; k++) if (!(name[k] in seen)) { seen[name[k]]; reach(needs[name[k]], seen) }
        }
        function wrong(text) { print "the first sentence of crates/" $1 "/src " text }
        NR == FNR {
            sub(/#.*/, "")
            sub(/ +staticlib *:/, ":")
            if (NF == 2) { needs[$1] = $2; reach($1 " " $2, known) }
            next
        }
        $2 == "" { wrong("is not there, or has more than two lines of 160 characters"); next }
        {
            split("", named)
            split("", below)
            n = split($0, part, "`")
            for (k = 2; k <= n; k += 2) if (part[k] in known && part[k] != "barzhilup") {
                named[part[k]]
                if (!index(" " needs[$1] " ", " " part[k] " ")) wrong("names `" part[k] "`, which its line of crates.txt does not have")
            }
            n = split(needs[$1], name, " ")
            for (k = 1; k <= n; k++) reach(needs[name[k]], below)
            for (k = 1; k <= n; k++) if (!(name[k] in below) && !(name[k] in named)) wrong("does not name `" name[k] "`, which the crate uses")
            if ((n == 0) != ($0 ~ /stands? on nothing/)) wrong(n ? "says that it stands on nothing" : "does not say that it stands on nothing")
        }' crates.txt -)
    while read -r line; do
        [ -z "$line" ] || fail "$line"
    done <<<"$wrong"
    echo "documents: first comments: what each of $(sentences | grep -c ':.') crates is and may use, held against crates.txt"
}

# README.md says what is proved of the core: each function of the layer of libraries, and of those below it, has a contract.
check_contracts() {
    local crate name count=0
    for crate in $(drawn | awk '{ layer[$2] = $1 } END { for (c in layer) if (layer[c] >= layer["capi"]) print c }'); do
        while read -r name; do
            [ -n "$name" ] || continue
            count=$((count + 1))
            [ "${name#-}" = "$name" ] || fail "README.md: ${name#-} of $crate has no contract"
        done <<<"$(awk '
            function told() { if (name != "") print (promised ? "" : "-") name }
            /^ *(pub )?(extern "C" )?fn / { told(); name = $0; sub(/.*fn /, "", name); sub(/[^A-Za-z0-9_].*/, "", name); promised = 0 }
            /^ *ensures / { promised = 1 }
            END { told() }' "crates/$crate/src/lib.rt")"
    done
    echo "documents: README.md: a contract of each of the core's $count functions"
}

# The names that docs/AUDIT.md gives, each with the file or the folder of edits that it stands under: "FILE NAME" to a line. A file is named in backquotes, and after
# it its names, up to the next file, the next cell of a table or the next item. A document is a file without names.
audited() {
    awk '
        /^(- |\||$)/ { file = "" }
        {
            n = split($0, part, "`")
            for (k = 2; k <= n; k += 2) {
                if (part[k - 1] ~ /\|/) file = ""
                if (part[k] ~ /^docs\//) { file = ""; print part[k] }
                else if (part[k] ~ /^[a-z_0-9]+\/([A-Za-z_\/]+\.(antt|rt)|must-fail)$/) { file = "crates/" part[k]; print file }
                else if (file != "") print file, part[k]
            }
        }' docs/AUDIT.md
}

# Whether a file defines a name; an edit names the function that is wrong in it.
defines() { # FILE NAME
    case $1 in
    *.antt) grep -qE "^ *((abbrev|unfoldable|pub|record|data) )*$2( |\$)" "$1" ;;
    *.rt) grep -qE "(fn|struct|enum|const) $2\\b" "$1" ;;
    *) grep -qE "^# [a-z_0-9]*::$2 " "$1"/*.edit ;;
    esac
}

# Each is defined in its file, and each claim that scripts/believe knows is among them.
check_audit() {
    local file name crate count=0
    while read -r file name; do
        [ -e "$file" ] || { fail "docs/AUDIT.md: there is no $file" && continue; }
        [ -n "$name" ] || continue
        count=$((count + 1))
        defines "$file" "$name" || fail "docs/AUDIT.md: $name is not defined in $file"
    done <<<"$(audited)"
    while read -r crate file name; do
        grep -qxF "crates/$crate/specs/$file.antt $name" <<<"$(audited)" || fail "docs/AUDIT.md does not name the claim $name of crates/$crate/specs/$file.antt"
    done <<<"$(bash scripts/believe claims)"
    echo "documents: docs/AUDIT.md: $count names, held against the files that they stand in, and $(bash scripts/believe claims | wc -l) claims"
}

# The command that docs/AUDIT.md begins with proves as many crates as it says: those that it names, and all that these use.
check_command() {
    local told
    told=$(sed -n 's/^    rt ci //p' docs/AUDIT.md | cat - crates.txt | awk '
        function reach(list, k, n, name) {
            n = split(list, name, " ")
            for (k = 1; k <= n; k++) if ((name[k] in needs) && !(name[k] in seen)) { seen[name[k]]; reached++; reach(needs[name[k]]) }
        }
        NR == 1 { asked = $0; next }
        { sub(/#.*/, ""); sub(/ +staticlib *:/, ":") }
        split($0, part, ":") == 2 { needs[part[1]] = part[2]; all++ }
        END { reach(asked); print reached " of the " all " crates" }')
    grep -qF "$told" docs/AUDIT.md || fail "docs/AUDIT.md does not say that its command proves $told"
    echo "documents: docs/AUDIT.md, its command: $told"
}

# The rows of docs/DRIVE.md that name bytes of a PDU, against the bytes that were sent: each row has the bytes from its first place to its last, ".." for those
# between, and the rows of a PDU go from byte 0 to byte 99.
check_bytes() { # FILE OF PDUS
    od -An -v -tx1 -w102 "$1" | awk '
        function wrong(text) { print "the row of PDU " pdu ", byte " $2 ": " text }
        NR == FNR { for (k = 3; k <= NF; k++) sent[NR - 1, k - 3] = $k; next }
        /^## PDU / { pdu = $3; next_place = 0 }
        /^## / && !/^## PDU / { if (pdu != "" && next_place != 100) print "the rows of PDU " pdu " end at byte " next_place - 1; pdu = "" }
        pdu != "" && /^\| [0-9]/ {
            split($2, place, "-")
            first = place[1] + 0
            last = place[2] == "" ? first : place[2] + 0
            if (first != next_place) wrong("the row before it ends at " next_place - 1)
            next_place = last + 1
            split($0, part, "`")
            n = split(part[2], byte, " ")
            for (k = 1; k <= n && byte[k] != ".."; k++) if (sent[pdu, first + k - 1] != byte[k]) wrong(byte[k] " is not what was sent")
            cut = k <= n
            if (!cut && n != last - first + 1) wrong("has " n " bytes")
            for (k = n; cut && byte[k] != ".."; k--) if (sent[pdu, last - n + k] != byte[k]) wrong(byte[k] " is not what was sent")
            rows++
        }
        END { print rows + 0 " rows" }' - docs/DRIVE.md
}

# docs/DRIVE.md: its indented lines are what scripts/drive prints, its rows of bytes are those that were sent, its words stand in the log.
check_drive() {
    local folder line word rows
    if [ ! -x target/bin/barzhilup ]; then
        fail "docs/DRIVE.md: there is no target/bin/barzhilup: bash scripts/build makes it"
        return
    fi
    folder=$(mktemp -d)
    bash scripts/drive "$folder" >"$folder/printed"
    sed -n 's/^    //p' docs/DRIVE.md >"$folder/told"
    diff "$folder/told" "$folder/printed" >"$folder/differ" || fail "docs/DRIVE.md differs from what scripts/drive prints: $(sed -n 2p "$folder/differ")"
    while read -r line; do
        case $line in
        [0-9]*" rows") rows=$line ;;
        *) fail "docs/DRIVE.md: $line" ;;
        esac
    done <<<"$(check_bytes "$folder/sent")"
    for word in $(sed -n 's/^| `\([0-9a-f]\{8\}\)` .*/\1/p' docs/DRIVE.md); do
        od -An -v -tx4 -w4 "$folder/words" | grep -qw "$word" || fail "docs/DRIVE.md: no word $word in the log"
    done
    echo "documents: docs/DRIVE.md: $(wc -l <"$folder/told") lines held against scripts/drive, $rows against the bytes sent"
    rm -rf "$folder"
}

check_believe
check_names
check_house
check_crates
check_uses
check_contracts
check_audit
check_command
check_drive
echo "documents: $failed differences"
exit $((failed > 0))
