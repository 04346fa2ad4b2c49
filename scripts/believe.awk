# For scripts/believe: reads definitions (specs/*.antt), declared types and contracts (src/lib.rt) and, on standard input, the claims, and follows their names.
# A definition is known as CRATE.FILE.NAME, a declared type as CRATE.declared.NAME, a contract as CRATE.lib.NAME.

function stop(text) {
    print "believe: " FILENAME ": " text >"/dev/stderr"
    failed = 1
    exit 1
}

# The words of a text, with brackets, commas and arrows apart.
function words_of(text) {
    gsub(/[(){},;]|\[|\]|→|λ|⌜|⌝/, " & ", text)
    return split(text, word, /[ \t]+/)
}

# Adds the names of a text to those that a definition mentions: not `.field`, nor the field of `record { field = .. }`.
function mention(id, text,    k, n, w) {
    n = words_of(text)
    for (k = 1; k <= n; k++) {
        w = word[k]
        if (w == "" || w ~ /^\./) continue
        if (word[k + 1] == "=" && (word[k - 1] == "{" || word[k - 1] == ";")) continue
        sub(/\..*/, "", w)
        note(id, w)
    }
}

function note(id, name) {
    if ((id, name) in noted) return
    noted[id, name]
    mentions[id] = mentions[id] " " name
}

# "use Rattle.CRATE.specs.FILE.{a, b as c}"; of a declared type "..declared.TYPE.{..}" and its cases "..declared.TYPE.TheVariants.{..}".
function import(text,    path, names, n, k, part, from) {
    sub(/^(ghost )?use /, "", text)
    if (text !~ /^Rattle\./ || text ~ /^Rattle\.std\./) return
    names = text
    if (!sub(/^[^{]*[{]/, "", names)) stop("a use line without names: " text)
    sub(/[}].*/, "", names)
    path = text
    sub(/\.[{].*/, "", path)
    sub(/^Rattle\./, "", path)
    sub(/\.specs\./, ".", path)
    sub(/\.TheVariants$/, "", path)
    n = split(names, part, /, */)
    for (k = 1; k <= n; k++) {
        from = part[k]
        sub(/ as .*/, "", from)
        sub(/.* as /, "", part[k])
        imported[file, part[k]] = path ~ /\.declared\./ ? path : path "." from
        if (!specs) cited[++citations] = imported[file, part[k]]
    }
}

# A definition begins, and a line of it.
function begin(name, text) {
    id = file "." name
    if (id in home) stop(name " is defined twice")
    home[id] = FILENAME
    if (depth > 0) around[id] = module[depth]
    add(text)
}

function add(text) {
    lines[id]++
    mention(id, text)
}

# The types in a text of a .rt file.
function note_types(text,    n, k, part, outer) {
    while (match(text, /[a-z_]+::[A-Z][A-Za-z]*/)) {
        outer = substr(text, RSTART, RLENGTH)
        split(outer, part, "::")
        types[file, outer] = part[1] ".declared." part[2]
        note(id, outer)
        text = substr(text, 1, RSTART - 1) " " substr(text, RSTART + RLENGTH)
    }
    gsub(/[^A-Za-z_0-9]+/, " ", text)
    n = split(text, part, " ")
    for (k = 1; k <= n; k++) if (part[k] ~ /^[A-Z]/) note(id, part[k])
}

FILENAME == "-" {
    claim[++claims] = $1 "." $2 "." $3
    title_of[claims] = $3
    next
}

FNR == 1 {
    split(FILENAME, place, "/")
    name = place[4]
    sub(/\.[a-z]*$/, "", name)
    crate = place[2]
    file = crate "." name
    specs = place[3] == "specs"
    library = crate == "capi" || crate == "panel"
    depth = 0
    kind = ""
    exported = 0
}
specs { sub(/(^| +)--( .*)?$/, "") }
!specs { sub(/(^| +)\/\/.*$/, "") }
/^ *$/ || /^pub mod / || /^mod / { next }

# ---- crates/CRATE/specs/FILE.antt

specs && /^use / { import($0); next }
specs {
    match($0, /^ */)
    indent = RLENGTH
    while (depth > 0 && indent <= module_indent[depth]) depth--
    own = depth > 0 ? module_indent[depth] + 2 : 0
}
specs && indent == own && $1 == "module" {
    begin("module-" ++modules, $0)
    module[++depth] = id
    module_indent[depth] = indent
    next
}
specs && indent == own && ($1 == "abbrev" || $1 == "unfoldable" || $1 == "pub") {
    kind = $1 == "pub" ? $2 : "definition"
    title = $2 == "pub" || $1 == "pub" ? $3 : $2
    begin(title, $0)
    order[++definitions] = id
    next
}
specs && indent == own && $1 != title && $1 != "}" { stop("line " FNR " belongs to no definition: " $0) }
specs && kind == "data" && $2 == ":" { constructs[file "." $1] = id }
specs && kind == "record" { sub(/^ *pub [^ ]+ :/, "") }
specs { add($0); next }

# ---- crates/CRATE/src/lib.rt

/^ghost use / { import($0); next }
/^use [a-z_]+::/ {
    n = split($0, part, /[^A-Za-z_0-9]+/)
    for (k = 3; k <= n; k++) if (part[k] ~ /^[A-Z]/) types[file, part[k]] = part[2] ".declared." part[k]
    next
}
/^(pub )?(struct|enum) / {
    kind = "type"
    title = $1 == "pub" ? $3 : $2
    sub(/[<(].*/, "", title)
    id = crate ".declared." title
    home[id] = FILENAME
}
kind == "type" {
    lines[id]++
    note_types($0)
    if (/}$/) kind = ""
    next
}
/^#\[unsafe\(no_mangle\)\]/ && library { exported = 1; next }
exported && / fn / {
    title = $0
    sub(/.* fn /, "", title)
    sub(/[(<].*/, "", title)
    id = file "." title
    home[id] = FILENAME
    contract[++contracts] = id
}
exported && /^ +ensures / {
    clause = 1
    sub(/^ +ensures [a-z_0-9]* *[{]/, "")
}
exported && clause {
    text = $0
    if (sub(/}$/, "", text)) clause = 0
    if (text !~ /^ *$/ || !clause) add(text)
    next
}
exported && /^[{]/ { exported = 0 }
exported { note_types($0) }

# ---- following the names

# The definition that a name in another one means; nothing where it is a word of the library, or a variable with a name of its own.
function meaning(id, name,    place, of) {
    split(id, place, ".")
    of = place[1] "." place[2]
    if (place[2] == "declared") return (of "." name) in home ? of "." name : types[place[1] ".lib", name]
    if ((of "." name) in constructs) return constructs[of "." name]
    if ((of, name) in imported) return defined(imported[of, name])
    if ((of "." name) in home) return of "." name
    if ((place[1] ".declared." name) in home && place[2] == "lib") return place[1] ".declared." name
    return types[of, name]
}

function defined(name) {
    if (name in constructs) return constructs[name]
    if (name in home || name ~ /\.proofs\./) return name
    print "believe: no definition of " name >"/dev/stderr"
    failed = 1
    return ""
}

function reach(set, id,    k, n, part, to) {
    if ((set, id) in reached) return
    reached[set, id] = by
    if (id in around) reach(set, around[id])
    n = split(mentions[id], part, " ")
    for (k = 1; k <= n; k++) {
        to = meaning(id, part[k])
        if (to != "") reach(set, to)
    }
}

function tell(class, id,    name) {
    name = id
    sub(/^[^.]*\.[^.]*\./, "", name)
    print class, lines[id], home[id], name, reached["promises", id]
}

END {
    if (failed) exit 1
    by = "contracts"
    for (k = 1; k <= contracts; k++) reach("promises", contract[k])
    for (k = 1; k <= citations; k++) if (cited[k] in home || cited[k] in constructs) reach("inner", defined(cited[k]))
    for (k = 1; k <= claims; k++) {
        by = title_of[k]
        if (defined(claim[k]) != "") reach("promises", claim[k])
    }
    for (id in home) if (("promises", id) in reached && lines[id] > 0) tell("reached", id)
    for (k = 1; k <= definitions; k++) if (!(("promises", order[k]) in reached)) tell(("inner", order[k]) in reached ? "inner" : "unreached", order[k])
    if (failed) exit 1
}
