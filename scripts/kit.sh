# For the scripts beside it, which read it where they stand in the project's root: where the toolchain is, and what of the crates is proved.
# shellcheck shell=bash

# The toolchain's folder: `rt doc` prints a page of it.
kit=${RATTLE_HOME:-$(dirname "$(rt doc)")}
tools=$kit/toolchain
target=x86_64-unknown-linux-gnu

# A line for each crate that a crate rests on, itself last and each after those that it depends on: NAME DEP...
crates_below() { # CRATE
    awk -v top="$1" '
        function reach(n,    k, m, d) {
            if (n in seen || !(n in needs)) return
            seen[n]
            m = split(needs[n], d, " ")
            for (k = 1; k <= m; k++) reach(d[k])
            print n, needs[n]
        }
        { sub(/#.*/, "") }
        split($0, part, ":") == 2 { split(part[1], name, " "); needs[name[1]] = part[2] }
        END { reach(top) }' crates.txt
}

# A sum of all that the crates are made of.
crates_sum() {
    { echo crates.txt && find crates -name out -prune -o -type f -print; } | LC_ALL=C sort | tr '\n' '\0' | xargs -0 sha256sum | sha256sum | cut -d ' ' -f 1
}

# Notes that rt ci begins, and that it has passed on the crates as they stand.
note_begun() {
    mkdir -p target
    rm -f target/proved
    touch target/begun
}
note_proved() { crates_sum >target/proved; }

# Whether rt ci has passed on the crates as they stand.
has_passed() { [ -f target/proved ] && [ "$(cat target/proved)" = "$(crates_sum)" ]; }

# Whether it has, and the crates' libraries are those that it proved: they were made since it began, and have no stamp, as those of other commands have.
is_proved() {
    local place name
    has_passed || return 1
    for place in crates/*/out/rlib; do
        name=${place#crates/}
        name=${name%%/*}
        [ "$place/$name.rlib" -nt target/begun ] && [ ! -e "$place/stamp" ] || return 1
    done
}

# Removes the libraries that rt ci left: no other command takes them, and the next rt ci would put them back in place of its own.
forget_proved() {
    local place
    rm -f target/proved
    for place in crates/*/out/rlib; do [ -e "$place/stamp" ] || rm -rf "$place"; done
}

# Whether a file is there, and no crate is newer.
current() { # FILE
    [ -f "$1" ] && [ -z "$(find crates crates.txt \( -name out -o -name must-fail \) -prune -o -type f -newer "$1" -print -quit)" ]
}

# The words that have rattle read a crate over the libraries of those below it, into the array words. The folder that the command runs in has the crate's src/;
# the libraries are named by whole paths.
words_of() { # CRATE
    local name needs d
    words=(--crate-name "$1")
    if [ -f "crates/$1/src/main.rt" ]; then words+=(src/main.rt); else words+=(src/lib.rt); fi
    words+=(--extern "std=$kit/rlibs/std.rlib" -L "dependency=$kit/rlibs")
    while read -r name needs; do
        if [ "$name" != "$1" ]; then
            words+=(-L "dependency=$PWD/crates/$name/out/rlib")
            continue
        fi
        for d in $needs; do
            if [ -d "crates/$d" ]; then words+=(--extern "$d=$PWD/crates/$d/out/rlib/$d.rlib"); else words+=(--extern "$d=$kit/rlibs/$d.rlib"); fi
        done
    done < <(crates_below "$1")
    words+=(--antt-project "$kit/rattle/logic/antt-project.json" --logic-built "$kit/logic_built")
}
