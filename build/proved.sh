# shellcheck shell=bash
# Sourced by ./preview, ./archive and ./test, and by scripts of tests/: whether a thing that was built is of these sources, and proving them, seen while it runs.
# The caller has set `root`, the repository, and `me`, its own name.
: "${root:?}" "${me:?}"

# The kit that is at hand, as one line; nothing where there is none.
kit() { rt version 2>/dev/null || true; }

# The lines of crates.txt for the named crates and all that they reach.
reached() {
    awk -v wanted="$*" '
        function visit(name,    list, n, i) {
            if (name in seen || !(name in uses)) return
            seen[name]
            n = split(uses[name], list, " ")
            for (i = 1; i <= n; i++) visit(list[i])
        }
        { sub(/#.*/, ""); at = index($0, ":") }
        at { split($0, word, /[ \t:]+/); name = word[word[1] == "" ? 2 : 1]; uses[name] = substr($0, at + 1); order[++count] = name }
        END {
            n = split(wanted, list, " ")
            for (i = 1; i <= n; i++) visit(list[i])
            for (i = 1; i <= count; i++) if (order[i] in seen) print order[i] ":" uses[order[i]]
        }' "$root/crates.txt"
}

# The sum of what the named crates, and all that they reach, are made of.
sum_of() {
    local lines line part folders=()
    lines=$(reached "$@")
    while IFS= read -r line; do
        for part in src specs proofs; do
            [ ! -d "$root/crates/${line%%:*}/$part" ] || folders+=("${line%%:*}/$part")
        done
    done <<<"$lines"
    {
        printf '%s\n' "$lines"
        cd -- "$root/crates" && find "${folders[@]}" -type f -print0 | LC_ALL=C sort -z | xargs -0 sha256sum
    } | sha256sum | cut -d ' ' -f 1
}

# Whether FILE was built of sources with this sum and, where a kit is at hand, by this kit. FILE.sources says of what it was built.
current() { # FILE SUM
    local sum='' built_by='' here
    [ -f "$1" ] && [ -f "$1.sources" ] || return 1
    { IFS= read -r sum && IFS= read -r built_by; } <"$1.sources" || true
    here=$(kit)
    [ "$sum" = "$2" ] && { [ -z "$here" ] || [ "$here" = "$built_by" ]; }
}

# Says of what FILE was built.
built_of() { # FILE SUM
    printf '%s\n' "$2" "$(kit)" >"$1.sources"
}

# Reads what rt says and shows each crate as its proof begins: n of at most m, the seconds so far. rt says nothing of a crate that was proved before.
progress() { # OF LOG
    local line begun=0
    while IFS= read -r line; do
        printf '%s\n' "$line" >>"$2"
        [[ $line =~ ^rt:\ chose\ --jobs\ [0-9]+\ for\ ([A-Za-z0-9_]+)$ ]] || continue
        begun=$((begun + 1))
        printf '%s: proving %s, %d of at most %d, %d s so far\n' "$me" "${BASH_REMATCH[1]}" "$begun" "$1" "$SECONDS" >&2
    done
}

# Builds the static library of the crate NAME over the libraries that rt ci has just proved and left in crates/*/out, by the words that rt gives to rattle. (`rt lib`
# proves each of those again first, since no stamp stands beside what rt ci leaves. Where one does, rt check has worked in the checkout, and rt lib has little to do.)
build_over_ci() { # NAME
    local kit name used=no uses words=()
    kit=$(dirname -- "$(rt doc)")
    while IFS=: read -r name uses; do
        [ "$name" = "$1" ] && used=$uses && continue
        { [ -d "$root/crates/$name/out/rlib/$name.rlib" ] && [ ! -e "$root/crates/$name/out/rlib/stamp" ]; } || return
        words+=(-L "dependency=$root/crates/$name/out/rlib")
    done < <(reached "$1")
    [ "$used" != no ] || return
    for name in std $used; do
        if [ -d "$root/crates/$name" ]; then words+=(--extern "$name=$root/crates/$name/out/rlib/$name.rlib"); else words+=(--extern "$name=$kit/rlibs/$name.rlib"); fi
    done
    mkdir -p "$root/crates/$1/out"
    cd -- "$root/crates/$1" && "$kit/bin/rattle" build --crate-name "$1" src/lib.rt "${words[@]}" -L "dependency=$kit/rlibs" --antt-project "$kit/rattle/logic/antt-project.json" \
        --logic-built "$kit/logic_built" --jobs 1 --links "$1=" --crate-type staticlib --cpu x86-64 --toolchain "$kit/toolchain" --backend llvm -o "out/lib$1.a"
}
