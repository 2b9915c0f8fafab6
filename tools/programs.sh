# What the callers of the programs share: proving and building them, telling whether a built one is what the sources give,
# and running one. POSIX sh, with sha256sum and flock. The caller sets `top`, the repository's folder.
: "${top:?}"

programs='emulate validate'
# Proved beside them: the theorem about every job that passes, which no program contains.
claims=demand
bin=$top/target/bin
unset CDPATH
LC_ALL=C
export LC_ALL

# A message that cannot be written changes no status.
say() { printf 'emulate: %s\n' "$*" >&2 || :; }
leave() {
    trap - EXIT
    exit "$1"
}
fail() {
    say "$*"
    leave 3
}

# A closed descriptor would be given to the next file that is opened.
check_descriptors() { # [FILE]
    (: 4>&2) || exec 2>/dev/null
    (: 4>&1) 2>/dev/null || fail "standard output is closed"
    if ! (: 4<&0) 2>/dev/null; then
        [ $# -gt 0 ] || fail "standard input is closed"
        exec </dev/null
    fi
    [ $# -eq 0 ] || { [ -r "$1" ] && [ ! -d "$1" ]; } || fail "cannot read $1"
}

# ---- whether a program is what the sources give

# Content decides, not times: the sum of all that is proved and compiled, and the toolchain's identity. What rt makes, in the folder out of a
# crate, is left out, and a function's proofs in a folder of that name are not.
look() {
    sums=$(cd "$top" && find crates crates.txt -name must-fail -prune -o -path 'crates/*/out' ! -path 'crates/*/*/out' -prune -o ! -type d -exec sha256sum {} +) ||
        fail "cannot read the sources"
    sources=$(printf '%s\n' "$sums" | sort -k 2 | sha256sum | cut -c 1-64)
    toolchain=$(rt version </dev/null) || fail "the toolchain, rt, is not there"
}

# What the stamp beside a program says of it.
stamp_of() { # PROGRAM
    printf '%s\n' "sources $sources" "toolchain $toolchain" "program $(sha256sum <"$bin/$1" | cut -c 1-64)"
}

all_made() {
    for p in $programs; do
        [ -x "$bin/$p" ] && [ -f "$bin/$p.stamp" ] && [ "$(cat "$bin/$p.stamp")" = "$(stamp_of "$p")" ] || return 1
    done
}

# ---- proving and building

# The named crates and those below them, in the order of crates.txt, which has the lowest first.
crates_of() { # CRATE..
    awk -v want="$*" '
        { sub(/#.*/, ""); sub(/^[ \t]+/, "") }
        $0 != "" {
            split($0, part, ":")
            split(part[1], word, /[ \t]+/)
            gsub(/,/, " ", part[2])
            order[++lines] = word[1]
            deps[word[1]] = part[2]
        }
        END {
            n = split(want, todo, " ")
            while (n > 0) {
                c = todo[n--]
                if (!(c in deps) || seen[c]++) continue
                m = split(deps[c], more, " ")
                for (i = 1; i <= m; i++) todo[++n] = more[i]
            }
            for (i = 1; i <= lines; i++) if (order[i] in seen) print order[i]
        }' "$top/crates.txt"
}

# Proves a crate over those below it, and builds it: a library for the crates above, a program as crates/NAME/out/NAME. rt proves again only what no check
# of the same texts has kept. A program it builds anew where the back end is named, whatever stands in its file, and then runs it, here on an empty job.
prove() { # CRATE
    unset RT_BACKEND RT_ALLOW_C
    cd "$top/crates/$1" || return
    case " $programs " in
    *" $1 "*) rt run --backend llvm </dev/null 2>&1 >/dev/null 3>&- ;;
    *) rt lib </dev/null 2>&1 ;;
    esac
}

show_progress() { # HOW MANY, OF HOW MANY, CRATE
    if [ -t 2 ]; then
        printf '\remulate: %s of %s crates proved: %s\033[K' "$@" >&2 || :
    else
        say "$1 of $2 crates proved: $3"
    fi
}
end_progress() { if [ -t 2 ]; then printf '\n' >&2 || :; fi; }

# The lock is a descriptor: it is free as soon as the call that took it and the prover that it started have ended, however
# they ended.
make_ready() {
    look
    ! all_made || return 0
    exec 9>"$top/.emulate.lock"
    if ! flock -n 9; then
        say "waiting for another call, which proves and builds the programs"
        flock 9
        look
    fi
    all_made || make_programs
    exec 9>&-
}

make_programs() {
    before="$sources $toolchain" log=$top/target/emulate.log proved=0
    for p in $programs; do rm -f "$bin/$p" "$bin/$p.stamp"; done
    mkdir -p "$bin"
    : >"$log"
    # shellcheck disable=SC2086
    crates=$(crates_of $programs $claims)
    count=$(printf '%s\n' "$crates" | wc -l)
    say "proving $count crates and building the programs; the first time takes some minutes"
    for c in $crates; do
        if ! (prove "$c") >>"$log"; then
            end_progress
            say "not proved or not built: $c; the end of target/emulate.log:"
            tail -n 5 "$log" >&2 || :
            leave 3
        fi
        proved=$((proved + 1))
        show_progress "$proved" "$count" "$c"
    done
    end_progress
    for p in $programs; do
        { cp "$top/crates/$p/out/$p" "$bin/$p.new" && mv "$bin/$p.new" "$bin/$p"; } || fail "the programs cannot be built"
    done
    look
    [ "$before" = "$sources $toolchain" ] || fail "the sources changed while they were being proved"
    for p in $programs; do
        stamp_of "$p" >"$bin/$p.stamp.new"
        mv "$bin/$p.stamp.new" "$bin/$p.stamp"
    done
    all_made || fail "the programs cannot be built"
    say "proved and built"
}

# ---- running

# A program says its exit status on descriptor 3, as the last thing that it does, and 0 or 1 only where it has written all.
# One that says nothing, or was killed, has given no answer. A pipe that nobody reads is an error to it, not its end.
run() { # PROGRAM [FILE]
    path=$bin/$1 status=0
    if [ $# -gt 1 ]; then
        { said=$(trap '' PIPE && exec "$path" <"$2" 3>&1 >&4 4>&-); } 4>&1 || status=$?
    else
        { said=$(trap '' PIPE && exec "$path" 3>&1 >&4 4>&-); } 4>&1 || status=$?
    fi
    case $status:$said in
    0:[013]) leave "$said" ;;
    *) fail "the program ended (status $status) and did not say how: what it printed does not count" ;;
    esac
}

print_version() {
    # a folder without .git may stand in somebody else's repository
    commit='no commit'
    if [ -e "$top/.git" ] && head=$(git -C "$top" rev-parse HEAD 2>/dev/null); then
        commit=$head
        if ! changes=$(git -C "$top" status --porcelain 2>/dev/null); then
            commit="$head, perhaps with changes: git cannot tell"
        elif [ -n "$changes" ]; then
            commit="$head, with changes"
        fi
    fi
    printf '%s\n' "vintrazzola $commit" "sources $sources" "toolchain $toolchain" \
        "wrapper $(cat "$top/emulate" "$top/tools/programs.sh" | sha256sum | cut -c 1-64)" || fail "the output cannot be written"
    for p in $programs; do
        printf '%s\n' "program $p $(sed -n 's/^program //p' "$bin/$p.stamp")" || fail "the output cannot be written"
    done
}
