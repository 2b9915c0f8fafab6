# `emulate` over stand-ins. Sourced by tests/programs/run.
base=$room/base
wrapper=$base/emulate
mkdir -p "$base/tools" "$room/kit"
for crate in low demand emulate validate other; do mkdir -p "$base/crates/$crate/src"; done
cp emulate "$base"
cp tools/programs.sh "$base/tools"
printf 'low:\ndemand: low\nemulate: low\nvalidate: low\nother staticlib:\n' >"$base/crates.txt"
echo one >"$base/crates/low/src/lib.rt"
echo main >"$base/crates/emulate/src/main.rt"
echo 'kit-1 logic 0123' >"$room/kit/id"
: >"$room/kit/calls"

# The stand-in for rt keeps its calls in a file, a crate and a command a line, does first what the file `first` says, and builds programs that take
# their job for shell commands: a job says itself how its run ends, and an empty one is refused. As rt it works in a crate's folder, keeps a program in
# its folder out where no back end is named, and runs what it built.
cat >"$room/kit/rt" <<'RT'
#!/bin/sh
kit=$(dirname "$0")
# the caller's input is not rt's: read here, it would be missing where a job is read
cat >/dev/null
if [ "$1" = version ]; then
    cat "$kit/id"
    exit
fi
crate=$(basename "$PWD")
echo "$crate $*" >>"$kit/calls"
cd ../.. || exit
[ -z "${RT_BACKEND:-}" ] || exit 1
[ ! -f "$kit/first" ] || . "$kit/first"
mkdir -p "crates/$crate/out"
if [ "$1" = run ]; then
    program=crates/$crate/out/$crate
    if [ ! -f "$program" ] || [ "$2" = --backend ]; then
        printf '%s\n' '#!/bin/sh' "program=$crate" 'job=$(cat)' \
            'if [ -n "$job" ]; then eval "$job"; else echo refused 1 at 0; { echo 1 >&3; } 2>/dev/null || :; fi' >"$program"
        chmod +x "$program"
    fi
    echo "rt: running $program" >&2
    "$program"
else
    echo made >"crates/$crate/out/lib"
fi
RT
chmod +x "$room/kit/rt"
kit_path=$room/kit:$PATH
call_kit() { PATH=$kit_path call "$@"; }
# each build calls it once in this crate, the lowest
builds() { grep -c '^low ' "$room/kit/calls"; }

# ---- wrong calls, before anything is built
call_kit one two </dev/null && ended "two files" 2 "" usage
call_kit --unknown </dev/null && ended "an unknown option" 2 "" usage
call_kit --validate --unknown </dev/null && ended "an unknown option after --validate" 2 "" usage
call_kit --version more </dev/null && ended "--version with a word" 2 "" usage
call_kit "$room/missing" && ended "a missing file" 3 "" "cannot read"
call_kit "$room" && ended "a directory" 3 "" "cannot read"
# root reads every file, so that it has to be somebody else who cannot
echo 'echo 0 >&3' >"$room/unreadable"
chmod 0 "$room/unreadable"
chmod 755 "$room"
if [ "$(id -u)" != 0 ]; then
    call_kit "$room/unreadable" && ended "an unreadable file" 3 "" "cannot read"
else
    status=0
    PATH=$kit_path setpriv --reuid=65534 --regid=65534 --clear-groups "$wrapper" "$room/unreadable" >"$room/out" 2>"$room/err" || status=$?
    ended "an unreadable file" 3 "" "cannot read"
fi
holds "nothing is built for a wrong call" [ ! -s "$room/kit/calls" ]

# ---- the first call
echo 'exit 1' >"$room/kit/first"
call_kit <<<'echo finished 1; echo 0 >&3' && ended "a build that fails" 3 "" "not proved or not built"
for crate in demand validate; do
    echo "[ \$crate != $crate ] || exit 1" >"$room/kit/first"
    call_kit <<<'echo finished 1; echo 0 >&3' && ended "$crate alone fails" 3 "" "not proved or not built: $crate"
done
echo '[ $crate != validate ] || exit 0' >"$room/kit/first"
call_kit <<<'echo finished 1; echo 0 >&3' && ended "a program that is not there after its build" 3 "" "cannot be built"
echo 'echo two >crates/low/src/lib.rt' >"$room/kit/first"
call_kit <<<'echo finished 1; echo 0 >&3' && ended "sources that change while they are proved" 3 "" changed
rm "$room/kit/first"
: >"$room/kit/calls"
call_kit <<<'echo finished 1; echo 0 >&3' && ended "finished" 0 "finished 1" "4 of 4 crates proved: validate"
holds "the first call proves the claims too" grep -q '^demand ' "$room/kit/calls"
holds "and what the programs are not made of it leaves alone" [ "$(grep -c '^other ' "$room/kit/calls")" = 0 ]

# ---- how a program ends
call_kit <<<'echo refused 8 at 180; echo 1 >&3' && ended "refused" 1 "refused 8 at 180"
call_kit --validate <<<'[ $program = validate ] && echo passed 1; echo 0 >&3' && ended "passed" 0 "passed 1"
echo 'echo from a file; echo 0 >&3' >"$room/a job"
call_kit "$room/a job" </dev/null && ended "a job in a file" 0 "from a file"
call_kit <<<'echo cut; echo 3 >&3' && ended "a program that could not write" 3 cut
call_kit <<<'echo finished 1' && ended "a program that says nothing" 3 "finished 1" "did not say how"
call_kit <<<'echo finished 1; echo 0 >&3; kill -9 $$' && ended "a killed program" 3 "finished 1" "status 137"
call_kit <<<'kill -PIPE $$; echo finished 1; echo 0 >&3' && ended "a broken pipe does not end a program" 0 "finished 1"
call_kit <<<'echo 0 >&3; exit 1' && ended "a program that fails after all" 3 "" "did not say how"
call_kit <<<'echo 0 >&3; echo 1 >&3' && ended "two answers" 3 "" "did not say how"
call_kit <<<'echo 00 >&3' && ended "another answer" 3 "" "did not say how"
call_kit <<<'echo 2 >&3' && ended "a status that is no program's" 3 "" "did not say how"
PATH=$kit_path call_unread <<<'echo finished 1 || exit; echo 0 >&3' && ended "a program that gives up on a closed pipe" 3 ""
status=0
PATH=$kit_path "$wrapper" <<<'echo 0 >&3' >&- 2>"$room/err" || status=$?
ended "standard output is closed" 3 "" closed
call_kit <&- && ended "standard input is closed" 3 "" closed
status=0
PATH=$kit_path "$wrapper" --unknown >"$room/out" 2>/dev/full || status=$?
ended "a wrong call that cannot be said" 2 ""
mkfifo "$room/errors"
exec 7<>"$room/errors" 8>"$room/errors" 7>&-
status=0
PATH=$kit_path "$wrapper" --unknown >"$room/out" 2>&8 8>&- || status=$?
exec 8>&-
: >"$room/err"
ended "a wrong call that nobody reads of" 2 ""
holds "later calls build nothing" [ "$(builds)" = 1 ]

# ---- what is made anew
works() { # NAME HOW MANY BUILDS MORE
    before=$(builds)
    call_kit <<<'echo finished 1; echo 0 >&3'
    ended "$1" 0 "finished 1"
    holds "$1: built $(($(builds) - before)) times, not $2" [ "$(builds)" = $((before + $2)) ]
}
touch "$base/crates/low/src/lib.rt"
works "another time, the same content" 0
touch -r "$base/crates/low/src/lib.rt" "$room/time"
echo six >"$base/crates/low/src/lib.rt"
touch -r "$room/time" "$base/crates/low/src/lib.rt"
works "the same time, another content" 1
echo 'other: low' >>"$base/crates.txt"
works "another list of crates" 1
echo 'kit-2 logic 0123' >"$room/kit/id"
works "another toolchain" 1
printf '#!/bin/sh\necho finished 99\necho 0 >&3\n' >"$base/target/bin/emulate"
works "a program that somebody put there" 1
rm "$base/target/bin/validate"
works "a program that is gone" 1
rm "$base/target/bin/emulate.stamp"
works "a program without a stamp" 1
rm -rf "$base/target"
works "nothing is there" 1
printf '#!/bin/sh\necho finished 99\necho 0 >&3\n' >"$base/crates/emulate/out/emulate"
works "what stands in a crate's folder out" 0
rm "$base/target/bin/emulate.stamp"
works "a program that somebody put where rt keeps it" 1
mkdir -p "$base/crates/low/proofs/out"
echo 'a proof' >"$base/crates/low/proofs/out/Answers.antt"
works "the proofs of a function with the name out" 1
rm "$base/target/bin/validate"
export RT_BACKEND=rattle
works "another back end by the environment" 1
unset RT_BACKEND
rm "$base/target/bin/validate"
call_kit 3>"$room/three" <<<'echo finished 1; echo 0 >&3' && ended "the caller's descriptor 3" 0 "finished 1"
holds "nothing is written on the caller's descriptor 3" [ ! -s "$room/three" ]
: >"$base/.emulate.lock"
works "a lock that nobody holds" 0

# ---- several first calls
rm -rf "$base/target"
echo '[ $crate != low ] || sleep 1' >"$room/kit/first"
before=$(builds)
for n in 1 2 3; do
    (PATH=$kit_path "$wrapper" <<<'echo finished 1; echo 0 >&3' >"$room/out.$n" 2>&1; echo "status $?" >>"$room/out.$n") &
done
wait
for n in 1 2 3; do holds "first call $n of three at once" grep -qx 'status 0' "$room/out.$n"; done
holds "three first calls build once" [ "$(builds)" = $((before + 1)) ]
rm -rf "$base/target"
before=$(builds)
PATH=$kit_path "$wrapper" <<<'echo 0 >&3' >/dev/null 2>&1 &
killed=$!
for _ in {1..100}; do
    [ "$(builds)" = "$before" ] || break
    sleep 0.1
done
{ kill -9 "$killed" && wait "$killed"; } 2>/dev/null
works "a first call after one that was killed" 1
rm "$room/kit/first"

# ---- which bench
call_kit --version
holds "--version says sources, toolchain, wrapper and both programs" awk '
    NR == 1 && $1 == "vintrazzola" || NR == 2 && $1 == "sources" && length($2) == 64 ||
    NR == 3 && $0 == "toolchain kit-2 logic 0123" || NR == 4 && $1 == "wrapper" && length($2) == 64 ||
    NR > 4 && $1 == "program" && length($3) == 64 { n++ }
    END { exit n == 6 && NR == 6 ? 0 : 1 }' "$room/out"
PATH=$kit_path call_full --version && ended "--version on a full device" 3 ""
mkdir "$room/bare"
for tool in sh sha256sum flock find sort cut cat sed dirname readlink git; do ln -s "$(command -v "$tool")" "$room/bare/$tool"; done
PATH=$room/bare call <<<'echo 0 >&3' && ended "no toolchain" 3 "" "rt, is not there"
mv "$base/tools/programs.sh" "$room"
call_kit <<<'echo 0 >&3' && ended "what nobody foresaw" 3 ""
