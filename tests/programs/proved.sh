# The proved programs. Sourced by tests/programs/run.
wrapper=$top/emulate
cases=28
is_built() (. tools/programs.sh && look && all_made)
if [ "${1:-}" = --build ] && ! "$wrapper" --version; then
    wrong "the programs cannot be built"
elif ! is_built 2>/dev/null; then
    echo "programs: $cases cases of the proved programs are left out, since these are not built; tests/programs/run --build has them"
else
    before=$((passed + failed))

    # ---- finished, passed, refused: what is printed is what the examples say, and no more
    call examples/register.job && ended "finished" 0 "$(cat examples/register.out)"
    call <examples/mvmul.job && ended "finished, from standard input" 0 "$(cat examples/mvmul.out)"
    call examples/refused_8.job && ended "refused" 1 "$(cat examples/refused_8.out)"
    call --validate examples/register.job && ended "passed" 0 "passed 1"
    call --validate <examples/refused_8.job && ended "not passed" 1 "$(cat examples/refused_8.out)"
    call examples/refused_3.job && ended "refused, with a bit" 1 "$(cat examples/refused_3.out)"
    call --validate examples/refused_3.job && ended "not passed, with a bit" 1 "$(cat examples/refused_3.out)"
    call </dev/null && ended "an empty job" 1 "refused 1 at 0"
    call < <(head -c 100 examples/register.job && sleep 0.2 && tail -c +101 examples/register.job) && ended "a job in pieces" 0 "$(cat examples/register.out)"
    call < <(head -c 9000 /dev/zero) && ended "a job that is too long" 1 "refused 1 at 0"

    # ---- a read that fails is not the end of the input
    for option in "" --validate; do
        # shellcheck disable=SC2086
        call $option <examples && ended "a directory as standard input $option" 3 "" "cannot be read"
        # shellcheck disable=SC2086
        call $option </proc/self/mem && ended "a device that cannot be read $option" 3 "" "cannot be read"
    done

    # ---- a write that fails
    call_full examples/register.job && ended "a full device" 3 "" "cannot be written"
    call_full examples/refused_8.job && ended "a full device, refused" 3 "" "cannot be written"
    call_full --validate examples/register.job && ended "a full device, passed" 3 "" "cannot be written"
    call_unread examples/register.job && ended "a pipe that nobody reads" 3 "" "cannot be written"
    call_unread --validate examples/register.job && ended "a pipe that nobody reads, passed" 3 "" "cannot be written"
    # a file that may not grow: the first lines fit, the rest does not, and nothing is written after that
    (
        trap '' XFSZ
        ulimit -f 1
        "$wrapper" examples/tile_fp32.job >"$room/cut" 2>"$room/err"
        echo $? >"$room/status"
    )
    : >"$room/out"
    status=$(cat "$room/status") && ended "a file that may not grow" 3 "" "cannot be written"
    holds "what was written before is the start of the output" cmp "$room/cut" <(head -c 1024 examples/tile_fp32.out)

    # ---- a program that is killed, here while it waits for its job, has given no answer
    mkfifo "$room/slow"
    exec 6<>"$room/slow"
    "$wrapper" <&6 >"$room/out" 2>"$room/err" &
    waiting=$!
    for _ in {1..200}; do
        read -r child _ <"/proc/$waiting/task/$waiting/children"
        [ "$(readlink "/proc/$child/exe")" != "$top/target/bin/emulate" ] || break
        sleep 0.05
    done
    kill -9 "$child"
    status=0
    wait "$waiting" || status=$?
    exec 6>&-
    ended "a killed program" 3 "" "status 137"

    # ---- one source gives one program: made a second time, both are the same
    call --version
    cp "$room/out" "$room/version"
    rm target/bin/emulate target/bin/validate
    call --version
    holds "made twice, the programs are the same" cmp "$room/version" "$room/out"
    holds "the second time they were made, not kept" [ "$(grep -c '^logic=proved' target/emulate.log)" -ge 2 ]

    # ---- the program alone, as the toolchain runs it: nothing on descriptor 3, and the same output
    wrapper=$top/target/bin/emulate
    call <examples/register.job 3>&- && ended "the program alone" 0 "$(cat examples/register.out)"
    call <examples/refused_8.job 3>&- && ended "the program alone, refused" 0 "$(cat examples/refused_8.out)"
    holds "it says its status" [ "$("$wrapper" <examples/refused_8.job 3>&1 >/dev/null)" = 1 ]
    holds "it says no good status without its output" [ "$("$wrapper" <examples/register.job 3>&1 >/dev/full 2>/dev/null)" = 3 ]

    [ $((passed + failed - before)) = "$cases" ] || wrong "there are $((passed + failed - before)) cases of the proved programs, not $cases: mend the number"
fi
