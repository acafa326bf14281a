#!/usr/bin/env bash
# The gate: every proof from nothing, the edits of must-fail that the prover has to refuse, every test, each program as two compilers
# build it (rt ci), then each request for memory or a thread refused under the tests that rt ci built, the schedules of small scenes, the script
# that counts over many machines, the wrong changes that the tests of scripts have to see, and the library for C with its clients and their wrong
# bodies. What else there is begins where rt ci leaves a processor idle: the wrong bodies that a test has to catch; the others that the prover has
# to refuse, many in a check, of each crate that is proved by then; the static types that a script writes, the scripts by which users begin, the
# one that reviews wrong bodies, the pictures, and what is said of wrong bodies. The last lines tell what each part took, and sum up.
#
# `./test.sh quick [CRATE ..]` isn't the gate: it proves what changed over kept work, and runs the tests that see it (gate/quick.py).
set -uo pipefail
cd "$(dirname "$0")" || exit 1
if [[ ${1:-} == quick ]]; then
    shift
    exec gate/quick.py "$@"
fi

# Ends a process, and what it started.
end() {
    local child children
    children=$(cat "/proc/$1/task/"*/children 2> /dev/null)
    kill "$1" 2> /dev/null
    for child in $children; do
        end "$child"
    done
}

said=$(mktemp -d)
trap 'for part in $(jobs -p); do end "$part"; done; rm -rf "$said"' EXIT
passed=0
failed=0
skipped=0 # rows whose tools aren't there
summed=0 # parts whose results were added, all the way
spent=0 # seconds of processors, over all parts

# What a line says that tells of something that failed.
wrong='WRONG|FAILED|BAD EDIT|NOT (PROVED|REFUSED|TRIED|CHECKED)'

# What a line says that tells of a row that was left out.
left_out='^[a-z]+ .*: (SKIPPED|skipped: )'

# Runs a part of the gate under a name, which keeps what it says, its status, its time, and the time that processors spent on it: in a shell
# of its own, since a shell counts for whatever it runs the time of each part beside it that ends meanwhile.
run() (
    name=$1 begun=$SECONDS TIMEFORMAT='%0U %0S'
    shift
    trap - EXIT
    echo "== $*"
    {
        time { "$@" 2>&1 | tee "$said/$name" >&3; echo "${PIPESTATUS[0]}" > "$said/$name.status"; }
    } 3>&1 2> "$said/$name.processors"
    echo $((SECONDS - begun)) > "$said/$name.seconds"
)

# Adds the numbers of a part's closing line 'N passed, M failed', and says them once more with its times, what was left out and what failed.
# A part without that line has failed, and so has one that was never begun.
add() {
    local line user system
    touch "$said/$1" "$said/$1.seconds" "$said/$1.status" "$said/$1.processors"
    skipped=$((skipped + $(grep -cE "$left_out" "$said/$1")))
    line=$(grep -E '^[0-9]+ passed, [0-9]+ failed$' "$said/$1" | tail -n 1)
    # Ahead of the times the shell tells of a part that was killed.
    read -r user system < <(tail -n 1 "$said/$1.processors")
    [[ $user$system =~ ^[0-9]+$ ]] || user=0 system=0
    spent=$((spent + user + system))
    echo "part $1: ${line:-no closing line}, $(< "$said/$1.seconds") s, $((user + system)) s of processors"
    grep -E "$left_out" "$said/$1"
    grep -E "$wrong" "$said/$1" | tail -n 20
    if [[ $line =~ ^([0-9]+)\ passed,\ ([0-9]+)\ failed$ ]]; then
        passed=$((passed + BASH_REMATCH[1]))
        failed=$((failed + BASH_REMATCH[2]))
        if [[ $(< "$said/$1.status") != 0 && ${BASH_REMATCH[2]} -eq 0 ]]; then
            failed=$((failed + 1))
        fi
    else
        failed=$((failed + 1))
    fi
    summed=$((summed + 1))
}

export RT_JOBS=${RT_JOBS:-$(gate/machine/lanes.py)}
run ci rt ci &
ci=$!
run caught gate/bodies/caught.py --tested --beside "$ci" > "$said/bodies" &
bodies=$!
# Behind all else, which others wait for, or which has limits of time.
run prover nice -n 19 gate/bodies/refused_bodies.py --proved --beside "$ci" --said "$said/ci" --jobs "${RT_JOBS:-2}" > "$said/edits" &
edits=$!
# What reads nothing that rt ci makes begins where that leaves a processor idle, too.
while read -r -u 5 name script; do
    gate/machine/idle.py "$ci"
    run "$name" "gate/$script"
done > "$said/scripts" 5<< 'END' &
users users/users_test.py
review bodies/review_test.py
batches bodies/refused_bodies_test.py
static users/static_type_test.py
small small_test.py
verdicts bodies/caught_test.py
END
scripts=$!
wait "$ci"
run schedules gate/schedules/schedules.py --gate --jobs 2 > "$said/scenes" &
scenes=$!
run refused gate/refusals/refused.py
run pages gate/pages/pages.py
run many gate/users/count_many_test.py
run wrong_tools gate/users/users_caught.py
run clients gate/clients/clients.py
run wrong_clients gate/clients/clients_caught.py --archive crates/string_cache_c/out/libstring_cache_c.a
wait "$scripts"
cat "$said/scripts"
wait "$bodies"
cat "$said/bodies"
wait "$scenes"
cat "$said/scenes"
wait "$edits"
cat "$said/edits"

echo "== by parts, on $(nproc) processors, some of them beside each other"
parts=(ci prover refused static pages many wrong_tools users small review verdicts batches clients wrong_clients caught schedules)
for part in "${parts[@]}"; do
    add "$part"
done
failed=$((failed + ${#parts[@]} - summed))
# `rt ci` only says so.
if grep -q '^rt: note: bad must-fail edits' "$said/ci"; then
    failed=$((failed + 1))
fi
# It counts these, and compares them with nothing.
if ! gate/machine/waiting.py "$said/ci"; then
    failed=$((failed + 1))
fi
echo "$spent s of processors in all, $SECONDS s by the clock"
echo "$passed passed, $failed failed, $skipped skipped"
[[ $failed -eq 0 ]]
