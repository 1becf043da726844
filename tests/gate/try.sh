#!/usr/bin/env bash
# Tries the gate in a scratch repository with a fake rt and a fake cargo: each way in which a run can go
# wrong must end in one closing line that says so, and in exit status 1.
set -u
here=$(cd "$(dirname "$0")" && pwd)
gate=$here/../../.ci/run
scratch=$(mktemp -d) || exit 1
trap 'rm -rf "$scratch"' EXIT
export PATH=$scratch/bin:$PATH
wrong=0

# What the fake command does when its first word is WORD.
fake() { printf '%s\n' "$3" >"$scratch/bin/$1.$2"; } # COMMAND WORD BODY

# cargo test runs one test program and ends with STATUS.
tests() { # STATUS ANNOUNCED PASSED FAILED IGNORED MEASURED FILTERED
    fake cargo test "printf 'running $2 tests\ntest result: ok. $3 passed; $4 failed; $5 ignored; $6 measured; $7 filtered out\n'; exit $1"
}

# rt ci proves one crate and has the edits refused, each with what it says of why; the line 'rt: ok' has this of the edits.
proves() { # EDITS TOLD-OF-THE-FIRST
    fake rt ci "echo 'rt: must-fail one/wrong.edit: $2'
        echo 'rt: must-fail one/worse.edit: refused, as it must be: note: src/lib.rt:3:5: not proved; the facts known there allow values'
        echo 'rt: ok; handles allowed: none; must-fail edits: $1; every proof and must-fail edit was done in this run'
        echo '3 passed, 0 failed'"
}
# What it says of the edit `wrong`.
told() { proves '2 refused' "$1"; }

# A repository on which every step ends well, with 3 proved (2 of them edits) and 4 Rust tests, and a step that prints closing lines.
fresh() {
    rm -rf "${scratch:?}"/*
    mkdir -p "$scratch/bin" "$scratch/repo/.ci" && cd "$scratch/repo" && cp "$gate" .ci/run || exit 1
    mkdir -p crates/one/must-fail crates/one/out tests/gate tools target
    touch crates/one/lib.rt crates/one/out/made.rt target/made.rt tests/gate/try.sh
    printf '# least\nedits 2\ntests 4\n' >.ci/least
    echo 'file: src/lib.rt' | tee crates/one/must-fail/wrong.edit >crates/one/must-fail/worse.edit
    printf '# crates\none staticlib: io # a comment\n' >crates.txt
    # shellcheck disable=SC2016
    printf '#!/usr/bin/env bash\n! [ -f "$0.$1" ] || . "$0.$1"\n' | tee "$scratch/bin/rt" >"$scratch/bin/cargo"
    chmod +x "$scratch/bin/rt" "$scratch/bin/cargo"
    echo "printf '9 passed, 0 failed\n8\r7 passed, 0 failed\n'; echo 6 passed, 0 failed >&2" >tools/build
    # shellcheck disable=SC2016
    told 'refused, as it must be: ./proofs/one/Answers.antt:3:5: error: `returns`: the two types first differ where one has 1'
    tests 0 4 4 0 0 0 0
}

# Holds how a run ended against the closing line that it must have.
hold() { # STATUS LAST WHAT
    local want=1
    [[ $2 != *', 0 failed' ]] || want=0
    [ "$1" -ne "$want" ] || [ "$(tail -n 1 "$scratch/log")" != "$2" ] ||
        [ "$(tr '\r' '\n' <"$scratch/log" | grep -cE '^[0-9]+ passed, [0-9]+ failed')" -ne 1 ] || return 0
    printf "WRONG: %s: exit status %s; the one closing line must be '%s' and come last:\n" "$3" "$1" "$2"
    cat "$scratch/log"
    wrong=$((wrong + 1))
}

# trials.txt has on each line the closing line, what is tried, and how the fresh repository is changed for it.
while IFS='|' read -r last what change; do
    fresh
    eval "$change"
    (cd / && "$scratch/repo/.ci/run") >"$scratch/log" 2>&1
    hold $? "$last" "$what"
done <"$here/trials.txt"

# Waits until a command holds, for 5 seconds at most.
until_holds() { # COMMAND...
    for _ in {1..250}; do
        "$@" && return
        sleep 0.02
    done
    return 1
}
# No such process is there, or only one that nobody has asked for its status yet.
step_gone() { ! grep -q '^State:.[^Z]' "/proc/$(cat "$scratch/step")/status" 2>/dev/null; }

# A signal ends the run and the step that was running, also one that does not heed it.
for signal in TERM HUP; do
    fresh
    fake rt ci "trap '' HUP TERM; echo \$\$ >'$scratch/step'; sleep 60; sleep 60"
    env --default-signal=HUP,TERM .ci/run >"$scratch/log" 2>&1 & # under nohup, HUP would be ignored and could not be trapped
    until_holds [ -s "$scratch/step" ] && kill "-$signal" $!
    wait $!
    hold $? '0 passed, 1 failed' "signal $signal"
    until_holds step_gone || hold 0 'no closing line' "signal $signal, the step goes on"
done
[ "$wrong" -eq 0 ] && echo 'the gate ends as it must in every trial'
