# Steps of a test in the shell, counted: for tests/linked/run and tests/release/run, which say `. tests/steps.sh` after
# they have set `room`, a folder. Sets `passed` and `failed`.
# shellcheck shell=bash disable=SC2154
passed=0 failed=0

fails() {
    failed=$((failed + 1))
    echo "failed: $1"
    head -n 60 "$room/told"
}

# A step is a name and a command, and counts as one.
step() {
    local name=$1
    shift
    if "$@" > "$room/told" 2>&1; then passed=$((passed + 1)); else fails "$name"; fi
}

# A step whose lines `.. N passed, .. M failed ..` count; there has to be one.
counted() {
    local name=$1 well=0 counts
    shift
    "$@" > "$room/told" 2>&1 || well=1
    counts=$(sed -nE 's/.*\b([0-9]+) passed[,;] ([0-9]+) failed.*/\1 \2/p' "$room/told" |
        awk '{passed += $1; failed += $2} END {print passed + 0, failed + 0}')
    passed=$((passed + ${counts% *})) failed=$((failed + ${counts#* }))
    if [ "$well" != 0 ] || [ "${counts% *}" = 0 ]; then fails "$name"; fi
}

# Whether all of these programs are installed.
has() {
    local program
    for program in "$@"; do command -v "$program" > /dev/null || return 1; done
}
