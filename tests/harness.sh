# What the end-to-end tests share: running the program that $program names, and comparing its output, its
# text on standard error and its status. Each failed case prints a line.
# shellcheck shell=sh disable=SC2154

# whole_path FILE: prints its absolute path.
whole_path() {
    case $1 in
        /*) echo "$1" ;;
        *) echo "$PWD/$1" ;;
    esac
}

passed=0
failed=0

# start: changes to a new folder, which is removed at the end.
start() {
    work=$(mktemp -d) || exit 1
    trap 'rm -rf "$work"' EXIT
    trap 'exit 1' HUP INT TERM
    cd "$work" || exit 1
}

# run WORD..: runs the program with these arguments, and keeps its output, its text on standard error and its status.
run() {
    timeout 120 "$program" "$@" > out 2> err
    status=$?
}

# feed TEXT WORD..: the same with TEXT, a printf format, as standard input through a pipe.
feed() {
    input=$1
    shift
    # shellcheck disable=SC2059
    printf "$input" | timeout 120 "$program" "$@" > out 2> err
    status=$?
}

# prints CASE STATUS LINE..: the last run printed these lines, and nothing on standard error.
prints() {
    case_name=$1
    wanted_status=$2
    shift 2
    : > wanted
    [ $# -eq 0 ] || printf '%s\n' "$@" > wanted
    : > wanted_err
    compare
}

# prints_file CASE FILE: the last run printed the bytes of FILE, with status 0.
prints_file() {
    case_name=$1
    wanted_status=0
    cat "$2" > wanted
    : > wanted_err
    compare
}

# refuses CASE STATUS TEXT: the last run printed nothing, and the line TEXT on standard error.
refuses() {
    case_name=$1
    wanted_status=$2
    : > wanted
    printf '%s\n' "$3" > wanted_err
    compare
}

# compare: counts the case by the results of the last run.
compare() {
    fault=
    [ "$status" -eq "$wanted_status" ] || fault="$fault; status $status, not $wanted_status"
    cmp -s wanted out || fault="$fault; other output: $(start_of out)"
    cmp -s wanted_err err || fault="$fault; other text: $(start_of err)"
    count "$case_name" "$fault"
}

# explains CASE: the last run ended with status 2, and printed text only on standard error.
explains() {
    fault=
    [ "$status" -eq 2 ] || fault="$fault; status $status, not 2"
    [ ! -s out ] || fault="$fault; output: $(start_of out)"
    [ -s err ] || fault="$fault; no text"
    count "$1" "$fault"
}

# ends CASE STATUS: the last run ended with this status, whatever it printed.
ends() {
    fault=
    [ "$status" -eq "$2" ] || fault="; status $status, not $2"
    count "$1" "$fault"
}

# count CASE FAULT: counts the case, which passed if FAULT is empty.
count() {
    if [ -z "$2" ]; then
        passed=$((passed + 1))
    else
        failed=$((failed + 1))
        printf 'failed: %s%s\n' "$1" "$2"
    fi
}

# can_refuse: succeeds if growths of memory can be refused here, and builds the library that refuses them.
can_refuse() {
    if ! command -v cc > /dev/null; then
        echo 'skipped: refused memory: there is no cc'
        return 1
    fi
    cc -shared -fPIC -O2 -o watch_memory.so "$here/../.ci/watch_memory.c" -ldl
}

# each_refused CASE INPUT WORD..: refuses a growth of memory in each run, of the first 60 each one and then every
# seventh. The run with INPUT ends as it does with none refused, or prints nothing and reports 'out of memory'.
each_refused() {
    case_name=$1
    given=$2
    shift 2
    timeout 120 "$program" "$@" < "$given" > whole_out 2> whole_err
    whole_status=$?
    echo "$(basename "$program"): out of memory" > refused_err
    growth=0
    ended_early=0
    wrong=
    : > refused
    while [ -e refused ]; do
        growth=$((growth + (growth < 60 ? 1 : 7)))
        rm refused
        timeout 120 env REFUSE=$growth REFUSED=refused LD_PRELOAD="$PWD/watch_memory.so" \
            "$program" "$@" < "$given" > out 2> err
        status=$?
        if [ -e refused ] && [ "$status" -eq 5 ] && [ ! -s out ] && cmp -s refused_err err; then
            ended_early=$((ended_early + 1))
        elif [ "$status" -ne "$whole_status" ] || ! cmp -s whole_out out || ! cmp -s whole_err err; then
            wrong="$wrong; growth $growth: status $status, output $(start_of out), text $(start_of err)"
        fi
    done
    [ "$ended_early" -gt 0 ] || wrong="$wrong; no growth was refused"
    count "$case_name with each growth of memory refused" "$wrong"
}

# start_of FILE: prints its first bytes, on one line.
start_of() {
    head -c 60 "$1" | tr '\n' '|' | tr -c '[:print:]' '?'
}

# bytes HEX: prints the bytes that HEX stands for in lower-case hexadecimal.
bytes() {
    # shellcheck disable=SC2059
    printf "$(printf '%s\n' "$1" | awk -v digits=0123456789abcdef '{
        for (i = 1; i < length($0); i += 2)
            printf "\\%03o", 16 * (index(digits, substr($0, i, 1)) - 1) + index(digits, substr($0, i + 1, 1)) - 1
    }')"
}

# raw HEX: prints the bytes HEX as a short MessagePack string, in hexadecimal: a first byte with their number.
raw() {
    printf '%02x%s' $((160 + ${#1} / 2)) "$1"
}

# finish: prints the last line, and returns the status.
finish() {
    echo "$passed passed, $failed failed"
    [ "$failed" -eq 0 ]
}
