# The functions that all parts of checks/bindings share.
passed=0 failed=0

# The seconds after which a check counts as hanging, and is ended. Some checks take two minutes, and many times as long on a busy
# machine.
limit=1800

# Sets a variable to the processor seconds of the commands that have ended. Only the shell that ran the commands knows this number.
count_processors() {
    times >"$work/times"
    processors=$(awk 'NR == 2 { gsub(/[ms]/, " "); print int(60 * ($1 + $3) + $2 + $4) }' "$work/times")
}

# check NAME COMMAND..: runs a command or a function, and prints how long it took. Prints the output if it failed.
check() {
    local name=$1 begun=$SECONDS status processors used
    shift
    count_processors && used=$processors
    timeout "$limit" bash -o pipefail -c '"$@"' check "$@" >"$work/log" 2>&1
    status=$?
    count_processors
    if [ $status = 0 ]; then
        passed=$((passed + 1))
        echo "passed: $name ($((SECONDS - begun)) s, $((processors - used)) s of processors)"
        return
    fi
    failed=$((failed + 1))
    echo "FAILED: $name: $*"
    tail -40 "$work/log" | sed 's/^/    /'
    if [ $status = 124 ]; then echo "    it was ended after $limit s"; fi
}

# not_run NAME REASON
not_run() { echo "not run: $1: $2"; }

has() { command -v "$1" >/dev/null; }
node_is_new() { has node && node -e 'process.exit(Number(process.versions.node.split(".")[0]) >= 20 ? 0 : 1)'; }
has_header() { echo "#include <$1>" | cc -E - >/dev/null 2>&1; }

# lacks NAME [CONDITION REASON]..: says why something is not run: the reason beside the first condition that does not hold.
lacks() {
    local name=$1
    shift
    while [ $# -gt 0 ]; do
        eval "$1" || { not_run "$name" "$2"; return 0; }
        shift 2
    done
    return 1
}

# needs CONDITION REASON NAME COMMAND..: runs a check if a condition holds, or else says why it is not run.
needs() { lacks "$3" "$1" "$2" || check "${@:3}"; }

# What `langtag_version()` has to return in SQL, by the Python module.
versions() { python3 -c 'from langtag import *; from langtag import __version__; print(f"langtag {__version__} (IANA\x27s registry of {REGISTRY_DATE}, CLDR {CLDR_VERSION})")'; }

# give_up REASON: ends the run, because nothing can be checked.
give_up() {
    echo "FAILED: $1"
    echo "0 passed, 1 failed"
    exit 1
}
