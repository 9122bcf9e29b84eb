# For scripts that run long steps: sourced, not run. A step is a process group of its own; whoever ends the script ends the step with it.
set -m
step_log=$(mktemp)

end_step() {
    local group
    for group in $(jobs -p); do
        { kill -TERM -- "-$group" && wait "$group"; } 2> /dev/null || true
    done
    rm -f "$step_log"
}
trap end_step EXIT
trap 'exit 129' HUP
trap 'exit 130' INT
trap 'exit 143' TERM

# needs PROGRAM..: says which are not there, and fails where one is not
needs() {
    local name missing=0
    for name; do
        command -v "$name" > /dev/null || { echo "no $name: it is not on the PATH (README.md says what is needed)" >&2; missing=1; }
    done
    [ "$missing" = 0 ] || exit 1
}

# arguments "WHAT IT DOES" ARGUMENT..: takes --help, and refuses any other
arguments() {
    local what=$1
    shift
    [ $# -gt 0 ] || return 0
    if [ $# = 1 ] && { [ "$1" = --help ] || [ "$1" = -h ]; }; then
        printf 'usage: %s\n\n%s\n' "$0" "$what"
        exit 0
    fi
    printf 'usage: %s (it takes no argument but --help)\n' "$0" >&2
    exit 2
}

# step NAME FILTER COMMAND..: runs the command, with no input; its output goes to $step_log, and through the filter to standard output.
# Where it fails: which step it was and the end of its log, and status 1.
step() {
    local name=$1 filter=$2 status=0
    shift 2
    { "$@" 2>&1 | tee "$step_log" | $filter; } < /dev/null &
    wait $! || status=$?
    [ "$status" = 0 ] || {
        printf '\nFAILED: %s (status %s). The end of its log:\n' "$name" "$status"
        tail -n 25 "$step_log"
        exit 1
    }
}
