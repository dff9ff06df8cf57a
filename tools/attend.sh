# Sourced by scripts that wait for a long command. Where such a script gets TERM, INT or HUP meanwhile, it ends the command and every process
# below it, says its last words and exits.
#   attend COMMAND...   runs a command or a function, with nothing on its standard input, and waits for it; the status is the command's
#   cut_off             says the last words: none, unless the script defines it

attending=

attend() {
    attending=yes
    "$@" </dev/null &
    wait "$!" && set -- 0 || set -- "$?"
    attending=
    return "$1"
}

cut_off() { :; }

# processes_below PROCESS: its number and those of all that stand below it
processes_below() {
    cat /proc/[0-9]*/stat 2>/dev/null | awk -v top="$1" '
        function walk(process,    list, count, i) {
            print process
            count = split(children[process], list, " ")
            for (i = 1; i <= count; i++)
                walk(list[i])
        }
        { process = $1; sub(/.*\) /, ""); children[$2] = children[$2] " " process }
        END { walk(top) }'
}

# A process that has ended has no program, even where nobody has asked for its status yet.
runs() { [ -e "/proc/$1/exe" ]; }

# end_processes PROCESS: ends it and all below it. All are stopped first, so that none starts another meanwhile.
end_processes() {
    ending=
    while found=$(processes_below "$1") && [ "$found" != "$ending" ]; do
        ending=$found
        # shellcheck disable=SC2086
        kill -STOP $ending 2>/dev/null || :
    done
    # shellcheck disable=SC2086
    kill -TERM $ending 2>/dev/null || :
    # shellcheck disable=SC2086
    kill -CONT $ending 2>/dev/null || :
    patience=50
    for process in $ending; do
        while runs "$process" && [ "$patience" -gt 0 ]; do
            sleep 0.1
            patience=$((patience - 1))
        done
        ! runs "$process" || kill -KILL "$process" 2>/dev/null || :
    done
}

told_to_end() { # STATUS
    trap '' TERM INT HUP
    [ -z "$attending" ] || [ -z "${!:-}" ] || end_processes "$!"
    cut_off
    exit "$1"
}

trap 'told_to_end 129' HUP
trap 'told_to_end 130' INT
trap 'told_to_end 143' TERM
