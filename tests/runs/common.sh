# What tests/bidi_show and tests/bidi share: a folder for their work, and how a run is told.
work=$(mktemp -d) || exit 1
trap 'rm -rf "$work"' EXIT
failures=0

tell() { # NAME, and why it failed, or nothing
    if [ -z "$2" ]; then
        echo "ok $1"
    else
        echo "failed $1: $2"
        failures=$((failures + 1))
    fi
}

# Whether the last run of a built program ended with a status, with one line on standard error, or none.
ended() { # NAME, the status that it had, the status and the line that are wanted
    why=
    [ "$(cat "$work/error")" = "$4" ] || why="wrong standard error: $(cat "$work/error")"
    [ "$2" = "$3" ] || why="status $3 is wanted, not $2"
    tell "$1" "$why"
}

# Whether a built program is older than the source of some crate, so that it may be of another source.
is_older() { # PROGRAM
    [ -n "$(find crates/*/src -name '*.rt' -newer "$1" | head -n 1)" ]
}
