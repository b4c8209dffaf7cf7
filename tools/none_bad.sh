#!/bin/sh
# Runs the gate's command and shows what it prints. Ends with its status, and with 1 where that is 0 but the line `rt: ok` is missing or
# counts an edit of must-fail/ as bad: such an edit could not be tried as it stands and shows nothing, and `rt ci` passes over it.
room=$(mktemp -d) || exit 1
trap 'rm -rf "$room"' EXIT
{ "$@"; echo $? > "$room/status"; } 2>&1 | tee "$room/log"
status=$(cat "$room/status")
if [ "$status" -ne 0 ]; then
    exit "$status"
fi
if ! grep -Eq '^rt: ok' "$room/log"; then
    echo "no line 'rt: ok' tells how many edits of must-fail/ were refused"
    exit 1
fi
if grep -E '^rt: ok' "$room/log" | grep -Eq ', [1-9][0-9]* bad'; then
    echo "an edit of must-fail/ is bad: see BAD EDIT above"
    exit 1
fi
