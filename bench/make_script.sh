#!/usr/bin/env bash
# Writes a script of so many lines for the toggle office: 16 actors are started, and then each event is followed by
# the turn that takes it, with a look at the actor now and then.
# usage: make_script.sh LINES
set -eu

exec awk -v lines="${1:?usage: make_script.sh LINES}" '
function put(line) { if (written < lines) { print line; written++ } }
BEGIN {
    for (n = 1; n <= 16; n++) { put("load " n " start toggle - null"); put("turn") }
    while (written < lines) {
        actor = 1 + n % 16
        put("load " n++ " send " actor " {\"type\":\"FLIP\"}")
        put("turn")
        if (n % 8 == 0) put("value " actor)
    }
}'
