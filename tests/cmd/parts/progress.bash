# Progress: only on a terminal, only after a second, and it is taken away.
has_terminal || return

# What ends a terminal's text: spaces over the line, and back to its beginning.
taken_away() {
    local text
    IFS= read -r -d '' text <"$1"
    text=${text%$'\r'}
    [[ ${text##*$'\r'} =~ ^\ +$ ]]
}

slowly() { { head -c 50 "$1" && sleep 2 && tail -c +51 "$1"; } | "${@:2}"; }
try "no progress where there is no terminal" 0 "-: ok" "" slowly $good "$cgx" check -
slowly $good build/cmd-terminal "$cgx" check - >"$t/out" 2>"$t/err"
one "with progress the answer is the same" is "$t/out" "-: ok"
one "progress on a terminal" eval 'tr "\r" "\n" <"$t/err" | grep -qx -- "-: reading, [123] s"'
one "it is taken away" taken_away "$t/err"
try "no progress within a second" 0 "$good: ok" "" build/cmd-terminal "$cgx" check $good
build/cmd-terminal "$cgx" dump "$large" 2>"$t/err" | { sleep 2 && cat >/dev/null; }
one "progress of a walk" eval 'tr "\r" "\n" <"$t/err" | grep -qE "reading, [0-9]+%"'
slowly $good build/cmd-terminal -a "$cgx" list - 2>"$t/err"
one "on a terminal the answer is not disturbed" eval 'tr "\r" "\n" <"$t/err" | grep -qx "566 ENDLIB"'
if [ "$(df -Pk "$t" | awk 'NR == 2 { print $4 }')" -lt 600000 ]; then
    echo "270 MB on a terminal: not tested, the disk has no room"
    return
fi
huge=$t/huge.cgx
build/cmd-mixed 270000000 >"$huge"
build/cmd-terminal "$cgx" check "$huge" >"$t/out" 2>"$t/err"
one "270 MB on a terminal: status" [ $? -eq 0 ]
one "270 MB on a terminal: the line" is "$t/out" "$huge: ok"
truncate -s -2 "$huge"
"$cgx" check "$huge" >"$t/plain"
build/cmd-terminal "$cgx" check "$huge" >"$t/out" 2>"$t/err"
one "270 MB cut off on a terminal: status" [ $? -eq 1 ]
one "270 MB cut off on a terminal: the same line" cmp "$t/plain" "$t/out"
rm "$huge"
