# normal: never over its input, whole or not at all.

w=$t/normal
mkdir "$w"
every_kind >"$w/in"
"$cgx" normal "$w/in" >"$w/good"
left() { [ "$(ls -A "$w" | paste -sd ' ')" = "$1" ]; }
try "normal -o" 0 "" "" "$cgx" normal "$w/in" -o "$w/out"
one "is what standard output gets" cmp "$w/out" "$w/good"
one "nothing else is left" left "good in out"
one "a new file has the usual mode" [ "$(stat -c %a "$w/out")" = 644 ]
for form in "-o$w/out" "--output=$w/out" "--output $w/out"; do
    rm "$w/out"
    try "normal $form" 0 "" "" "$cgx" normal $form "$w/in"
    one "normal $form writes it" cmp "$w/out" "$w/good"
done
"$cgx" normal "$w/in" -o - >"$t/out"
one "normal -o - is standard output" cmp "$t/out" "$w/good"
"$cgx" normal - <"$w/in" >"$t/out"
one "normal of standard input" cmp "$t/out" "$w/good"
echo old >"$w/out"
chmod 640 "$w/out"
try "normal over another file" 0 "" "" "$cgx" normal "$w/in" -o "$w/out"
one "replaces it" cmp "$w/out" "$w/good"
one "and keeps its mode" [ "$(stat -c %a "$w/out")" = 640 ]

cp "$w/in" "$t/same"
untouched() { cmp "$w/in" "$t/same" && left "$1"; }
ln "$w/in" "$w/hard"
ln -s in "$w/soft"
here="good hard in out soft"
try "normal over its input" 2 "" "cgx: $w/in: is the input" "$cgx" normal "$w/in" -o "$w/in"
try "by another path" 2 "" "cgx: $w/../normal/in: is the input" "$cgx" normal "$w/in" -o "$w/../normal/in"
try "by a hard link" 2 "" "cgx: $w/hard: is the input" "$cgx" normal "$w/in" -o "$w/hard"
try "by a symbolic link" 2 "" "cgx: $w/soft: is the input" "$cgx" normal "$w/in" -o "$w/soft"
try "by standard input" 2 "" "cgx: $w/in: is the input" "$cgx" normal - -o "$w/in" <"$w/in"
appending() { "$cgx" normal "$w/in" >>"$w/in"; }
try "by standard output" 2 "" "cgx: standard output: is the input" appending
one "its input stays" untouched "$here"
if has_terminal; then
    try "normal to a terminal" 2 "" \
        $'cgx: standard output: is a terminal, which the bytes of a drawing would disturb; name a file with -o\r' \
        build/cmd-terminal -a "$cgx" normal "$w/in"
fi

echo old >"$w/out"
stays() { is "$w/out" old && left "$here"; }
try "normal of a refused file" 1 "" "cgx: $bad: $bad_line" "$cgx" normal $bad -o "$w/out"
one "leaves the old one" stays
try "normal of a refused file to standard output" 1 "" "cgx: $bad: $bad_line" "$cgx" normal $bad
try "normal of a refused file to a new one" 1 "" "cgx: $bad: $bad_line" "$cgx" normal $bad -o "$w/new"
one "makes none" stays
limited() { (ulimit -f 1 && "$cgx" normal "$large" -o "$w/out"); } # 1 KB for a file
try "normal where there is no room" 2 "" "cgx: $w/out: File too large" limited
one "leaves the old one, too" stays
try "normal to a directory" 2 "" "cgx: $w: Is a directory" "$cgx" normal "$w/in" -o "$w"
try "normal to a folder that is not there" 2 "" "cgx: $w/none/out: No such file or directory" \
    "$cgx" normal "$w/in" -o "$w/none/out"
try "normal to a name that is empty" 2 "" "cgx: No such file or directory" in_folder "$w" "$cgx" normal in -o ""
mkfifo "$t/pipe"
try "normal to a FIFO" 2 "" "cgx: $t/pipe: not a regular file" "$cgx" normal "$w/in" -o "$t/pipe"
one "nothing is left of all these" stays
one "the FIFO is one still" test -p "$t/pipe"
ln -sf out "$w/soft"
try "normal to a symbolic link" 0 "" "" "$cgx" normal "$w/in" -o "$w/soft"
one "writes what it leads to" cmp "$w/out" "$w/good"
one "and the link stays" test -L "$w/soft"
echo old >"$w/out"
nothing_or_all() { left "$here" || { left "good hard in new out soft" && "$cgx" check "$w/new" >/dev/null; }; }
for delay in 0.02 0.05 0.1 0.2 0.3; do
    timeout -s TERM $delay "$cgx" normal "$large" -o "$w/new"
    one "an interruption after $delay s leaves nothing, or all" nothing_or_all
    rm -f "$w/new"
done
again_and_again() {
    "$cgx" normal "$large" -o "$w/new" &
    sleep "$1"
    while kill -TERM $!; do :; done
    wait $!
}
for delay in 0.02 0.05 0.1; do
    again_and_again $delay 2>"$t/found"
    one "interruptions again and again after $delay s leave nothing, or all" nothing_or_all
    rm -f "$w/new"
done
if as_nobody true 2>/dev/null; then
    # Never as root: a program with this fault would put a file in the place of the machine's device.
    try "normal to a device" 2 "" "cgx: /dev/full: not a regular file" as_nobody "$cgx" normal "$w/in" -o /dev/full
    chmod 777 "$w"
    chmod 444 "$w/out"
    try "normal over a file that is closed to writing" 2 "" "cgx: $w/out: Permission denied" \
        as_nobody "$cgx" normal "$w/in" -o "$w/out"
    one "leaves it" stays
fi
