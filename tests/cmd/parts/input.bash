# Files of every kind, those that cannot be read, and large ones.

# ---- standard input, pipes, FIFOs

piped() { cat "$1" | "$cgx" check -; }
try "standard input, a file" 0 "-: ok" "" "$cgx" check - <$good
try "standard input, a pipe" 0 "-: ok" "" piped $good
try "standard input, refused" 1 "-: $bad_line" "" piped $bad
try "standard input, empty" 1 "-: refused 1 at 0: not a CGX file" "" "$cgx" check - </dev/null
try "standard input twice" 1 $'-: ok\n-: refused 1 at 0: not a CGX file' "" "$cgx" check - - <$good
try "standard input closed" 2 "" "cgx: -: Bad file descriptor" "$cgx" check - <&-
{ printf 'skip' && cat $good; } >"$t/skip"
rest_of_skip() { (dd bs=4 count=1 of=/dev/null status=none && "$cgx" check -) <"$t/skip"; }
try "the rest of standard input" 0 "-: ok" "" rest_of_skip
"$cgx" list $good >"$t/listed"
prints "list of standard input" 0 "$t/listed" "$cgx" list - <$good
try "- among files" 0 "$good: ok"$'\n'"-: ok" "" "$cgx" check $good - <$good
mkfifo "$t/fifo"
fed() {
    local status
    cat "$1" >"$t/fifo" &
    "$cgx" check "$t/fifo"
    status=$?
    wait
    return $status
}
try "a FIFO" 0 "$t/fifo: ok" "" fed $good
try "a FIFO, refused" 1 "$t/fifo: $bad_line" "" fed $bad

# ---- files that cannot be read

: >"$t/empty"
mkdir "$t/folder"
cp $good "$t/closed.cgx"
chmod 000 "$t/closed.cgx"
for word in $tried; do
    try "$word: no such file" 2 "" "$missing" "$cgx" $word "$t/none"
    try "$word: a directory" 2 "" "cgx: $t/folder: Is a directory" "$cgx" $word "$t/folder"
    try "$word: an empty name" 2 "" "cgx: No such file or directory" "$cgx" $word ""
done
try "an empty file" 1 "$t/empty: refused 1 at 0: not a CGX file" "" "$cgx" check "$t/empty"
try "a path through a file" 2 "" "cgx: $t/empty/x: Not a directory" "$cgx" check "$t/empty/x"
if as_nobody true 2>/dev/null; then
    try "an unreadable file" 2 "" "cgx: $t/closed.cgx: Permission denied" as_nobody "$cgx" check "$t/closed.cgx"
    try "unreadable, then good" 2 "$t/small.cgx: ok" "cgx: $t/closed.cgx: Permission denied" \
        as_nobody "$cgx" check "$t/closed.cgx" "$t/small.cgx"
    try "normal into a folder that is closed" 2 "" "cgx: $t/folder/out: Permission denied" \
        as_nobody "$cgx" normal "$t/small.cgx" -o "$t/folder/out"
else
    echo "unreadable files: not tried, root's rights cannot be put down here"
fi

# ---- a large file

try "100 MB" 0 "$large: ok" "" "$cgx" check "$large"
try "100 MB, a pipe" 0 "-: ok" "" piped "$large"
try "100 MB twice" 0 "$large: ok"$'\n'"$large: ok" "" "$cgx" check "$large" "$large"
within() { (ulimit -d "$1" && shift && "$@"); } # within KILOBYTES COMMAND..: with no more memory of its own
if [ -z "$sanitized" ]; then # a sanitizer has much memory of its own
    for word in check list labels; do
        within 16384 "$cgx" $word "$large" >/dev/null 2>"$t/err" && is "$t/err" ""
        count $? "$word 100 MB without a copy"
    done
    try "100 MB that do not fit the memory" 2 "" "cgx: not enough memory" within 16384 "$cgx" normal "$large"
fi
# Pages are mapped ahead by another processor, which matters most where they lie singly; a pipe is read and not mapped.
dd if="$large" of="$t/single.cgx" bs=4k status=none
for word in check list normal labels; do
    cat "$large" | "$cgx" $word - | cksum >"$t/read"
    for file in large single; do
        "$cgx" $word - <"$t/$file.cgx" | cksum >"$t/mapped"
        one "$word: 100 MB read and mapped, $file" cmp "$t/read" "$t/mapped"
    done
done
first_processor=$(taskset -cp $$ | sed 's/.*: *\([0-9]*\).*/\1/')
try "100 MB on one processor" 0 "$t/single.cgx: ok" "" taskset -c "$first_processor" "$cgx" check "$t/single.cgx"
if [ -z "$sanitized" ] && as_nobody true 2>/dev/null; then # a sanitizer has a process of its own
    try "100 MB where no thread can be had" 0 "$t/single.cgx: ok" "" \
        as_nobody prlimit --nproc=1 "$cgx" check "$t/single.cgx"
fi
printf x | dd of="$t/single.cgx" bs=1 seek=3 conv=notrunc status=none
try "100 MB refused at once" 1 "$t/single.cgx: refused 2 at 0: not CGX level 0" "" "$cgx" check "$t/single.cgx"
rm "$t/single.cgx"

head -c 99999999 "$large" >"$t/cut.cgx"
"$cgx" check "$t/cut.cgx" >"$t/out"
one "100 MB cut off" grep -q ': refused 4 at 9999....: a record is cut off$' "$t/out"
"$cgx" normal "$large" -o "$t/large.normal"
one "normal form of 100 MB" test -s "$t/large.normal"
try "it is accepted" 0 "$t/large.normal: ok" "" "$cgx" check "$t/large.normal"
"$cgx" normal "$t/large.normal" >"$t/twice"
one "it is its own normal form" cmp "$t/large.normal" "$t/twice"
rm "$t/large.normal" "$t/twice" "$t/cut.cgx"

cp "$large" "$t/shrinks"
shrinking() {
    "$cgx" dump "$t/shrinks" | { read -r _ && truncate -s 8192 "$t/shrinks" && cat >/dev/null; }
    return "${PIPESTATUS[0]}"
}
try "a file that is cut off while it is read" 2 "" \
    "cgx: $t/shrinks: an input error, or the file was cut off while it was read" shrinking
rm "$t/shrinks"
