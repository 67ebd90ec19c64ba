# Standard output that cannot be written.

full="cgx: standard output: No space left on device"
on_full() { "$@" >/dev/full; }
for word in check list "list -v" dump normal labels; do
    try "$word on a full disk" 2 "" "$full" on_full "$cgx" $word $good
    try "$word on a closed output" 2 "" "cgx: standard output: Bad file descriptor" eval '"$cgx" '"$word"' $good >&-'
done
try "--help on a full disk" 2 "" "$full" on_full "$cgx" --help
try "check --help on a full disk" 2 "" "$full" on_full "$cgx" check --help
try "--version on a full disk" 2 "" "$full" on_full "$cgx" --version
try "a full disk wins over a refusal" 2 "" "$full" on_full "$cgx" check $bad
try "messages that nobody takes" 2 "" "" eval '"$cgx" check "$t/none" 2>&-'

first_line() {
    "$cgx" dump "$large" | head -n 1
    return "${PIPESTATUS[0]}"
}
try "a closed pipe ends the run quietly" 141 "cgx dump 1" "" first_line
ignoring() { (trap '' PIPE && first_line); }
try "a closed pipe, its signal ignored" 2 "cgx dump 1" "cgx: standard output: Broken pipe" ignoring
