# The escape.

# shown HEX TEXT: how a label is printed, and that it can be turned back.
shown() {
    local got
    labelled "$1" >"$t/label.cgx"
    got=$("$cgx" labels "$t/label.cgx" | cut -f 5)
    [ "$got" = "$2" ]
    count $? "label $1: printed as $got"
    bytes "$1" >"$t/label"
    printf '%b' "$got" | cmp -s - "$t/label"
    count $? "label $1: turned back"
    "$cgx" dump "$t/label.cgx" | grep -qxF "TEXT label \"$2\""
    count $? "label $1: in the dump"
}
shown "" ""
shown "61 20 62" "a b"
shown "5c" '\\'
shown "5c 78 30 61" '\\x0a'
shown "0a" '\x0a'
shown "09 0d 1b 5b 33 31 6d 07 7f" '\x09\x0d\x1b[31m\x07\x7f'
shown "22 27 24 60 25" "\"'\$\`%"
shown "20 20" "  "
shown "c2 80 c2 9b c2 9f" '\xc2\x80\xc2\x9b\xc2\x9f' # C1, a control sequence among them
shown "c2 a0 c3 a9 cf 80" "$(printf '\xc2\xa0')éπ"
shown "e2 80 ae e2 81 a6 e2 80 8f d8 9c" '\xe2\x80\xae\xe2\x81\xa6\xe2\x80\x8f\xd8\x9c' # the direction of a line
shown "e2 80 a8 e2 80 a9" '\xe2\x80\xa8\xe2\x80\xa9' # the end of a line
shown "e2 80 a7 e2 80 af e2 82 ac" "$(printf '\xe2\x80\xa7\xe2\x80\xaf')€"
shown "80 bf c0 80 c1 bf f8 ff fe" '\x80\xbf\xc0\x80\xc1\xbf\xf8\xff\xfe'
shown "c3" '\xc3'
shown "c3 c3 a9" '\xc3é'
shown "c3 5c" '\xc3\\'
shown "e0 80 80 e0 9f bf e0 a0 80" '\xe0\x80\x80\xe0\x9f\xbfࠀ' # longer than need be
shown "ed 9f bf ed a0 80 ed bf bf" "$(printf '\xed\x9f\xbf')"'\xed\xa0\x80\xed\xbf\xbf' # surrogates
shown "ee 80 80" "$(printf '\xee\x80\x80')"
shown "e7 99 ba e8 b7" '発\xe8\xb7'
shown "f0 9f 98 80" "😀"
shown "f0 80 80 80 f0 8f bf bf f0 90 80 80" '\xf0\x80\x80\x80\xf0\x8f\xbf\xbf𐀀'
shown "f4 8f bf bf f4 90 80 80 f5 80 80 80" "$(printf '\xf4\x8f\xbf\xbf')"'\xf4\x90\x80\x80\xf5\x80\x80\x80'
shown "f0 9f 98" '\xf0\x9f\x98'
harmless() { ! LC_ALL=C grep -qP '[\x00-\x08\x0b-\x1f\x7f-\xff]' "$@"; }
all=$(printf '%02x' {1..255})
labelled "$all" >"$t/label.cgx"
for word in labels dump list check; do
    "$cgx" $word "$t/label.cgx" "$(printf '%b' "\\x${all:0:2}\\x1b")" >"$t/out" 2>"$t/err"
    one "$word: no control byte but tab and newline" harmless "$t/out" "$t/err"
done
"$cgx" labels "$t/label.cgx" | cut -f 5 >"$t/out"
printf '%b' "$(cat "$t/out")" >"$t/back"
bytes "$all" >"$t/label"
one "all bytes are turned back" cmp "$t/back" "$t/label"
