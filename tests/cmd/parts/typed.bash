# What is typed: wrong words and options, help, several files, names.

# ---- what is typed wrong

no_word="cgx: no word is given; see cgx --help"
try "no arguments" 2 "" "$no_word" "$cgx"
try "an empty word" 2 "" "cgx: no such word; see cgx --help" "$cgx" ""
try "a wrong word" 2 "" "cgx: chek: no such word; see cgx --help" "$cgx" chek x
try "a wrong option" 2 "" "cgx: --vebrose: no such option; see cgx list --help" "$cgx" list --vebrose x
try "a wrong letter" 2 "" "cgx: -x: no such option; see cgx list --help" "$cgx" list -x
try "half an option" 2 "" "cgx: --verb: no such option; see cgx list --help" "$cgx" list --verb x
try "an option of another word" 2 "" "cgx: -v: no such option; see cgx check --help" "$cgx" check -v x
try "a value too many" 2 "" "cgx: --verbose=1: the option takes no value; see cgx list --help" "$cgx" list --verbose=1 x
try "a value missing" 2 "" "cgx: -o: a value is missing; see cgx normal --help" "$cgx" normal x -o
try "two files for normal" 2 "" "cgx: normal: takes one file; see cgx normal --help" "$cgx" normal x y
for word in $tried; do
    try "$word without a file" 2 "" "cgx: $word: no file is named; see cgx $word --help" "$cgx" $word
    try "$word with -- and no file" 2 "" "cgx: $word: no file is named; see cgx $word --help" "$cgx" $word --
done

# ---- help and version

help_is_good() { # help_is_good WORD
    "$cgx" "$1" --help >"$t/out" 2>"$t/err" && is "$t/err" "" && head -n 1 "$t/out" | grep -q "^usage: cgx $1" &&
        ! grep -qE '.{81}' "$t/out" && "$cgx" "$1" -h | cmp -s - "$t/out" && "$cgx" "$1" x --help | cmp -s - "$t/out"
}
one "--help has all words" [ "$words" = "$(sed -n 's/^ *WORD(\([a-z]*\)).*/\1/p' cmd/words.h)" ]
one "--help has the words that are tried here" [ "$(echo $words)" = "$tried" ]
"$cgx" --help >"$t/help"
"$cgx" -h >"$t/h"
one "-h is --help" cmp "$t/help" "$t/h"
for word in $words; do
    one "$word has its file" test -e "cmd/$word.c"
    one "$word --help" help_is_good "$word"
done
try "--version" 0 "cgx $version, library $version" "" "$cgx" --version

# ---- several files

try "two good ones" 0 "$good: ok"$'\n'"$good: ok" "" "$cgx" check $good $good
try "good and bad" 1 "$good: ok"$'\n'"$bad: $bad_line" "" "$cgx" check $good $bad
try "bad, missing and good" 2 "$bad: $bad_line"$'\n'"$good: ok" "$missing" "$cgx" check $bad "$t/none" $good
try "missing and bad" 2 "$bad: $bad_line" "$missing" "$cgx" check "$t/none" $bad
for word in list "list -v" dump labels; do
    { "$cgx" $word $good | sed "s|^|$good: |"; "$cgx" $word $bad 2>/dev/null | sed "s|^|$bad: |"; } >"$t/two"
    echo "cgx: $bad: $bad_line" >"$t/two.err"
    prints "$word of two files" 1 "$t/two" "$cgx" $word $good $bad
done

# ---- names

cd "$t" || exit 2
try_name() { # try_name WHAT NAME PRINTED
    cp small.cgx "./$2"
    try "a name with $1" 0 "$3: ok" "" "$cgx" check -- "$2"
    try "a name with $1, of a missing file" 2 "" "cgx: $3x: No such file or directory" "$cgx" check -- "$2x"
}
try_name "spaces" " a  b .cgx " " a  b .cgx "
try_name "a newline" $'a\nb' 'a\x0ab'
try_name "an escape sequence" $'\e[31mred' '\x1b[31mred'
try_name "a backslash" 'a\x41' 'a\\x41'
try_name "letters" "π.cgx" "π.cgx"
try_name "what is not UTF-8" $'\xff' '\xff'
try_name "a dash" "-v" "-v"
try_name "two dashes" "--help" "--help"
try_name "a percent sign" "%s%n" "%s%n"
try "a dash by its path" 0 "./-v: ok" "" "$cgx" check ./-v
cp small.cgx ./-
try "a file called -" 0 "./-: ok" "" "$cgx" check ./- </dev/null
try "options after files" 0 $'small.cgx: 4 LIBRARY cell - layer - run -\n./-: 4 LIBRARY cell - layer - run -' "" \
    eval '"$cgx" list small.cgx -v ./- | grep LIBRARY'
try "-- ends the options" 2 "" "cgx: --verbosex: No such file or directory" eval '"$cgx" list -- --verbosex'
cd "$root" || exit 2
