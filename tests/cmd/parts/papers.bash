# The manual, the completion, the entry for `file`, README.

for word in $words; do
    one "cgx.1 has $word" grep -qE "^\.B[RI]? ?\"?cgx $word" cmd/cgx.1
    for option in $("$cgx" "$word" --help | grep -oE '^  .{4}--[a-z]+' | grep -oE -- '--?[a-z]+' | grep -v -- --help); do
        one "cgx.1 has $option" grep -qF -- "${option//-/\\-}" cmd/cgx.1
    done
done
one "cgx.1 has the version" grep -q "^\.TH CGX 1 .*\"cgx $version\"$" cmd/cgx.1
for number in {1..13}; do
    one "cgx.1 has refusal $number" grep -qxF "$(printf '%2d' $number)  ${refusal_words[$number]//\'/\\(aq}" cmd/cgx.1
done
if command -v groff >/dev/null; then
    one "cgx.1 has no warnings" eval '[ -z "$(groff -man -Tutf8 -ww -z cmd/cgx.1 2>&1)" ]'
else
    echo "cgx.1: not set, there is no groff"
fi

# completes LINE REPLY..: what the completion offers at the end of a line.
completes() {
    local line=$1 got
    shift
    got=$(
        cd "$t/completed" && source "$root/cmd/cgx.bash" && read -ra COMP_WORDS <<<"$line"
        [ "${line: -1}" != " " ] || COMP_WORDS+=("")
        COMP_CWORD=$((${#COMP_WORDS[@]} - 1))
        _cgx "$cgx" "${COMP_WORDS[COMP_CWORD]}" "${COMP_WORDS[COMP_CWORD - 1]}"
        printf '%s\n' "${COMPREPLY[@]}" | sort | paste -sd ' '
    )
    [ "$got" = "$*" ]
    count $? "completion of '$line': $got"
}
mkdir "$t/completed"
touch "$t/completed/a.cgx" "$t/completed/b c.cgx"
completes "cgx " "$(printf '%s\n' --help --version $words | sort | paste -sd ' ')"
completes "cgx la" "labels"
completes "cgx check a" "a.cgx"
completes "cgx check " "a.cgx b c.cgx"
completes "cgx list -" "--help --verbose -v"
completes "cgx list --v" "--verbose"
completes "cgx normal --o" "--output="
completes "cgx normal --output =" "a.cgx b c.cgx"

if command -v file >/dev/null; then
    try "file: a drawing" 0 "$good: CGX chip-layout drawing, level 0, version 1, \"inverter\"" "" file -m cmd/cgx.magic $good
    printf 'cgx\001' >"$t/level"
    try "file: another level" 0 "$t/level: CGX chip-layout drawing, level 1" "" file -m cmd/cgx.magic "$t/level"
    try "file: the first four bytes alone" 0 "$t/level: CGX chip-layout drawing, level 0" "" \
        eval 'printf "cgx\0" >"$t/level" && file -m cmd/cgx.magic "$t/level"'
    printf 'cgx is a word' >"$t/level"
    one "file: a text that begins with cgx" eval '! file -m cmd/cgx.magic "$t/level" | grep -q CGX'
fi

# README's lines after "$ " are what is typed, those after it what is printed.
readme_is_true() {
    sed -n '/^## The command/,/^## /p' README.md | sed -n 's/^    //p' | awk -v out="$t/readme" '
        /^\$ / { n++; print substr($0, 3) > (out "." n ".typed"); next } { print > (out "." n ".printed") }'
    local typed n=0
    for typed in "$t"/readme.*.typed; do
        touch "${typed%.typed}.printed"
        bash "$typed" 2>&1 | diff "${typed%.typed}.printed" - || return 1
        n=$((n + 1))
    done
    [ $n -ge 4 ]
}
one "README shows what is printed" readme_is_true
