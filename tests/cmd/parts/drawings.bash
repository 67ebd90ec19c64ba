# The samples, a drawing of every kind, and every file of tests/vectors.

# ---- the samples, a drawing of every kind, and 01's example

try "01's example is accepted" 0 "$t/small.cgx: ok" "" "$cgx" check "$t/small.cgx"
try "01's example is listed as 01 says" 0 $'4 LIBRARY\n42 STRUCT\n64 LAYER\n72 BOX\n92 ENDLIB' "" \
    "$cgx" list "$t/small.cgx"
cp "$samples"/*.cgx "$t"

# transcript NAME: runs each line of a file of expected/ that begins with `$ `; what follows it is all that is printed, and
# the status where it is not 0.
expected=tests/cmd/expected
transcript() {
    local typed status
    grep '^\$ ' "$expected/$1" >"$t/typed"
    while IFS= read -r typed; do
        (cd "$t" && PATH=$bin:$PATH && eval "${typed#??}") >"$t/out" 2>&1
        status=$?
        [ $status -eq 0 ] || echo "status $status" >>"$t/out"
        [ -z "$write" ] || { echo "$typed" && cat "$t/out"; } >>"$t/$1.new"
        awk -v typed="$typed" '/^\$ / { on = $0 == typed; next } on' "$expected/$1" | cmp "$t/out" -
        count $? "$1: $typed"
    done <"$t/typed"
    [ -z "$write" ] || mv "$t/$1.new" "$expected/$1"
}
for file in "$expected"/*; do
    transcript "$(basename "$file")"
done
"$cgx" labels "$t/chip.cgx" | cut -f 1,2,5 >"$t/ours"
sed 's/発振回\xe8\xb7$/発振回\\xe8\\xb7/' examples/chip.expected >"$t/theirs"
one "labels are those of examples/labels.c" cmp "$t/ours" "$t/theirs"

# ---- every file of tests/vectors: verdict and words, records, normal form

mkdir "$t/vectors"
for file in tests/vectors/*.txt; do
    build/cmd-files "$t/vectors" <"$file"
done >"$t/verdicts"
seen=()

# The normal form is the same the second time, and its dump differs only in unused flags, in the places 3 of a TEXT's and in
# the bytes of a real.
meant() {
    sed -E 's/^((STRUCT|CPRPTY|PROPERTY|LAYER|BOX|POLY|ENDLIB) flags) [0-9]+$/\1/; s/^(TEXT flags) [0-9]+/\1/
        s/^([A-Z]+ (munit|uunit|angle|magnif) .*) [0-9a-f]{16}$/\1/' "$1"
}
normal_is_good() {
    "$cgx" normal "$1" -o "$t/once" && "$cgx" normal "$t/once" >"$t/twice" && cmp "$t/once" "$t/twice" &&
        "$cgx" dump "$1" >"$t/dump" && "$cgx" dump "$t/once" >"$t/dump_once" &&
        meant "$t/dump" >"$t/meant" && meant "$t/dump_once" >"$t/meant_once" && cmp "$t/meant" "$t/meant_once"
}
while read -r name verdict number _ at; do
    file=$t/vectors/$name.cgx
    line="$file: ok"
    status=0
    if [ "$verdict" = refused ]; then
        line="$file: refused $number at $at: ${refusal_words[$number]}"
        status=1
        seen[number]=yes
    fi
    try "$name" $status "$line" "" "$cgx" check "$file"
    echo "$line" >>"$t/lines"
    if [ -e "$t/vectors/$name.list" ]; then
        "$cgx" list -v "$file" 2>/dev/null | cmp -s - "$t/vectors/$name.list"
        count $? "records of $name"
    fi
    [ $status -eq 0 ] && one "normal form of $name" normal_is_good "$file"
done <"$t/verdicts"
one "every refusal of a file was seen" [ "${!seen[*]}" = "1 2 3 4 5 6 7 8 9 10 11 12 13" ]
sed 's/ .*//; s|.*|'"$t"'/vectors/&.cgx|' "$t/verdicts" | xargs "$cgx" check >"$t/out" 2>"$t/err"
one "all at once have the same lines" cmp "$t/out" "$t/lines"
one "all at once have no messages" is "$t/err" ""
