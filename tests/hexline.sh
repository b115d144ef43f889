#!/bin/sh
# Runs hexline on lines that are too long or too strange to store. Needs sh, awk and the usual small tools.
LC_ALL=C
export LC_ALL
hexline=${1:-target/bin/hexline}
. "$(dirname "$0")/same.sh"

# the answers, each with a comma behind it
answers() {
    "$hexline" | tr '\n' ','
}

# many COUNT BYTE
many() {
    head -c "$1" /dev/zero | tr '\0' "$2"
}

good='check 80f3fffffffffff'
same 'a long word' 'ok,input,ok,' "$({ echo "$good"; many 200000 a; printf '\n%s\n' "$good"; } | answers)"
same 'a long number' 'input,ok,' "$({ printf 'check '; many 200000 0; printf '\n%s\n' "$good"; } | answers)"
same 'leading zeros' 'input,' "$({ printf 'check '; many 200000 0; printf '80f3fffffffffff\n'; } | answers)"
same 'leading zeros of decimals' '1 1 0,-1 0,' "$({ printf 'unit '; many 100000 0; printf '6\nij -'; many 100000 0; printf '1 0 '; many 100000 0; echo; } | answers)"
same 'a long decimal' 'input,input,' "$({ printf 'unit '; many 100000 1; printf '\nij -'; many 100000 9; echo ' 0 0'; } | answers)"
same 'a line of blanks' 'ok,input,ok,' "$({ echo "$good"; many 200000 ' '; printf '\n%s\n' "$good"; } | answers)"
same 'blanks in front' 'input,' "$({ many 200000 ' '; echo "$good"; } | answers)"
same 'blanks behind' 'input,' "$({ printf '%s' "$good"; many 200000 ' '; } | answers)"
same 'many words' 'input,' "$({ printf '%s' "$good"; awk 'BEGIN { for (i = 0; i < 300; i++) printf " 0" }'; } | answers)"
same 'a line of NULs' 'input,ok,' "$({ many 200000 '\0'; printf '\n%s' "$good"; } | answers)"
same 'a line of bytes above 127' 'input,ok,' "$({ many 200000 '\377'; printf '\n%s' "$good"; } | answers)"
many 70000 '\n' | "$hexline" | awk '$0 != "input" { bad = 1 } END { exit bad || NR != 70000 }'
same 'empty lines' 0 $?
awk -v line="$good" 'BEGIN { for (i = 0; i < 70000; i++) print line }' | "$hexline" | awk '$0 != "ok" { bad = 1 } END { exit bad || NR != 70000 }'
same 'many answers' 0 $?

# an answer that is longer than the buffer it waits in
same 'the greatest room' '2401 : 8192 5791 139270' "$(echo 'list 8001fffffffffff 4 8192' | "$hexline" | awk '
    { for (i = 3; i <= NF; i++) if ($i == "eeeeeeeeeeeeeeee") n++; print $1, $2, NF - 2, n, length($0) }')"
same 'leading zeros of a room' '1 : 08009fffffffffff,' "$({ printf 'list 8009fffffffffff 0 '; many 100000 0; echo 1; } | answers)"

# each cursor handed back is handed in
at=$(echo 'cursor 8009fffffffffff 2' | "$hexline")
run=
for step in $(awk 'BEGIN { for (i = 0; i < 42; i++) print i }'); do
    answer=$(echo "next $at" | "$hexline")
    at=${answer#* : }
    run="$run${answer%% *} "
done
same 'a cursor to its end' "$(echo 'list 8009fffffffffff 2' | "$hexline") Done " "$run"

same 'empty input' '' "$(printf '' | answers)"
same 'an empty line' 'input,' "$(printf '\n' | answers)"
same 'no line end' 'ok,' "$(printf '%s' "$good" | answers)"
same 'an empty line last' 'ok,input,' "$(printf '%s\n\n' "$good" | answers)"
same 'a carriage return' 'input,ok,' "$(printf '%s\r\n%s\n' "$good" "$good" | answers)"
same 'NULs' 'input,input,input,' "$(printf 'check\00080f3fffffffffff\n%s\000\n\000' "$good" | answers)"
same 'a NUL for a number' 'input,' "$(printf 'check \0\n' | answers)"

# each byte but the hexadecimal digits, the blank and the line end spoils a number
same 'each byte' '16 238 254' "$(awk 'BEGIN { for (b = 1; b < 256; b++) if (b != 10) printf "check 8%c\n", b }' | "$hexline" | awk '
    $0 == "refusal 2" { n++ } $0 == "input" { k++ } END { print n + 0, k + 0, NR }')"
# but the decimal digits, of which 7 to 9 are no direction
same 'each byte of a decimal' '7 3 244 254' "$(awk 'BEGIN { for (b = 1; b < 256; b++) if (b != 10) printf "unit %c\n", b }' | "$hexline" | awk '
    $0 == "input" { k++; next } $0 == "refusal 13" { r++; next } { n++ } END { print n + 0, r + 0, k + 0, NR }')"

# an answer is written before the next line is read
dir=$(mktemp -d)
mkfifo "$dir/in"
"$hexline" <"$dir/in" >"$dir/out" &
exec 3>"$dir/in"
echo "$good" >&3
for wait in 1 2 3 4 5; do
    [ -s "$dir/out" ] || sleep 1
done
same 'an answer while the input is open' ok "$(cat "$dir/out")"
exec 3>&-
wait
rm -r "$dir"

# an output that is closed, or that nobody reads, ends the program
echo "$good" | "$hexline" >&-
same 'output closed' 0 $?
same 'output unread' ok "$(awk -v line="$good" 'BEGIN { for (i = 0; i < 500000; i++) print line }' 2>/dev/null | "$hexline" | head -1)"
if [ -w /dev/full ]; then
    awk -v line="$good" 'BEGIN { for (i = 0; i < 500000; i++) print line }' 2>/dev/null | "$hexline" 2>/dev/null >/dev/full
    same 'output full' 0 $?
fi
"$hexline" <&- >/dev/null
same 'input closed' 0 $?
same 'input a directory' '' "$("$hexline" </ 2>&1)"

# with an argument no input is read
same 'help' 'hexline answers each line of standard input, a request, with one line.' "$("$hexline" --help </dev/zero | head -1)"
same 'short help' "$("$hexline" --help)" "$("$hexline" -h </dev/zero)"
for argument in '' - -H --hel --helps "$(many 5000 a)"; do
    same "argument '$argument'" 'hexline: takes no argument but --help; requests come on standard input' "$("$hexline" "$argument" </dev/zero)"
done

echo "$passed passed, $failed failed"
[ "$failed" = 0 ]
