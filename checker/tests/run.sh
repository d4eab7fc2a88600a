#!/bin/sh
# Certificates that must be taken, damaged ones that must be refused for a reason that is told, and texts that are none.
cd "$(dirname "$0")/.." || exit 1
checker=${1:-./uacheck}
failed=0
fail() { echo "FAILED: $1"; failed=1; }
text=$(mktemp)
trap 'rm -f "$text"' EXIT

for script in tests/valid*.ua; do
  "$checker" "$script" > "$text" || fail "$script: status"
  [ "$(grep -c '^check' "$script")" = "$(grep -cx valid "$text")" ] || fail "$script"
done

"$checker" tests/invalid.ua > "$text" && fail "tests/invalid.ua: status"
cmp -s "$text" tests/invalid.out || fail "tests/invalid.ua"
grep -qx valid tests/invalid.out && fail "tests/invalid.out has a valid one"

# refused TEXT FAULT: the text is none, and the fault is told with line and column.
refused() {
  printf "$1" > "$text"
  said=$("$checker" "$text" 2>&1); status=$?
  [ "$status $said" = "2 $2" ] || fail "'$1': $status $said"
}
M='algebra M size 2\nop m 2 = 0 0 0 1\nend\n'
refused '' 'there is no certificate'
refused "$M" 'there is no certificate'
refused 'foo $\n' '1:1 algebra or check is needed'
refused '# comment\n\n  $' '3:3 this byte begins nothing'
refused 'version 3\n' '1:9 a version from 1 to 2 is needed'
refused 'version 2 version 2\n' '1:11 algebra or check is needed'
refused 'algebra\n' '2:1 a name is needed'
refused 'algebra M M size 2\nend' '1:11 size is needed'
refused 'algebra M size 0 end' '1:16 a size from 1 to 255 is needed'
refused 'algebra M size 256 end' '1:16 a size from 1 to 255 is needed'
refused 'version 2 algebra M size 1001 end' '1:26 a size from 1 to 1000 is needed'
refused 'algebra M size 02 end' '1:16 a number begins with 0'
refused 'algebra M size 2 names (a b) end' '1:18 op or end is needed'
refused 'version 2 algebra M size 2 names (a) end' '1:36 a name of an element is needed'
refused 'version 2 algebra M size 2 names (a b c) end' '1:39 ) is needed'
refused 'version 2 algebra M size 2 names (a a) end' '1:37 the name is taken'
refused 'algebra M size 2\nop gen 1 = 0 0\nend' '2:4 the name is taken or reserved'
refused 'algebra M size 2\nop x12 1 = 0 0\nend' '2:4 the name is taken or reserved'
refused 'algebra M size 2\nop f 1 = 0 0\nop f 1 = 0 0\nend' '3:4 the name is taken or reserved'
refused 'algebra M size 2\nop f 5 = 0\nend' '2:6 an arity from 0 to 4 is needed'
refused 'algebra M size 2\nop f 1 0 0\nend' '2:8 = is needed'
refused 'algebra M size 2\nop f 1 = 0\nend' '3:1 an element is needed'
refused 'algebra M size 2\nop f 1 = 0 2\nend' '2:12 an element is needed'
refused 'algebra M size 2\nop f 1 = 0 0 0\nend' '2:14 op or end is needed'
refused 'algebra M size 2\nop f 1 = 0 1x\nend' '2:12 a letter follows a number'
refused 'algebra M size 2\nop f 1 = 0 1234567890\nend' '2:12 a number is too large'
refused 'algebra M size 2\nop f 1 = 0 -1\nend' '2:12 this byte begins nothing'
refused 'algebra M size 2\nop f 1 = 0 1\n' '3:1 op or end is needed'
refused 'algebra aaaaaaaaaaaaaaaaaaaaaaaaaaaaaaaaa size 2 end' '1:9 a word is too long'
refused "${M}${M}" '4:9 the name is taken'
refused "${M}check M\n" '5:1 a certificate is needed'
refused "${M}check {}\n" '4:7 a name is needed'
refused "${M}check M [0]\n" '4:9 this byte begins nothing'
refused "${M}check M {}\nclose M 1 [0]\n" '5:1 algebra or check is needed'
refused "${M}\000" '4:1 this byte begins nothing'
refused "${M}\303\244" '4:1 this byte begins nothing'

[ $failed = 0 ] && echo "checker: all tests passed"
exit $failed
