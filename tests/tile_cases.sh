#!/usr/bin/env bash
# Runs the tile program over many texts, and compares its answers with those that are due: small
# tiles, every kind of departure from the grammar, the limits, a text that comes one byte at a time,
# input that can't be read and output that can't be written.
#
#   tests/tile_cases.sh [PROGRAM]
#
# The program is target/bin/tile unless named. Exits with 1 where an answer is wrong.
set -euo pipefail
cd "$(dirname "${BASH_SOURCE[0]}")/.."
tile=${1:-target/bin/tile}
if [ ! -x "$tile" ]; then
  echo "tile_cases: there is no program $tile (tools/build tile makes it)" >&2
  exit 1
fi
room=$(mktemp -d)
trap 'rm -rf "$room"' EXIT
# A line for each answer: the comparisons run in pipelines, whose variables are lost.
: >"$room/passed"
: >"$room/failed"

# due FORMAT REFUSAL FIRST SECOND ORDERS PIXELS PAINTED: the answer has to be this.
due() {
  printf 'format=%s\nrefusal=%s\nfirst=%s\nsecond=%s\norders=%s\npixels=%s\npainted=%s\n' \
    "$@" >"$room/due"
}

# compare NAME: the answer given is the one that is due.
compare() {
  if cmp -s "$room/due" "$room/given"; then
    echo "$1" >>"$room/passed"
  else
    echo "$1" >>"$room/failed"
    echo "tile_cases: wrong: $1"
    { diff "$room/due" "$room/given" || true; } | cut -c1-200 | head -8
  fi
}

# expect NAME DUE...: the answer to the text on standard input.
expect() {
  cat >"$room/text"
  due "${@:2}"
  "$tile" <"$room/text" >"$room/given" || echo "exit status $?" >>"$room/given"
  compare "$1"
}

# text WIDTH HEIGHT BPP STREAM: a tile text.
text() { printf 'width=%s\nheight=%s\nbpp=%s\nstream=%s\n' "$@"; }

# repeat COUNT WORD: the word so many times.
repeat() { head -c "$1" /dev/zero | sed "s/\x00/$2/g"; }

# bad NAME: the text on standard input departs from the grammar.
bad() { expect "$1" none 9 0 0 0 0 ''; }

# ---- small tiles, bpp 8, width 4, height 2
tile8() { text 4 2 8 "$2" | expect "$1" "${@:3}"; }
tile8 'empty stream'                ''         Rgb8 0 0 0 0 0 ''
tile8 'insert pending'              0202       Rgb8 0 0 0 2 4 0000ff00
tile8 'insert dropped'              0401       Rgb8 0 0 0 2 5 0000000000
tile8 'order stays in first row'    26         Rgb8 0 0 0 1 6 ffffffffffff
tile8 'foreground in a later row'   2422       Rgb8 0 0 0 2 6 ffffffff0000
tile8 'insert in a later row'       240101     Rgb8 0 0 0 3 6 ffffffffff00
tile8 'dithered'                    e20a0b     Rgb8 0 0 0 1 4 0a0b0a0b
tile8 'fg/bg image'                 4105       Rgb8 0 0 0 1 8 ff00ff0000000000
tile8 'special fg/bg image'         fa         Rgb8 0 0 0 1 8 ff00ff0000000000
tile8 'whole picture'               08         Rgb8 0 0 0 1 8 0000000000000000
tile8 'too long an order'           09         none 7 8 9 0 0 ''
tile8 'no order'                    24a0       none 5 0 0 1 4 ffffffff
tile8 'mask missing'                400b81     none 6 1 0 0 8 ff000000000000ff
tile8 'mask past the picture'       400b8100   none 7 0 4 0 8 ff000000000000ff
tile8 'length 0'                    f00000     none 8 0 0 0 0 ''
tile8 'length cut'                  f000       none 6 2 1 0 0 ''
text 0 9000 8 '' | expect 'width 0, height 9000' none 2 0 0 0 0 ''
text 4 0 8 '' | expect 'height 0' none 2 0 0 0 0 ''
text 0 2 32 '' | expect 'bpp 32, width 0' none 1 32 0 0 0 ''
text 8192 2 8 '' | expect 'width 8192' Rgb8 0 0 0 0 0 ''
text 8193 2 8 '' | expect 'width 8193' none 3 8193 2 0 0 ''
text 2 8193 8 '' | expect 'height 8193' none 3 2 8193 0 0 ''
text 1 2 24 fdfe | expect 'bpp 24' Rgb24 0 0 0 2 2 ffffff000000
text 1 2 15 fdfe | expect 'bpp 15' Rgb15 0 0 0 2 2 ff7f0000
text 1 2 16 fdfe | expect 'bpp 16' Rgb16 0 0 0 2 2 ffff0000
text 0 0 0 '' | expect 'bpp 0' none 1 0 0 0 0 ''
text 99999999 99999999 99999999 00 | expect 'eight digits' none 1 99999999 0 0 0 ''
text 99999999 1 8 00 | expect 'eight digits of width' none 3 99999999 1 0 0 ''
text 4 2 264 00 | expect 'bpp 264' none 1 264 0 0 0 ''
text 1 1 65544 00 | expect 'bpp 65544' none 1 65544 0 0 0 ''

# ---- the limits
text 256 256 8 fd | expect 'picture of 65,536 bytes' Rgb8 0 0 0 1 1 ff
text 257 256 8 fd | expect 'picture of 65,792 bytes' none 10 0 0 0 0 ''
text 8192 8192 24 fd | expect 'the largest picture' none 10 0 0 0 0 ''
text 21845 1 24 fd | expect '3 before 10' none 3 21845 1 0 0 ''
text 5461 4 24 fd | expect 'picture of 65,532 bytes' Rgb24 0 0 0 1 1 ffffff
text 5462 4 24 fd | expect 'picture of 65,544 bytes' none 10 0 0 0 0 ''
text 128 64 8 "$(repeat 8192 fd)" |
  expect 'stream of 8,192 bytes' Rgb8 0 0 0 8192 8192 "$(repeat 8192 ff)"
text 128 65 8 "$(repeat 8193 fd)" | expect 'stream of 8,193 bytes' none 10 0 0 0 0 ''
text 256 256 8 f0ffff0000 |
  expect 'a full picture but one' none 7 1 32 1 65535 "$(repeat 65535 00)"
text 256 256 8 f1ffff01 | expect 'a full picture' Rgb8 0 0 0 2 65536 "$(repeat 65536 ff)"

# ---- departures
printf '' | bad 'empty input'
text 4 2 8 0202 >"$room/good"
size=$(wc -c <"$room/good")
# with BYTES AT NEXT: the good text with these bytes in place of its own from AT to before NEXT.
with() {
  head -c "$2" "$room/good"
  printf '%b' "$1"
  tail -c "+$(($3 + 1))" "$room/good"
}
for ((n = 0; n < size; n++)); do
  head -c "$n" "$room/good" | bad "cut after $n bytes"
  with '\xff' "$n" $((n + 1)) | bad "FF at $n"
  with '\0' "$n" $((n + 1)) | bad "NUL at $n"
  with ' ' "$n" "$n" | bad "a space before $n"
  with '\0' "$n" "$n" | bad "NUL before $n"
done
sed 's/$/\r/' "$room/good" | bad 'CR LF'
for after in '\n' ' ' 'x' '\0' '\xff' 'width=4\n'; do
  with "$after" "$size" "$size" | bad "after the text: $after"
done
cat "$room/good" "$room/good" | bad 'the text twice'
for number in 00 007 04 +4 -4 4. ' 4' '4 ' 0x4 100000000 000000004 '' 4a A; do
  text "$number" 2 8 0202 | bad "width $number"
  text 4 "$number" 8 0202 | bad "height $number"
  text 4 2 "$number" 0202 | bad "bpp $number"
done
# The digits' neighbours in ASCII are among these.
for stream in 0 020 0202f 0A FF 0g 0G '02 02' 0x02 '0`' '0/' '0:' '0@'; do
  text 4 2 8 "$stream" | bad "stream $stream"
done
printf 'Width=4\nheight=2\nbpp=8\nstream=0202\n' | bad 'upper-case key'
printf 'height=2\nwidth=4\nbpp=8\nstream=0202\n' | bad 'lines in another order'
printf 'width=4\nheight=2\nbpp=8\n' | bad 'no stream line'
printf 'width=4\n\nheight=2\nbpp=8\nstream=0202\n' | bad 'an empty line'
printf 'width 4\nheight=2\nbpp=8\nstream=0202\n' | bad 'no equals sign'
text 4 2 99 0 | bad '9 before 1'
text 0 2 8 0 | bad '9 before 2'
text 9000 2 8 0 | bad '9 before 3'

# ---- long texts, judged to their end
long=$(repeat 500000 ab)
text 4 2 8 "$long" | expect '1 MB of digits' none 10 0 0 0 0 ''
text 4 2 8 "${long}g" | bad '1 MB of digits and a bad one'
text 4 2 8 "${long}0" | bad '1 MB of digits and an odd one'
text 4 2 7 "$long" | expect '1 MB of digits, bpp 7' none 1 7 0 0 0 ''
text 0 2 8 "$long" | expect '1 MB of digits, width 0' none 2 0 0 0 0 ''
text 9000 2 8 "$long" | expect '1 MB of digits, width 9000' none 3 9000 2 0 0 ''
{ text 4 2 8 "$long"; printf x; } | bad '1 MB of digits and a byte after the text'
head -c 1000000 /dev/zero | bad '1 MB of NUL'
{ printf 'width='; repeat 1000000 9; } | bad '1 MB of nines'

# ---- one byte at a time
due Rgb8 0 0 0 2 4 0000ff00
while IFS= read -r -d '' -n 1 byte; do
  printf '%s' "$byte"
  sleep 0.01
done <"$room/good" | "$tile" >"$room/given" || echo "exit status $?" >>"$room/given"
compare 'one byte at a time'

# ---- what can't be read or written: a line on standard error, and no answer to a text that wasn't
# read to its end
{ "$tile" <"$room/good" || echo "exit status $?"; } >"$room/given" 2>&1
compare 'nothing is said beside an answer'
echo 'tile: cannot read standard input' >"$room/due"
{ "$tile" </ || echo "exit status $?"; } >"$room/given" 2>&1
compare 'a folder as standard input'
{ "$tile" <&- || echo "exit status $?"; } >"$room/given" 2>&1
compare 'standard input closed'
echo 'tile: cannot write standard output' >"$room/due"
{ "$tile" <"$room/good" >/dev/full || echo "exit status $?" >&2; } 2>"$room/given"
compare 'standard output full'
{ "$tile" <"$room/good" >&- || echo "exit status $?" >&2; } 2>"$room/given"
compare 'standard output closed'

passed=$(wc -l <"$room/passed") failed=$(wc -l <"$room/failed")
echo "tile_cases: $passed passed, $failed failed"
[ "$failed" -eq 0 ]
