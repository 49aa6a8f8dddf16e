#!/usr/bin/env bash
# Tests a built reconcile from outside: test.sh PATH-OF-THE-BINARY. Stops at the first check that fails and shows what differs.
set -euo pipefail

if [ $# -ne 1 ] || [ ! -x "$1" ]; then
    echo "usage: $0 PATH-OF-RECONCILE" >&2
    exit 2
fi
program=$(realpath "$1")
folder=$(realpath "$(dirname "$0")")
samples=$(realpath "$folder/../../samples")
manual=$(realpath "$folder/../../man/reconcile.1")
work=$(mktemp -d)
trap 'rm -rf "$work"' EXIT
cd "$work"
passed=0

# Runs a command that must succeed: NAME COMMAND..
must() {
    if ! "${@:2}"; then
        echo "FAILED: $1" >&2
        exit 1
    fi
    passed=$((passed + 1))
}

# Compares what is with what must be: NAME WHAT-MUST-BE WHAT-IS.
same() { must "$1" diff -u --label expected --label actual "$2" "$3"; }

# Runs the program and compares all that it leaves: NAME STATUS ARGUMENT.. The expected output stands in the file `want`, the
# expected errors in the file `errors`; a file that is not there stands for none.
check() {
    check_into 3 "$@" 3>got
    same "$1: output" want got
    rm want errors
}

# The same for an output that cannot be read again, open as a descriptor: DESCRIPTOR NAME STATUS ARGUMENT..
check_into() {
    local output=$1 name=$2 status=$3 actual=0
    shift 3
    touch want errors
    "$program" "$@" 1>&"$output" 2>got-errors || actual=$?
    same "$name: errors" errors got-errors
    same "$name: exit status" <(echo "$status") <(echo "$actual")
}

# A bad file, given as either of the two, is refused with its name, the line and what is wrong: NAME LINE MESSAGE, and the file's
# content on standard input.
bad() {
    cat >bad.txt
    echo "bad.txt:$2: $3" >errors
    cp errors errors-again
    check "$1" 2 bad.txt good.txt
    mv errors-again errors
    check "$1, as the second file" 2 good.txt bad.txt
}

# Wrong arguments are told, together with the usage: MESSAGE ARGUMENT..
wrong() {
    printf 'reconcile: %s\nusage: reconcile [OPTION..] OURS THEIRS\n       reconcile --help\n' "$1" >errors
    check "arguments: ${*:2}" 2 "${@:2}"
}

# The ids that a report on standard input has at one end: WORD (ours or theirs).
reported() { sed -n "s/^$1 only  .*\(.\{64\}\)\$/\1/p" | sort; }

# The ids in the first file that the second has not, by other means: FILE FILE.
lacking() { comm -23 <(ids_of "$1") <(ids_of "$2"); }
ids_of() { grep -v '^#' "$1" | cut -d ' ' -f 2 | sort; }

a=00112233445566778899aabbccddeeff00112233445566778899aabbccddeeff
b=${a/00/f0}
upper=${a^^}
cp "$samples/ours.txt" "$samples/theirs.txt" .
echo "5 $a" >good.txt

# The samples, as another implementation has them, in each format.
same 'the expected output' "$samples/expected.txt" <("$samples/make-expected.py" ours.txt theirs.txt)
cp "$samples/expected.txt" want
check samples 1 ours.txt theirs.txt
for format in text tsv json; do
    for stats in '' --stats; do
        "$samples/make-expected.py" --format $format $stats ours.txt theirs.txt >want 2>errors
        check "samples: $format $stats" 1 ours.txt theirs.txt --format $format $stats
    done
done
must 'the object is JSON' python3 -m json.tool got /dev/null

forth=$("$program" ours.txt theirs.txt) || true
back=$("$program" theirs.txt ours.txt) || true
lacking ours.txt theirs.txt >ours-lacking
lacking theirs.txt ours.txt >theirs-lacking
same 'ours only' ours-lacking <(reported ours <<<"$forth")
same 'theirs only' theirs-lacking <(reported theirs <<<"$forth")
same 'swapped files: ours only' theirs-lacking <(reported ours <<<"$back")
same 'swapped files: theirs only' ours-lacking <(reported theirs <<<"$back")

# Other cuts report the same, in more or fewer rounds.
for cut in '2 2' '3 4096' '64 64'; do
    read -r parts limit <<<"$cut"
    cp "$samples/expected.txt" want
    check "cut $cut" 1 --parts "$parts" ours.txt theirs.txt --limit "$limit"
    cp "$samples/expected.txt" want
    check "cut $cut, values joined" 1 --parts="$parts" --limit="$limit" ours.txt theirs.txt
done
# rounds ARGUMENT..: how many rounds it takes.
rounds() { { "$program" ours.txt theirs.txt --stats "$@" || true; } | sed -n 's/^rounds: *//p'; }
same 'rounds, with 2 parts and limit 2' <(echo 6) <(rounds --parts 2 --limit 2)
same 'rounds, with joined values' <(echo 6) <(rounds --parts=2 --limit=2)
same 'rounds, of options given twice' <(echo 6) <(rounds --parts 16 --limit 64 --parts 2 --limit=2)

# Byte limits report the same, in more rounds where messages are cut short. Those of the samples are short enough.
for bytes in 4096 18446744073709551615; do
    cp "$samples/expected.txt" want
    check "byte limit $bytes" 1 --bytes $bytes ours.txt theirs.txt
    same "rounds, with byte limit $bytes" <(rounds) <(rounds --bytes=$bytes)
done
# Records whose ids are hashes of their numbers, without each so many: COUNT.
numbered() { python3 -c 'import hashlib, sys
for i in range(3000):
    if i % int(sys.argv[1]):
        print(i, hashlib.sha256(b"%d" % i).hexdigest())' "$1"; }
numbered 7 >sevens.txt
numbered 5 >fives.txt
"$program" sevens.txt fives.txt >expected || true
# What --stats tells, in one line: ARGUMENT..
told() { { "$program" sevens.txt fives.txt --format tsv --stats "$@" 2>&1 >/dev/null || true; } | cut -f 2 | paste -sd ' '; }
read -r without _ < <(told)
for bytes in 4096 10000; do
    cp expected want
    check "byte limit $bytes, messages cut short" 1 sevens.txt fives.txt --bytes $bytes
    read -r rounds queries query_bytes replies reply_bytes < <(told --bytes $bytes)
    must "more rounds, with byte limit $bytes" [ "$rounds" -gt "$without" ]
    must "queries within $bytes" [ "$query_bytes" -le $((queries * bytes)) ]
    must "replies within $bytes" [ "$reply_bytes" -le $((replies * bytes)) ]
done

# Folding in: what a batch would do, told as the last line. The status is that of the two files.
grep -Ff theirs-lacking theirs.txt >batch.txt
head -n 3 batch.txt | sort -r | tr a-f A-F >three.txt
must 'the batch has what ours lack' [ "$(wc -l <batch.txt)" -eq 7 ]
: >empty.txt
for batch in 'batch.txt:7 records:0 ids' 'three.txt:3 records:4 ids' 'empty.txt:0 records:7 ids'; do
    IFS=: read -r file entering staying <<<"$batch"
    cat "$samples/expected.txt" - >want <<<"$entering of $file would enter ours.txt, $staying would stay needed"
    check "--fold $file" 1 --fold $file ours.txt theirs.txt
    cat "$samples/expected.txt" - >want <<<"$entering of standard input would enter ours.txt, $staying would stay needed"
    check "--fold - of $file" 1 ours.txt theirs.txt --fold=- <$file
done
for stats in '' --stats; do
    "$samples/make-expected.py" --format tsv $stats ours.txt theirs.txt >want 2>errors
    printf 'entering\t3\nstaying\t4\n' >>errors
    check "--fold: tsv $stats" 1 --fold three.txt ours.txt theirs.txt --format tsv $stats
    "$samples/make-expected.py" --format json $stats ours.txt theirs.txt | sed '$d' >want
    sed -i '$s/$/,/' want
    printf '"fold": {"entering": 3, "staying": 4}\n}\n' >>want
    check "--fold: json $stats" 1 --fold three.txt ours.txt theirs.txt --format json $stats
done
must 'the object with fold is JSON' python3 -m json.tool got /dev/null
check '--fold: quiet' 1 -q --fold three.txt ours.txt theirs.txt
printf 'nothing is missing at either end\n0 records of empty.txt would enter ours.txt, 0 ids would stay needed\n' >want
check '--fold: nothing is missing' 0 --fold empty.txt ours.txt ours.txt
same '--fold writes no file' <(printf '%s\n' batch.txt empty.txt three.txt) <(ls batch* empty* three* merged* 2>/dev/null)

# With --output the merged records are written, by time and id. The lines of a file without comments, in this order: FILE..
by_time() { cat "$@" | grep -v '^#' | tr A-F a-f | sort -k 1,1n -k 2,2; }
cat "$samples/expected.txt" - >want <<<'3 records of three.txt would enter ours.txt, 4 ids would stay needed'
check '--output' 1 --fold three.txt --output merged.txt ours.txt theirs.txt
same 'the merged records' <(by_time ours.txt three.txt) merged.txt
sed -n 4,7p batch.txt >rest.txt
check '--output, the rest' 1 -q --fold rest.txt --output=merged.txt merged.txt theirs.txt
same 'the merged records, in place' <(by_time ours.txt batch.txt) merged.txt
lacking merged.txt theirs.txt >merged-lacking
same 'what merged records lack' /dev/null <(comm -23 <(ids_of theirs.txt) <(ids_of merged.txt))
same 'what is left only there' ours-lacking merged-lacking
grep -vFf ours-lacking ours.txt >fewer.txt
check '--output, the union is theirs' 1 -q --fold batch.txt --output union.txt fewer.txt theirs.txt
same 'the union is theirs' <(by_time theirs.txt) union.txt
check '--output, nothing is missing' 0 -q --fold empty.txt --output same.txt union.txt theirs.txt
same 'the same records' union.txt same.txt
check '--output, empty files' 0 -q --fold empty.txt --output none.txt empty.txt empty.txt
same 'no records' /dev/null none.txt
for bytes in 4096 10000; do
    "$program" sevens.txt fives.txt --format tsv | sed -n 's/^theirs\t-\t//p' >needed || true
    grep -Ff needed fives.txt >batch-of-fives.txt
    check "--output with byte limit $bytes" 1 -q --bytes $bytes --fold batch-of-fives.txt --output fold-$bytes.txt sevens.txt fives.txt
    same "the union, with byte limit $bytes" <(by_time sevens.txt fives.txt | uniq) fold-$bytes.txt
done

# A file is replaced with its mode, over a link, and as a whole.
chmod 640 merged.txt
ln -s merged.txt link.txt
check '--output over a link' 1 -q --fold three.txt --output link.txt ours.txt theirs.txt
same 'the file behind the link' <(by_time ours.txt three.txt) merged.txt
must 'the link stays' [ -L link.txt ]
same 'the mode stays' <(echo 640) <(stat -c %a merged.txt)
cp merged.txt before.txt
# A file that cannot be written whole: the one before stays. Three blocks of 1,024 bytes are too few.
echo 'merged.txt: File too large (os error 27)' >errors
actual=0
(trap '' XFSZ; ulimit -f 3; exec "$program" -q --fold batch.txt --output merged.txt ours.txt theirs.txt 2>got-errors) || actual=$?
same 'a file too large: errors' errors got-errors
same 'a file too large: exit status' <(echo 2) <(echo "$actual")
same 'a file too large: the one before' before.txt merged.txt
rm errors
mkfifo fifo
for place in fifo:'not a regular file' .:'not a regular file' none/x:'No such file or directory (os error 2)' \
    good.txt/x:'Not a directory (os error 20)'; do
    echo "$place" | sed 's/:/: /' >errors
    check "--output ${place%%:*}" 2 -q --fold batch.txt --output "${place%%:*}" ours.txt theirs.txt
done
must 'a pipe stays' [ -p fifo ]

# Nothing is done that was not shown.
mkfifo closed
exec 5<>closed
exec 4>closed 5>&-
echo 'merged.txt: not written, because the report could not be' >errors
check_into 4 '--output, a closed pipe' 2 --fold batch.txt --output merged.txt ours.txt theirs.txt
check_into 4 '--output, a closed pipe: json' 2 --fold batch.txt --output merged.txt ours.txt theirs.txt --format json
rm errors
check_into 4 '--fold, a closed pipe' 1 --fold batch.txt ours.txt theirs.txt
check_into 4 '--output, a closed pipe: quiet' 1 -q --fold batch.txt --output closed.txt ours.txt theirs.txt
same 'quiet needs no output' <(by_time ours.txt batch.txt) closed.txt
exec 4>/dev/full
echo 'reconcile: standard output: No space left on device (os error 28)' >errors
check_into 4 '--output, a full disk' 2 --fold batch.txt --output merged.txt ours.txt theirs.txt
rm errors
exec 4>&-
same 'not shown, not done' before.txt merged.txt
same 'no part of a file is left' /dev/null <(ls | grep part)

# Batches that are refused, by the first line at fault; nothing is printed or written. FILE LINE MESSAGE
refused() {
    echo "$1:$2: $3" >errors
    check "refused: $1, $3" 2 --fold "$1" --output merged.txt ours.txt theirs.txt
    same "refused: $1: the file before" before.txt merged.txt
}
own=$(grep -n -m 1 -v '^#' ours.txt)
{ echo '# a comment'; cat three.txt; echo "${own#*:}"; echo "5 $a"; } >with-own.txt
refused with-own.txt 5 "the record stands in ours.txt:${own%%:*} already"
{ cat three.txt; echo "5 $a"; echo "4 $b"; } >unknown.txt
refused unknown.txt 4 'the id is not needed'
printf '5 %s\n' "$a" >first-unknown.txt
cat ours.txt >>first-unknown.txt
refused first-unknown.txt 1 'the id is not needed'
sed 's/^[0-9]*/1/' three.txt >other-time.txt
line=$(grep -n -i "$(head -n 1 three.txt | cut -d ' ' -f 2)" theirs.txt | cut -d : -f 1)
refused other-time.txt 1 "the id stands in theirs.txt:$line with another time"
echo "${own#*:}" | sed 's/^/1/' >our-other-time.txt
refused our-other-time.txt 1 "the id stands in ours.txt:${own%%:*} with another time"
echo '5 x' >bad-batch.txt
refused bad-batch.txt 1 'the id is not 64 hex digits'
echo 'missing.txt: No such file or directory (os error 2)' >errors
check 'a missing batch' 2 --fold missing.txt ours.txt theirs.txt
echo 'standard input:1: the id is not needed' >errors
check 'a refused batch from standard input' 2 -q --fold - ours.txt theirs.txt <<<"5 $a"
# One record more than a table can have: 1048576 records and one that they lack.
awk 'BEGIN { for (i = 1; i <= 1048576; i++) printf "%d %064x\n", i, i }' >most.txt
echo "5 $b" >one.txt
echo 'one.txt: with it most.txt would have more than 1048576 records' >errors
check 'more records than a table can have' 2 -q --fold one.txt --output merged.txt most.txt one.txt
sed -i '$d' most.txt
check 'as many records as a table can have' 1 -q --fold one.txt --output most.txt most.txt one.txt
must 'as many lines' [ "$(wc -l <most.txt)" -eq 1048576 ]
rm most.txt

# Equal files, in whatever order and spelling.
grep -v '^#' ours.txt | sort -r | tr a-f A-F | sed 's/$/\r/' >reordered.txt
printf '\n# the end, without a line feed' >>reordered.txt
cat >want <<'END'
rounds:         1
ours to theirs: 1 message, 339 bytes
theirs to ours: 1 message, 1 byte
nothing is missing at either end
END
check 'equal files' 0 --stats ours.txt reordered.txt
printf 'side\ttime\tid\n' >want
check 'equal files: tsv' 0 --format tsv ours.txt reordered.txt
printf '{\n"ours_only": [],\n"theirs_only": []\n}\n' >want
check 'equal files: json' 0 --format=json ours.txt reordered.txt
must 'the object of empty lists is JSON' python3 -m json.tool got /dev/null

# Empty files.
printf '# no records\n\n' >comments.txt
cat >want <<'END'
rounds:         1
ours to theirs: 1 message, 5 bytes
theirs to ours: 1 message, 5 bytes
nothing is missing at either end
END
check 'empty files' 0 empty.txt comments.txt --stats

cat >want <<END
ours only    5 $a
rounds:         1
ours to theirs: 1 message, 37 bytes
theirs to ours: 1 message, 5 bytes
1 record only in good.txt, 0 only in empty.txt
END
check 'the second file empty' 1 --stats good.txt empty.txt

cat >want <<END
theirs only  - $a
rounds:         1
ours to theirs: 1 message, 5 bytes
theirs to ours: 1 message, 37 bytes
0 records only in empty.txt, 1 only in good.txt
END
check 'the first file empty' 1 --stats empty.txt good.txt

# The smallest and the largest time; equal times, in the order of the ids.
printf '18446744073709551614 %s\n0 %s\n0 %s\n' "${a/00/33}" "$b" "$upper" >times.txt
cat >want <<END
ours only    0 $a
ours only    0 $b
ours only    18446744073709551614 ${a/00/33}
3 records only in times.txt, 0 only in empty.txt
END
check 'times and order' 1 times.txt empty.txt
printf 'side\ttime\tid\nours\t0\t%s\nours\t0\t%s\nours\t18446744073709551614\t%s\n' "$a" "$b" "${a/00/33}" >want
check 'times and order: tsv' 1 --format tsv times.txt empty.txt
largest() { python3 -c 'import json, sys; print(max(record["time"] for record in json.load(sys.stdin)["ours_only"]))'; }
same 'the largest time: json' <(echo 18446744073709551614) <({ "$program" --format json times.txt empty.txt || true; } | largest)

# Nothing but the status.
for options in -q --quiet '-q --stats' '--quiet --format json' '-q --format tsv --stats'; do
    read -r -a words <<<"$options"
    check "$options: a difference" 1 "${words[@]}" ours.txt theirs.txt
    check "$options: none" 0 "${words[@]}" ours.txt reordered.txt
    echo 'missing.txt: No such file or directory (os error 2)' >errors
    check "$options: trouble" 2 "${words[@]}" ours.txt missing.txt
done

# Standard input.
cat >want <<END
ours only    5 $a
1 record only in standard input, 0 only in empty.txt
END
check 'the first file from standard input' 1 - empty.txt <good.txt
cat >want <<END
theirs only  - $a
0 records only in empty.txt, 1 only in standard input
END
check 'the second file from standard input' 1 empty.txt -- - <good.txt
echo 'standard input:2: the id is not 64 hex digits' >errors
check 'a bad record from standard input' 2 good.txt - <<<$'\n5 x'
echo 'standard input: Is a directory (os error 21)' >errors
check 'a directory as standard input' 2 good.txt - <.
echo 'nothing is missing at either end' >want
cp good.txt ./-
check 'a file whose name is -' 0 ./- good.txt </dev/null
cp good.txt ./--quiet
echo 'nothing is missing at either end' >want
check 'a file whose name is an option' 0 -- --quiet good.txt

# A byte-order mark.
printf '\xef\xbb\xbf' | cat - ours.txt >marked.txt
echo 'nothing is missing at either end' >want
check 'a byte-order mark before a comment' 0 marked.txt ours.txt
printf '\xef\xbb\xbf' | cat - good.txt >marked.txt
echo 'nothing is missing at either end' >want
check 'a byte-order mark before a record' 0 good.txt marked.txt
bad 'two byte-order marks' 1 'the time is not a decimal number' < <(printf '\xef\xbb\xbf'; cat marked.txt)
bad 'a byte-order mark in another line' 2 'the time is not a decimal number' < <(echo; cat marked.txt)
bad 'UTF-16' 1 'the text is UTF-16; a record file is ASCII or UTF-8' < <(printf '\xff\xfe5\0 \0a\0\n\0')
bad 'UTF-16, high bytes first' 1 'the text is UTF-16; a record file is ASCII or UTF-8' < <(printf '\xfe\xff\0005\0 \0a\0\n')

# An id under two times in the two files together.
c=${a/00/c0}
printf '# ours\n5 %s\n6 %s\n7 %s\n' "$a" "$b" "$c" >first.txt
printf '7 %s\n\n8 %s\n4 %s\n' "$c" "$b" "$a" >second.txt
echo 'second.txt:3: the id stands in first.txt:3 with another time' >errors
check 'an id under two times in two files' 2 first.txt second.txt
echo 'first.txt:2: the id stands in second.txt:4 with another time' >errors
check 'an id under two times, swapped files' 2 second.txt first.txt
echo 'standard input:3: the id stands in first.txt:3 with another time' >errors
check 'an id under two times, standard input' 2 --quiet first.txt - <second.txt
echo 'second.txt:3: the id stands in standard input:3 with another time' >errors
check 'an id under two times, standard input first' 2 - second.txt <first.txt

# Bad files.
fields='not a time and an id with one space between them'
bad 'one field' 2 "$fields" <<<$'# comment\n5'
bad 'three fields' 1 "$fields" <<<"5 $a x"
bad 'two spaces' 1 "$fields" <<<"5  $a"
bad 'a tab' 1 "$fields" <<<"5"$'\t'"$a"
bad 'a space before' 3 "$fields" <<<$'\n\n'" 5 $a"
bad 'no time' 1 "$fields" <<<" $a"
bad 'no id' 1 "$fields" <<<'5 '
bad 'a space behind' 1 "$fields" <<<"5 $a "
bad 'time a word' 2 'the time is not a decimal number' <<<"1 $a"$'\n'"five $b"
bad 'time with a sign' 1 'the time is not a decimal number' <<<"-5 $a"
bad 'time 2^64 - 1' 1 'the time is above 18446744073709551614 (2^64 - 2)' <<<"18446744073709551615 $a"
bad 'time of many digits' 1 'the time is above 18446744073709551614 (2^64 - 2)' <<<"99999999999999999999999999 $a"
bad 'id too short' 1 'the id is not 64 hex digits' <<<"5 ${a%f}"
bad 'id too long' 1 'the id is not 64 hex digits' <<<"5 ${a}f"
bad 'id with another letter' 1 'the id is not 64 hex digits' <<<"5 ${a/a/g}"
bad 'a record twice' 4 'the record stands in line 2 already' <<<$'\n'"5 $a"$'\n'"6 $b"$'\n'"05 $upper"
bad 'an id under two times' 3 'the id stands in line 1 already, with another time' <<<"5 $a"$'\n'"6 $b"$'\n'"7 $a"
bad 'the first fault counts' 2 'the record stands in line 1 already' <<<"5 $a"$'\n'"5 $a"$'\n'"x"
bad 'no text' 3 'the time is not a decimal number' < <(printf '# \xff\n5 %s\n\xc3\x28 %s\n' "$a" "$b")
bad 'no text in the id' 1 'the id is not 64 hex digits' < <(printf '5 \xff%s\n' "${a#0}")
bad 'zero bytes' 1 "$fields" < <(head -c 500 /dev/zero)
bad 'a line without end' 2 'the line is longer than 1000 bytes' < <(echo '#'; head -c 1000000 /dev/zero)

echo '/dev/zero:1: the line is longer than 1000 bytes' >errors
check 'a file without end' 2 /dev/zero good.txt

# One record more than a table can have, read from a pipe.
echo '/dev/stdin:1048577: more than 1048576 records' >errors
check 'too many records' 2 /dev/stdin good.txt < <(awk 'BEGIN { for (i = 0; i <= 1048576; i++) printf "%d %064x\n", i, i }')

# Files that cannot be read.
echo 'missing.txt: No such file or directory (os error 2)' >errors
check 'a missing file' 2 missing.txt good.txt
echo 'missing.txt: No such file or directory (os error 2)' >errors
check 'a missing second file' 2 good.txt missing.txt
echo '.: Is a directory (os error 21)' >errors
check 'a directory' 2 good.txt .
if [ "$(id -u)" -ne 0 ]; then
    : >closed.txt
    chmod 0 closed.txt
    echo 'closed.txt: Permission denied (os error 13)' >errors
    check 'a file without permission' 2 closed.txt good.txt
fi

# Arguments.
wrong 'two files are needed, not 0'
wrong 'two files are needed, not 1' good.txt
wrong 'two files are needed, not 3' good.txt good.txt good.txt
wrong 'unknown option "--part"' good.txt good.txt --part 2
wrong 'unknown option "--part"' good.txt good.txt --part=2
wrong 'unknown option "-x"' -x good.txt good.txt
wrong 'two files are needed, not 3' good.txt -- --help --version
wrong 'only one of the files can be - (standard input)' - -
wrong '--quiet takes no value' good.txt good.txt --quiet=yes
wrong '--stats takes no value' good.txt good.txt --stats=
wrong '--format needs text, tsv or json' good.txt good.txt --format
wrong '--format needs text, tsv or json, not "xml"' good.txt good.txt --format xml
wrong '--format needs text, tsv or json, not ""' good.txt good.txt --format=
wrong '--parts needs a number' good.txt good.txt --parts
wrong '--limit needs a number, not "good.txt"' --limit good.txt good.txt
wrong '--parts needs a number, not ""' good.txt good.txt --parts ''
wrong '--parts needs a number, not "-2"' good.txt good.txt --parts -2
wrong '--limit needs a number, not "99999999999999999999"' good.txt good.txt --limit 99999999999999999999
wrong '--parts must be 2 to 64, not 1' good.txt good.txt --parts 1
wrong '--parts must be 2 to 64, not 65' good.txt good.txt --parts 65 --limit 65
wrong '--limit must be 16 (the parts) to 4096, not 15' good.txt good.txt --limit 15
wrong '--limit must be 16 (the parts) to 4096, not 4097' good.txt good.txt --limit 4097
wrong '--bytes needs a number' good.txt good.txt --bytes
wrong '--bytes needs a number, not "4k"' good.txt good.txt --bytes=4k
wrong '--bytes must be at least 4096, not 4095' good.txt good.txt --bytes 4095
wrong '--bytes must be at least 4096, not 0' good.txt good.txt --bytes 0
wrong '--fold needs a file' good.txt good.txt --fold
wrong '--fold needs a file' good.txt good.txt --fold=
wrong '--output needs a file' good.txt good.txt --fold good.txt --output
wrong '--output needs --fold' good.txt good.txt --output x
wrong '--output needs a file, not standard output' good.txt good.txt --fold good.txt --output -
wrong 'only one of the files can be - (standard input)' - good.txt --fold -
wrong 'two files are needed, not 1' --fold good.txt good.txt

# Help and version.
"$program" --help >help
same 'help' <(echo 'usage: reconcile [OPTION..] OURS THEIRS') <(head -n 1 help)
same 'help, in 80 columns' /dev/null <(grep -E '.{81}' help)
for word in -q --quiet --stats --format --parts --limit --bytes --fold --output -h --help -V --version ' -- ' text tsv json ' - ' 'exit status is 0'; do
    must "help on $word" grep -qFe "$word" help
done
for option in -h --help '--help --parts'; do
    read -r -a words <<<"$option"
    cp help want
    check "$option" 0 "${words[@]}"
done
sed -n 's/^version = "\(.*\)"$/reconcile \1/p' "$folder/Cargo.toml" >version
for option in -V --version; do
    cp version want
    check "$option" 0 $option
done

# The manual page has the version, and every option that the help has.
same 'the version of the manual page' version <(sed -n 's/^\.Os //p' "$manual")
sed -n '/^  -/ s/   .*//p' help | grep -oE -- '-[A-Za-z]+' | tr -d - >options
must 'the options that the help has' [ "$(wc -l <options)" -ge 10 ]
while read -r option; do
    must "the manual page on $option" grep -qE "^\.It .*Fl $option( |\$)" "$manual"
done <options

# A reader that closes the output early: no message; 1 if something is missing, and otherwise 2. Many records fill the pipe.
awk 'BEGIN { for (i = 0; i < 10000; i++) printf "%d %064x\n", i, i }' >many.txt
for format in text tsv json; do
    "$program" --format $format many.txt empty.txt >whole || true
    status=0
    "$program" --format $format many.txt empty.txt 2>got-errors | head -n 1 >got || status=$?
    same "head: $format" <(head -n 1 whole; echo 1) <(cat got got-errors; echo "$status")
done
# A pipe whose only reader is gone before the program starts.
mkfifo pipe
exec 5<>pipe
exec 4>pipe 5>&-
check_into 4 'a closed pipe: a difference' 1 ours.txt theirs.txt
check_into 4 'a closed pipe: none' 2 ours.txt reordered.txt
check_into 4 'a closed pipe: none, json' 2 --format json ours.txt reordered.txt
check_into 4 'a closed pipe: --help' 2 --help
check_into 4 'a closed pipe: --quiet' 0 --quiet ours.txt reordered.txt
exec 4>&-

# Output that cannot be written.
exec 4>/dev/full
echo 'reconcile: standard output: No space left on device (os error 28)' >errors
check_into 4 'a full disk: a difference' 2 ours.txt theirs.txt
check_into 4 'a full disk: none' 2 ours.txt reordered.txt
check_into 4 'a full disk: json' 2 --format json ours.txt theirs.txt
check_into 4 'a full disk: tsv' 2 --format tsv --stats ours.txt theirs.txt
check_into 4 'a full disk: --help' 2 --help
check_into 4 'a full disk: --version' 2 --version
rm errors
check_into 4 'a full disk, and nothing to write' 0 --quiet ours.txt reordered.txt
exec 4>&-
status=0
"$program" good.txt missing.txt >got 2>/dev/full || status=$?
same 'errors that cannot be written' <(echo 2) <(cat got; echo "$status")
status=0
"$program" --format tsv --stats ours.txt reordered.txt >got 2>/dev/full || status=$?
same 'counts that cannot be written' <(printf 'side\ttime\tid\n2\n') <(cat got; echo "$status")

# On a terminal, a line on standard error says how far the work has come, unless only the status is wanted.
on_terminal() { script -qec "$(printf '%q ' "$program" "$@") >got" /dev/null </dev/null | tr '\r' '\n' | sed 's/ *$//; /^$/d'; }
printf 'reading records\nopening\nround 1: 5 bytes exchanged, 0 records reported\nround 1: 10 bytes exchanged, 0 records reported\n' >want
same 'progress on a terminal' want <(on_terminal empty.txt empty.txt)
same 'an error on a terminal' <(printf 'reading records\nmissing.txt: No such file or directory (os error 2)\n') <(on_terminal empty.txt missing.txt)
same 'no progress with --quiet' /dev/null <(on_terminal -q empty.txt empty.txt)

echo "ok: $passed checks of reconcile"
