#!/usr/bin/env bash
# The desk tool's sheet of a year: logs that can't be read, names of any kind, parts that are added, what isn't a sheet, and totals
# past 32 bits.
. tests/desk_try.sh

# A year's sheet: a state and a name in each row, and a row for each log, whatever it is.
printf 'RIFF....WAVEfmt ' > sound.log
odd=$'a "b",\n c.log'
cp small.log "$odd"
mkdir locked
ends 3 "nosuch.log: No such file or directory" "$desk" sheet small.log nosuch.log torn.log sound.log empty.log locked "$odd"
cat > expected.csv << 'CSV'
log,sound,missing,refused 8,refused 9,refused 15,refused 20,marked 0,marked 1,marked 2,missing per million,state,file
0,20,0,0,0,0,0,240,0,0,0,,"small.log"
1,0,0,0,0,0,0,0,0,0,0,unreadable,"nosuch.log"
2,20,0,0,0,0,0,240,0,0,0,broken 12 at 20,"torn.log"
3,0,0,0,0,0,0,0,0,0,0,refused 2,"sound.log"
4,0,0,0,0,0,0,0,0,0,0,refused 11,"empty.log"
5,0,0,0,0,0,0,0,0,0,0,unreadable,"locked"
6,20,0,0,0,0,0,240,0,0,0,,"a ""b"",
 c.log"
all,60,0,0,0,0,0,720,0,0,0,,
CSV
diff expected.csv printed || fail "the sheet of logs that can't be read"
python3 - printed "$odd" << 'PY' || fail "the sheet isn't a table"
import csv, sys
rows = list(csv.reader(open(sys.argv[1], newline=''), strict=True))
assert all(len(row) == 13 for row in rows) and rows[7][-2:] == ['', sys.argv[2]] and rows[-1][-2:] == ['', '']
PY
ends 3 "No such file or directory" "$desk" sheet --plain small.log nosuch.log
[ ! -s printed ] || fail "a plain sheet has no place for a log that can't be read"
logs=(small.log torn.log sound.log empty.log "$odd")
ends 2 "all,60," "$desk" sheet -q --plain "${logs[@]}"
[ ! -s said ] || fail "a quiet sheet speaks"
cp printed plain.csv
"$desk" sheet -q "${logs[@]}" > new.csv || [ $? = 2 ]
python3 - << 'PY' || fail "a plain sheet has other figures"
import csv
plain, new = (list(csv.reader(open(name, newline=''), strict=True)) for name in ('plain.csv', 'new.csv'))
assert plain == [row[:-2] for row in new]
PY
# Octet for octet what the program prints, which takes no log that can't be read and no more than 4,096.
as_program() { # LOG..
    if [ ! -x "$here/target/bin/sheet" ]; then return; fi
    "$here/target/bin/sheet" "$@" > theirs 2> /dev/null # a program always ends with 0
    "$desk" sheet -q --plain "$@" > ours 2> /dev/null || [ $? -le 3 ] || fail "a plain sheet ended with a signal"
    same theirs ours "a plain sheet isn't that of the program"
}
as_program "${logs[@]}"
as_program in.log nosuch.log
mapfile -t many < <(yes small.log | head -n 4097)
as_program "${many[@]:1}"
as_program "${many[@]}"

# The sheets of parts, one of which has a log that can't be read: no row moves, and add says so.
parts() {
    local part
    for part in "small.log $1" "torn.log in.log" "empty.log"; do
        # shellcheck disable=SC2086
        "$desk" sheet -q $part 2> /dev/null || [ $? -le 3 ] || fail "the sheet of a part ended with a signal"
    done
}
parts nosuch.log > parts.csv
ends 2 "3 of 5 rows have a state" "$desk" add parts.csv
"$desk" sheet -q small.log nosuch.log torn.log in.log empty.log 2> /dev/null > once.csv || [ $? = 3 ]
same once.csv printed "the sheet of parts"
ends 2 "5 rows came, and --logs says 6" "$desk" add --logs 6 parts.csv
ends 0 "all,60," "$desk" add --logs 3 <("$desk" sheet small.log small.log) <("$desk" sheet small.log)
ends 2 "2 rows came, and --logs says 3" "$desk" add --logs 3 <("$desk" sheet small.log small.log)
{ cat plain.csv && cat new.csv && sed 's/$/\r/' plain.csv; } > mixed.csv
ends 2 "3 of 15 rows have a state" "$desk" add mixed.csv
"$desk" add mixed.csv 2> /dev/null > once.csv || [ $? = 2 ]
ends 2 "3 of 15 rows have a state" "$desk" add - < once.csv
same once.csv printed "the sheet of a sheet"
name=$(printf '%05000d' 0)
sed "s/\"small.log\"/\"$name\"/" <("$desk" sheet small.log) > name.csv
ends 0 "$name" "$desk" add name.csv
same name.csv printed "a name of 5,000 letters"

# What isn't a sheet: quotes that aren't closed, states that there aren't, a state of all, figures without room, octets of zero.
wrong() { # LINE EDIT: the edited sheet isn't one, and this is its first wrong line
    "$desk" sheet small.log "$odd" | sed -z "$2" > wrong.csv
    ends 3 "wrong.csv: line $1 isn't that of a sheet" "$desk" add wrong.csv
}
wrong 2 's/small.log"/small.log/'
wrong 2 's/,,"small/,well,"small/'
wrong 2 's/,,"small/,refused ,"small/'
wrong 2 's/,,"small/,broken 12,"small/'
wrong 2 's/"small.log"/"small.log",/'
wrong 2 's/"small.log"/"small.log" /'
wrong 2 's/"small.log"/small"log/'
wrong 2 's/,20,/,99999999999999999999,/'
wrong 2 's/small/sm\x00all/'
wrong 5 's/,,\n$/,unreadable,\n/'
wrong 5 's/all,40/all,41/'
wrong 3 's/1,20/2,20/'

# Totals past 32 bits, more rows than 4,096, and a total past 64.
plain_sheet() { # SOUND: a plain sheet of one log
    printf 'log,sound,missing,refused 8,refused 9,refused 15,refused 20,marked 0,marked 1,marked 2,missing per million\n'
    printf '%s,'"$1"',1,0,0,0,0,0,0,0,0\n' 0 all
}
plain_sheet 4294967295 > most.csv
ends 0 "all,8589934590,2,0,0,0,0,0,0,0,0,," "$desk" add most.csv most.csv
plain_sheet 18446744073709551615 > full.csv
ends 0 "all,18446744073709551615,1,0," "$desk" add full.csv
ends 2 "a total passes 18,446,744,073,709,551,615" "$desk" add full.csv full.csv
[ ! -s printed ] || fail "a sheet without its total"
sed 's/,18446744073709551615,1,\(.*\),0$/,18446744073709551615,18446744073709551615,\1,500000/' full.csv > half.csv
ends 0 "all,18446744073709551615,18446744073709551615,0,0,0,0,0,0,0,500000,," "$desk" add half.csv
ends 0 "all,81940,0," "$desk" sheet -q "${many[@]}"
[ "$(wc -l < printed)" = 4099 ] || fail "4,097 rows"
cp printed rows.csv
ends 0 "all,163880,0," "$desk" add --logs 8194 rows.csv rows.csv
# A log alone whose totals pass 32 bits.
sources=()
for name in sheet figures json readback pieces whole spool output place say limits format progress; do
    sources+=("$here/desk/$name.c")
done
gcc -std=c11 -D_GNU_SOURCE -O1 -Wall -Wextra -Werror -I"$here/include" -I"$here/desk" -Wl,--wrap=rime_figures_take \
    "$here/tests/desk_total.c" "${sources[@]}" "$lib/librimesatchel.a" -ljansson -lm -o total
ends 2 "in.log: its sheet is refused 19: a total would pass 4,294,967,295" ./total small.log in.log torn.log
sed -n 3p printed | grep -qx '1,0,0,0,0,0,0,0,0,0,0,refused 19,"in.log"' || fail "the row of a log that is too long alone"
grep -q '^all,20,' printed || fail "a log that is too long alone counts"
ends 2 "sheet refused 19" ./total --plain small.log in.log
echo "desk: sheets of a year"
