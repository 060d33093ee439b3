# A folder of takes. The larger trial, with a kill in the middle and the times, is scripts/bank-trial.sh.
mkdir -p in/sub/deep in/none
cp "$here/sample/line.wav" in/a.wav
cp "$here/sample/pair.wav" in/sub/B.WAV
cp "$here/sample/line.wav" in/sub/deep/c.d.wav
tail -c 40000 "$here/sample/line.wav" >tail.raw
{ head -c 40 "$here/sample/line.wav"; unhex 409c0000; cat tail.raw; } >in/e.wav
echo text >in/notes.txt
rate='--bitrate 48000'
# told TEXT..: standard output has each line
told() {
    for line in "$@"; do grep -q -x -F -e "$line" out || fail "$name: no line is: $line"; done
}
# files FOLDER: all that is there, but for the words
files() {
    (cd "$1" && find . -type f ! -name '*.words' | LC_ALL=C sort | tr '\n' ' ')
}
all='./a.hca ./a.list ./e.hca ./e.list ./sub/B.hca ./sub/B.list ./sub/deep/c.d.hca ./sub/deep/c.d.list '
# equal FOLDER: its files are those of the first run
equal() {
    [ "$(files "$1")" = "$all" ] || fail "$name: other files: $(files "$1")"
    for file in $all; do same one/$file "$1/$file"; done
}

status 0 'bank' bank --in in --out one $rate --report report.tsv
told 'done     4' 'skipped  0' 'refused  0' 'frames   166' 'starved  0 takes, of which bands were removed'
silent err
[ "$(files one)" = "$all" ] || fail "$name: other files"
good
name='the files are those of convert'
for take in a.wav e.wav sub/B.WAV sub/deep/c.d.wav; do
    "$program" convert in/$take $rate --out x.hca --list x.list --quiet || fail "$name: $take"
    same x.hca one/${take%.*}.hca
    same x.list one/${take%.*}.list
done
rm x.hca x.list
good
name='the report'
[ "$(head -n 1 report.tsv)" = "$(printf 'name\tstate\tframes\tbytes\tlevel\tpairs\ttext')" ] || fail "$name: another first row"
[ "$(sed -n 2p report.tsv)" = "$(printf 'a.wav\tdone\t47\t13162\t174\t0\t')" ] || fail "$name: another row"
[ "$(cut -f 1,2 report.tsv | tr '\t\n' ': ')" = 'name:state a.wav:done e.wav:done sub/B.WAV:done sub/deep/c.d.wav:done ' ] || fail "$name: other rows"
good
for jobs in 1 2 7; do
    status 0 "$jobs at a time" bank --in in --out jobs-$jobs $rate --jobs $jobs --quiet
    silent out
    equal jobs-$jobs
    good
done

# -- what is skipped
status 0 'all are skipped' bank --in in --out one $rate --report -
says err 'skipped  4'
says out "$(printf 'a.wav\tskipped\t47\t13162\t174\t0\t')"
good
touch in/a.wav
rm one/e.list
status 0 'a newer take, and one whose list is gone' bank --in in --out one $rate
told 'done     2' 'skipped  2' 'frames   166'
equal one
good
status 0 'every take by force' bank --in in --out one $rate --force
told 'done     4' 'skipped  0'
good
echo more >>one/a.hca
status 0 'an output that was changed' bank --in in --out one $rate
told 'done     1' 'skipped  3'
equal jobs-1
same one/a.hca jobs-1/a.hca
good
status 0 'other words' bank --in in --out one --bitrate 32000 --report report.tsv
told 'done     4' 'skipped  0'
says out 'anew     4 of them, made with other words before: hcaframe'
says report.tsv '--bitrate 48000'
good
status 0 'the words of before' bank --in in --out one $rate
says out 'anew     4 of them, made with other words before: hcaframe'
equal jobs-1
good
rm one/bank.words
status 0 'no words are kept' bank --in in --out one $rate
told 'done     4' 'skipped  0'
good
printf '1.0+2\t3.0+4\tcut' >>one/bank.words
touch in/a.wav
status 0 'a line of the words is cut' bank --in in --out one $rate
told 'done     1' 'skipped  3'
status 0 'and the one behind it is whole' bank --in in --out one $rate
told 'done     0' 'skipped  4'
good

# -- what a run that was ended left behind
touch one/a.hca.tmp-123 one/sub/B.list.tmp-4294967295 one/bank.words.tmp-7 one/other.hca.tmp-5 one/a.hca.tmp-x
status 0 'temporary files' bank --in in --out one $rate
told 'left behind by a run before, and removed: 3' 'skipped  4'
[ "$(find one -name '*tmp-*' | LC_ALL=C sort | tr '\n' ' ')" = 'one/a.hca.tmp-x one/other.hca.tmp-5 ' ] || fail "$name: another one is left"
rm one/*tmp-*
good

# -- parts
status 0 'the first part' bank --in in --out parts $rate --shard 1/2
told 'done     2'
[ "$(files parts)" = './a.hca ./a.list ./sub/B.hca ./sub/B.list ' ] || fail "$name: other takes"
status 0 'the second part' bank --in in --out parts $rate --shard=2/2
told 'done     2'
equal parts
status 0 'all parts are known' bank --in in --out parts $rate
told 'done     0' 'skipped  4'
status 0 'a part without a take' bank --in in --out parts $rate --shard 9/9
told 'done     0' 'skipped  0'
good
for piece in 0/2 3/2 1 1/0 a/b 1/2/3; do
    status 2 "the part $piece" bank --in in --out x $rate --shard $piece
    says err "--shard: $piece is not K/N with K from 1 to N"
    absent x
    good
done

# -- takes that are refused, and files that fail
cp -r in bad
echo text >bad/b.wav
mkdir -p made/e.hca
status 2 'a refused take, and an output that is a folder' bank --in bad --out made $rate --report report.tsv
told 'done     3' 'refused  2'
says err 'hcaframe: b.wav: refusal 22: it is no WAV file'
says err 'hcaframe: e.wav: --out: made/e.hca is a folder'
says report.tsv "$(printf 'b.wav\trefused\t\t\t\t\trefusal 22: ')"
says report.tsv "$(printf 'e.wav\tfailed\t\t\t\t\t--out: ')"
[ ! -e made/b.hca ] && [ ! -e made/e.list ] || fail "$name: a file is there"
rmdir made/e.hca
status 1 'a refused take' bank --in bad --out made $rate --quiet
silent out
says err 'refusal 22'
equal made
[ -z "$(find made -name '*tmp-*')" ] || fail "$name: a file is left behind"
good
ln -s nowhere bad/gone.wav
status 2 'a link to nowhere' bank --in bad --out made $rate
says err 'hcaframe: gone.wav: reading: No such file or directory'
told 'skipped  4' 'refused  2'
rm bad/gone.wav bad/b.wav
good
mkfifo bad/pipe.wav
status 2 'a pipe' bank --in bad --out made $rate
says err 'hcaframe: pipe.wav: it is no regular file'
rm bad/pipe.wav
good
ln -s . bad/loop
ln -s ../../in/a.wav bad/sub/linked.wav
status 0 'links' bank --in bad --out made $rate
told 'done     1' 'skipped  4'
same made/sub/linked.hca made/a.hca
rm bad/loop bad/sub/linked.wav
good
status 0 'starved takes, worst first' bank --in bad --out low --bitrate 6000
told 'starved  4 takes, of which bands were removed'
[ "$(tail -n 4 out | tr -s ' \n' ' ')" = ' 4 sub/B.WAV 3 a.wav 3 sub/deep/c.d.wav 2 e.wav ' ] || fail "$name: another order"
good
status 1 'frames too small' bank --in bad --out low --bitrate 1500
says err 'hcaframe: a.wav: frame 0: refusal 5 '
told 'refused  4'
good
{ head -c 40 in/a.wav; printf '\377\377\377\177'; tail -c +45 in/a.wav; } >bad/a.wav
status 0 'a take that ends early' bank --in bad --out made $rate --report report.tsv
says err 'hcaframe: a.wav: the data chunk claims 2147483647 bytes'
says report.tsv 'the data chunk claims 2147483647 bytes'
same made/a.hca one/a.hca
good
name='names that are no words' want=0
odd=$(printf 'in\tname\\ \377.wav')
mkdir odd
cp in/a.wav "odd/$odd"
"$program" bank --in odd --out odd $rate --report report.tsv >out 2>err
ended $?
same "odd/${odd%.wav}.hca" one/a.hca
says report.tsv 'in\tname\ \xff.wav'
status 0 'in their own folder, and skipped' bank --in odd --out odd $rate
told 'skipped  1'
good

# -- refused before the start
cp in/a.wav in/a.WAV
status 2 'two takes with one output' bank --in in --out x $rate
says err 'hcaframe: a.WAV and a.wav have one output name, a.hca'
absent x
status 2 'the same, by parts' bank --in in --out x $rate --shard 2/2
says err 'have one output name'
absent x
rm in/a.WAV
good
status 2 'no takes' bank --in in/none --out x $rate
says err 'hcaframe: --in: in/none has no file whose name ends with .wav'
absent x
good
status 2 'no folder' bank --in none --out x $rate
says err 'hcaframe: none: No such file or directory'
absent x
good
status 2 'a file as the folder' bank --in in/a.wav --out x $rate
says err 'hcaframe: in/a.wav: Not a directory'
status 2 'a file as the output folder' bank --in in --out in/a.wav $rate
says err 'hcaframe: in/a.wav: '
good
for file in in/a.wav x.HCA y.list one/bank.words; do
    status 2 "the report as $file" bank --in in --out x $rate --report $file
    says err "--report: $file has the name of one of a bank's files"
    absent x
    good
done
for jobs in 0 1025; do
    status 2 "$jobs jobs" bank --in in --out x $rate --jobs $jobs
    says err "--jobs is $jobs; it is 1 to 1024"
    good
done
status 2 'a bit rate in kbit/s' bank --in in --out x --bitrate 48
says err '--bitrate is 48; it is 1000 to 4294967295, in bits a second'
absent x
good
