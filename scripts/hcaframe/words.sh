# Help, options, words that are wrong, and how they are said.
# -- help
for word in --help -h help; do
    status 0 "help by $word" $word
    for command in encode read write check header inspect wav list convert bank; do says out "usage: hcaframe $command"; done
    says out 'Status: 0 all is well'
    says out 'FILE.tmp-NUMBER'
    says out 'A closed pipe ends the text, not the work.'
    good
done
for command in encode read write check header inspect wav list convert bank; do
    status 0 "help of $command" "$command" --help
    says out "usage: hcaframe $command"
    good
done
status 0 'help anywhere' check $layout --loud --frames frames.hca -h
says out 'usage: hcaframe check'
good
status 2 'a value that looks like a word for help' check $layout --frames -h
says err 'hcaframe: -h: No such file or directory'
good
status 2 'a value that looks like the other word for help' encode $layout --spectra --help --out x.hca
says err 'hcaframe: --help: No such file or directory'
absent x.hca
good
cp spectra.f32 ./-h
status 0 'a file whose name is -h' encode $layout --spectra -h --out x.hca
same frames.hca x.hca
rm x.hca
good
status 2 'an unknown word behind a value' check $layout --frames -h --loud
says err 'hcaframe: --loud is an unknown word'
good
status 0 'help of an unknown command' mix --help
says out 'usage: hcaframe encode'
good
status 0 'version' --version
version=$(sed -n 's/^version = "\(.*\)"/\1/p' "$here/rust/Cargo.toml")
[ "$(cat out)" = "hcaframe $version, library $version" ] || fail "$name: another version than the Rust crate's"
good

# -- options and their values
status 0 'option=value' encode --kinds=D --base=40 --stereo 0 --total=60 --frame-size=200 --spectra=spectra.f32 --out=again.hca
same frames.hca again.hca
good
status 0 'a layout file by ='  check --layout=layout.txt --frames=frames.hca
says out '3 good, 0 refused'
good
echo '--kinds=D --base=40 --stereo=0 --total=60 --frame-size=200' >equals.txt
status 0 'a layout file with =' check --layout equals.txt --frames frames.hca
good

# -- words
status 2 'no command'
says err 'usage: hcaframe'
good
status 2 'an unknown command' mix
says err 'mix is an unknown command'
good
status 2 'an unknown word' check $layout --frames frames.hca --loud
says err '--loud is an unknown word'
says err 'usage: hcaframe check'
good
status 2 'a word of another command' check $layout --frames frames.hca --spectra spectra.f32
says err '--spectra is not for this command'
good
status 2 'a word twice' check $layout --base 40 --frames frames.hca
says err '--base is given twice'
good
status 2 'a word in the layout file and on the command line' check --layout layout.txt --total 60 --frames frames.hca
says err '--total is given twice'
good
status 2 'a word that is missing' check --kinds D --base 40 --stereo 0 --total 60 --frames frames.hca
says err '--frame-size is missing'
good
status 2 'a value that is missing' check $layout --frames
says err '--frames: its value is missing'
good
status 2 'not a number' check --kinds D --base x40 --stereo 0 --total 60 --frame-size 200 --frames frames.hca
says err '--base: x40 is not a number'
good
status 2 'another letter' check --kinds DX --base 40 --stereo 0 --total 60 --frame-size 200 --frames frames.hca
says err '--kinds: DX has another letter'
good
status 2 'too many channels' check --kinds DDDDDDDDDDDDDDDDD --base 40 --stereo 0 --total 60 --frame-size 200 --frames frames.hca
says err 'more than 16 letters'
good
limit() {
    status 2 "outside the limits: $*" check --kinds D --base $1 --stereo $2 --total $3 --frame-size $4 --frames frames.hca
    says err "hcaframe: refusal 1: the layout is outside its limits: $5"
    good
}
limit 40 30 60 200 '--base and --stereo are 70 together, above --total, which is 60'
limit 61 0 60 200 '--base is 61, above --total, which is 60'
limit 0 0 0 200 '--total is 0; it is 1 to 128'
limit 40 0 129 200 '--total is 129; it is 1 to 128'
limit 40 0 60 7 '--frame-size is 7; it is 8 to 65535'
limit 40 0 60 65536 '--frame-size is 65536; it is 8 to 65535'
status 2 'a bare command' encode
says err 'hcaframe: --kinds is missing; a file with the words of a layout is --layout FILE'
good
status 2 'quiet with a value' check $layout --quiet=yes --frames frames.hca
says err 'hcaframe: --quiet has no value'
good
printf '# a comment\n--kinds D --out x\n' >bad.txt
status 2 'a file word in a layout file' check --layout bad.txt --frames frames.hca
says err 'hcaframe: bad.txt, line 2: --out is not for this command or this file'
good
printf '# a comment\n\n--kinds D --base\n40x\n' >bad.txt
status 2 'not a number in a layout file' check --layout=bad.txt --frames frames.hca
says err 'hcaframe: bad.txt, line 4: --base: 40x is not a number'
good
printf -- '--kinds D\n--loud 3\n' >bad.txt
status 2 'an unknown word in a layout file' check --layout bad.txt --frames frames.hca
says err 'hcaframe: bad.txt, line 2: --loud is an unknown word'
good
printf -- '--kinds D\n--base' >bad.txt
status 2 'a value that is missing in a layout file' check --layout bad.txt --frames frames.hca
says err 'hcaframe: bad.txt, line 2: --base: its value is missing'
good
printf -- '--kinds D\n' >bad.txt
status 2 'a word that is missing in a layout file' check --layout bad.txt --frames frames.hca
says err 'hcaframe: --base is missing'
good
printf -- '--kinds D\n# %08000d\n--base 40 --stereo 0 --total 60 --frame-size 200\n' 0 >long.txt
status 0 'a layout file with a long comment' check --layout long.txt --frames frames.hca
good
status 2 'a layout file that never ends' check --layout /dev/zero --frames frames.hca
says err 'hcaframe: /dev/zero: it has a line of 65536 bytes, so it is no layout'
good
mkdir folder
status 2 'a folder as the layout file' check --layout folder --frames frames.hca
says err 'hcaframe: folder: Is a directory'
good

# -- control characters in what is said
odd=$(printf 'two\nlines\033[2J')
status 2 'a name with control characters' check $layout --frames "$odd"
[ "$(cat err)" = 'hcaframe: two\nlines\u{1b}[2J: No such file or directory' ] || fail "$name: another message"
good
status 2 'an unknown word with control characters' check $layout --frames frames.hca "--$odd"
says err 'hcaframe: --two\nlines\u{1b}[2J is an unknown word'
[ "$(wc -l <err)" -eq 2 ] || fail "$name: more than two lines"
good
printf -- '--kinds D --ba\001se 40\n' >"$odd"
status 2 'a layout file whose name has control characters' check --layout "$odd" --frames frames.hca
says err 'hcaframe: two\nlines\u{1b}[2J, line 1: --ba\u{1}se is an unknown word'
good
status 2 'a number with control characters' check --kinds D --base "$odd" --stereo 0 --total 60 --frame-size 200 --frames frames.hca
says err 'hcaframe: --base: two\nlines\u{1b}[2J is not a number'
good
printf 'x' >"$(printf 'not\377text')"
status 2 'a name that is no text' check $layout --frames "$(printf 'not\377text')"
says err 'hcaframe: not\xfftext: 1 bytes are no whole number of frames'
good
