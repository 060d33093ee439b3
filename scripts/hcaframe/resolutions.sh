# The lowest and the highest resolution: words of a layout that may be left out, judged by every command that takes them.
two='--kinds D --base 2 --stereo 0 --total 2 --frame-size 17'
limits='they are within 1 to 15, the minimum at most the maximum'
unhex ffff56813bb8e00000000000000000e026 >one.hca

# -- one frame under three pairs
status 0 'without words, as with 1 and 15' read $two --frames one.hca
says out 'level 173, boundary 1, bits 116'
says out 'codes 0: 28 14'
cp out plain
status 0 'with 1 and 15' read $two --minimum 1 --maximum 15 --frames one.hca
same out plain
good
status 0 'with 1 and 8' read $two --maximum 8 --frames one.hca --records one.rec
says out 'level 173, boundary 1, bits 108'
says out 'codes 0: 14 7'
status 0 'with 1 and 8, written back' write $two --maximum=8 --records one.rec --out back.hca
same one.hca back.hca
good
status 1 'with 9 and 9' read $two --minimum 9 --maximum 9 --frames one.hca
says err 'frame 0: refusal 13 at bit 119'
good
status 1 'a record of another pair' write $two --minimum 3 --maximum 3 --records one.rec --out x.hca
says err 'refusal 15'
absent x.hca
good

# -- frames are read with the pair that they were made with
status 0 'encode with a pair' encode $layout --minimum 4 --maximum 10 --spectra spectra.f32 --out limited.hca --list limited.list
! cmp -s frames.hca limited.hca || fail "$name: the frames are those of 1 and 15"
status 0 'encode with a pair' check $layout --minimum 4 --maximum 10 --frames limited.hca
says out '3 good, 0 refused'
good
{ cat layout.txt; echo; echo '--minimum 4'; echo '--maximum 10'; } >limited.txt
status 0 'a pair in a layout file' encode --layout limited.txt --spectra spectra.f32 --out again.hca
same limited.hca again.hca
good
status 0 'a minimum of 1 alone' encode $layout --minimum=1 --spectra spectra.f32 --out again.hca
same frames.hca again.hca
good
status 2 'a limit twice' check --layout limited.txt --minimum 4 --frames limited.hca
says err '--minimum is given twice'
good

# -- wrong pairs: refusal 1 names both numbers, before anything is read or written
wrong() {
    for words in 'encode --spectra none --out x.hca' 'read --frames none' 'write --records none --out x.hca' 'check --frames none' \
        'header --rate 48000 --count 3 --padding 0 --out x.hca'; do
        status 2 "$1 and $2: $words" ${words%% *} $layout --minimum $1 --maximum $2 ${words#* }
        says err "hcaframe: refusal 1: the layout is outside its limits: --minimum is $1 and --maximum is $2; $limits"
        absent x.hca
        good
    done
    for words in 'convert none.wav' "bank --in $here/sample"; do
        status 2 "$1 and $2: ${words%% *}" $words --bitrate 48000 --out x.hca --minimum $1 --maximum $2
        says err "hcaframe: refusal 1: the layout is outside its limits: --minimum is $1 and --maximum is $2; $limits"
        absent x.hca
        good
    done
}
for numbers in '0 15' '1 16' '9 8' '16 16' '16 15' '0 0' '257 271' '1 4294967295' '2147483648 15' '4294967297 4294967311' '1 999999999999999999'; do
    wrong ${numbers% *} ${numbers#* }
done
status 2 'a minimum of 0 alone' check $layout --minimum 0 --frames frames.hca
says err "--minimum is 0 and --maximum is 15; $limits"
good
status 2 'a maximum of 0 alone' check $layout --maximum 0 --frames frames.hca
says err "--minimum is 1 and --maximum is 0; $limits"
good
status 2 'a list has no resolutions' list --list frames.list --minimum 4
says err '--minimum is not for this command'
good

# -- the header carries them
status 0 'a header with a pair' header $layout --minimum 4 --maximum 10 --rate 48000 --count 3 --padding 512 --frames limited.hca --out limited.file
[ "$(od -An -v -tx1 -j 30 -N 2 limited.file | tr -d ' ')" = 040a ] || fail "$name: other bytes at 30"
good
status 0 'a header without words' header $layout --rate 48000 --count 3 --padding 512 --out plain.file
[ "$(od -An -v -tx1 -j 30 -N 2 plain.file | tr -d ' ')" = 010f ] || fail "$name: other bytes at 30"
good
line=$here/sample/line.wav
status 0 'convert with a pair' convert "$line" --bitrate 48000 --minimum 2 --maximum 6 --out limited.hca
says out 'layout --kinds D --base 104 --stereo 0 --total 128 --frame-size 278 --minimum 2 --maximum 6'
[ "$(od -An -v -tx1 -j 30 -N 2 limited.hca | tr -d ' ')" = 0206 ] || fail "$name: other bytes at 30"
tail -c +97 limited.hca >limited.frames
"$program" encode --layout "$here/sample/line.layout" --minimum 2 --maximum 6 --spectra "$here/sample/line.spectra" --out line.frames --quiet || fail "$name"
same limited.frames line.frames
good
status 0 'convert with 1 and 15' convert "$line" --bitrate 48000 --minimum 1 --maximum 15 --out plain.hca
grep -q 'frame-size 278$' out || fail "$name: the layout says more"
status 0 'convert without words' convert "$line" --bitrate 48000 --out again.hca
same plain.hca again.hca
good

# -- a bank: other limits are other words, and the files are made anew
mkdir in
cp "$line" in/a.wav
status 0 'a bank with a pair' bank --in in --out bank --bitrate 48000 --minimum 2 --maximum 6
same limited.hca bank/a.hca
status 0 'a bank with the same pair' bank --in in --out bank --bitrate 48000 --minimum 2 --maximum 6
says out 'skipped  1'
good
status 0 'a bank with another pair' bank --in in --out bank --bitrate 48000
says out 'done     1'
same plain.hca bank/a.hca
status 0 'a bank with 1 and 15' bank --in in --out bank --bitrate 48000 --minimum 1 --maximum 15
says out 'skipped  1'
good
