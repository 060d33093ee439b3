# A WAV file to an HCA file. That the file is the published encoder's is shown by compare-convert; here are words, files and refusals.
# sum FILE: the beginning of its checksum
sum() {
    sha256sum <"$1" | head -c 12
}
line=$here/sample/line.wav
status 0 'convert' convert "$line" --bitrate 48000 --out line.hca --list line.list
says out 'layout --kinds D --base 104 --stereo 0 --total 128 --frame-size 278'
says out 'rate 22050, padding 342'
says out '47 frames, 13162 bytes'
says out 'highest level 174, most pairs removed 0, bits 76056'
silent err
good
# the same spectra make the same frames
name='the frames of the sample, behind their header'
"$program" encode --layout "$here/sample/line.layout" --spectra "$here/sample/line.spectra" --out line.frames --list other.list --quiet || fail "$name"
"$program" header --layout "$here/sample/line.layout" --rate 22050 --count 47 --padding 342 --frames line.frames --out other.hca --quiet || fail "$name"
same line.hca other.hca
same line.list other.list
good
status 0 'convert a pair' convert "$here/sample/pair.wav" --bitrate 72000 --out pair.hca
says out 'layout --kinds PS --base 52 --stereo 52 --total 128 --frame-size 417'
says out '52 frames, 21780 bytes'
[ "$(sum pair.hca)" = 088e0925fbc6 ] || fail "$name: other bytes"
good
status 0 'convert by --in, and options with =' convert --in="$line" --bitrate=48000 --out=again.hca
same line.hca again.hca
good
status 0 'convert, quiet' convert --bitrate 48000 --quiet --out again.hca "$line"
silent out
same line.hca again.hca
good
want=0 name='convert by streams'
cat "$line" | "$program" convert - --bitrate 48000 --out - >piped.hca 2>err
ended $?
says err '47 frames, 13162 bytes'
same line.hca piped.hca
good
want=0 name='the list on standard output'
"$program" convert "$line" --bitrate 48000 --out again.hca --list - >piped.list 2>err </dev/null
ended $?
same line.list piped.list
good

# -- loops
status 0 'a loop' convert "$line" --bitrate 48000 --loop-start 5000 --loop-end 47658 --out looped.hca
tail -c +97 line.hca >one
tail -c +97 looped.hca >two
same one two
head -c 96 looped.hca >head.bin
"$program" header --layout "$here/sample/line.layout" --rate 22050 --count 47 --padding 342 --loop-start 5000 --loop-end 47658 --out head.other --quiet
same head.bin head.other
good
for points in '0 47659' '5000 5000' '5001 5000' '0 999999999999999999'; do
    status 2 "a loop that is none: $points" convert "$line" --bitrate 48000 --loop-start ${points% *} --loop-end ${points#* } --out x.hca
    says err 'the loop does not lie within the take'
    says err 'at most 47658'
    absent x.hca
    good
done
status 2 'half a loop' convert "$line" --bitrate 48000 --loop-start 5 --out x.hca
says err '--loop-start is given without --loop-end'
good

# -- words
status 2 'two takes' convert "$line" "$line" --bitrate 48000 --out x.hca
says err 'is a second file'
absent x.hca
good
status 2 'a take by both ways' convert "$line" --in "$line" --bitrate 48000 --out x.hca
says err '--in is given twice'
good
status 2 'no take' convert --bitrate 48000 --out x.hca
says err '--in is missing'
good
status 2 'no bit rate' convert "$line" --out x.hca
says err '--bitrate is missing'
good
for rate in 0 999 4294967296 999999999999999999; do
    status 2 "the bit rate $rate" convert "$line" --bitrate $rate --out x.hca
    says err "--bitrate is $rate; it is 1000 to 4294967295, in bits a second"
    absent x.hca
    good
done
unhex 524946460000000057415645 666d74201000000001000100401f00000000000000001000 6461746104000000 00000000 >silent.wav
status 0 'the lowest bit rate' convert silent.wav --bitrate 1000 --out low.hca
says out '--frame-size 16'
good
status 0 'the highest bit rate' convert "$line" --bitrate 4294967295 --out high.hca
says out '--frame-size 65535'
good
status 2 'the take as the output' convert line.hca --bitrate 48000 --out line.hca
says err '--in and --out are the same file'
same line.hca other.hca
good
status 2 'one output twice' convert "$line" --bitrate 48000 --out x.hca --list x.hca
says err 'are the same file'
absent x.hca
good
status 2 'a take that is not there' convert none.wav --bitrate 48000 --out x.hca
says err 'hcaframe: none.wav: No such file or directory'
absent x.hca
good

# -- takes that are refused; what was there stays
echo kept >kept.hca
cp kept.hca kept.copy
refused() { # FILE TEXT
    status 1 "refused: $2" convert "$1" --bitrate 48000 --out kept.hca --list x.list
    says err "$2"
    same kept.hca kept.copy
    absent x.list
    good
}
riff=524946460000000057415645
refused spectra.f32 'hcaframe: refusal 22: '
unhex $riff 666d742010000000010001008813000000000000000010006461746100000000 >bare.wav
refused bare.wav 'hcaframe: refusal 23: '
unhex $riff 666d74201000000001000100881300000000000000000800 6461746104000000 00000000 >eight.wav
refused eight.wav 'hcaframe: refusal 24: '
unhex $riff 666d74201000000003000100881300000000000000002000 6461746104000000 0000807f >infinite.wav
refused infinite.wav 'hcaframe: refusal 25: '
unhex $riff 666d74201000000001000900881300000000000000001000 6461746104000000 00000000 >nine.wav
refused nine.wav 'hcaframe: refusal 16: a number does not fit the header: 9 channels, 5000 samples a second; there are 1 to 8, and 1 to 8388607'
unhex $riff 666d74201000000001000100000000000000000000001000 6461746104000000 00000000 >still.wav
refused still.wav 'hcaframe: refusal 16: '
unhex $riff 666d74201000000001000100881300000000000000001000 6461746101000000 00 >none.wav
refused none.wav 'hcaframe: it has no samples'
{ unhex $riff 666d742010000000010008008813000000000000000010006461746100400000; head -c 16384 spectra.f32; } >eight.wav
status 1 'frames too small' convert eight.wav --bitrate 1000 --out x.hca
says err 'frame 0: refusal 5 '
absent x.hca
good
{ head -c 40 "$line"; printf '\377\377\377\177'; tail -c +45 "$line"; } >claims.wav
status 0 'a take that ends early' convert claims.wav --bitrate 48000 --out x.hca
says err 'hcaframe: the data chunk claims 2147483647 bytes, and the file has 95316 of them'
same line.hca x.hca
rm x.hca
good
unhex $riff 666d74201000000001000100881300000000000000002000 6461746104000000 00000000 >wide.wav
status 0 'integers of 32 bits' convert wide.wav --bitrate 48000 --out x.hca
says err 'convert to 24 bits'
rm x.hca
good
status 0 'what is proved is said in the help' convert --help
says out 'Proved: reading the WAV file'
says out 'Not proved:'
good
