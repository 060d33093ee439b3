# The mode: a word of a layout that may be left out, judged by every command that takes it, and written into no file.
one='--kinds D --base 1 --stereo 0 --total 1 --frame-size 10'
for turn in 1 2 3 4; do
    unhex 00007a44; head -c 508 /dev/zero # 1000.0
    unhex 0000c0c0; head -c 508 /dev/zero # -6.0
done >clip.f32

# -- a band at the upper clip, in both modes
unhex ffff6880dfd50000fc9f >rust.hca
unhex ffff6880dfeb5ad0a162 >held.hca
status 0 'without a word' encode $one --spectra clip.f32 --out plain.hca
says out '       0    209         0      0       49'
same plain.hca rust.hca
good
status 0 'mode rust' encode $one --mode rust --spectra clip.f32 --out plain.hca
same plain.hca rust.hca
good
status 0 'mode held' encode $one --mode=held --spectra clip.f32 --out plain.hca
says out '       0    209         0      0       61'
same plain.hca held.hca
good
{ echo "$one"; echo '--mode held'; } >held.txt
status 0 'a mode in a layout file' encode --layout held.txt --spectra clip.f32 --out plain.hca
same plain.hca held.hca
good

# -- frames of either mode are read and written with either
for mode in rust held; do
    status 0 "the Rust's frame, read with $mode" read $one --mode $mode --frames rust.hca --records rust.rec
    says out 'codes 0: -1'
    says out 'bits 57'
    status 0 "the Rust's frame, written with $mode" write $one --mode $mode --records rust.rec --out back.hca
    same back.hca rust.hca
    good
    status 0 "the held frame, read with $mode" read $one --mode $mode --frames held.hca --records held.rec
    says out 'codes 0: 2'
    says out 'codes 1: -1'
    says out 'bits 61'
    status 0 "the held frame, written with $mode" write $one --mode $mode --records held.rec --out back.hca
    same back.hca held.hca
    good
done

# -- another word is no mode, and the message names both
for mode in Rust HELD 0 1 2 held, ' ' ''; do
    for words in 'encode --spectra clip.f32 --out x.hca' 'read --frames held.hca' 'write --records held.rec --out x.hca' 'check --frames held.hca' \
        'header --rate 48000 --count 1 --padding 0 --out x.hca'; do
        status 2 "mode '$mode': ${words%% *}" ${words%% *} $one "--mode=$mode" ${words#* }
        says err 'is no mode; the modes are rust and held'
        absent x.hca
        good
    done
    for words in "convert $here/sample/line.wav" "bank --in $here/sample"; do
        status 2 "mode '$mode': ${words%% *}" $words --bitrate 48000 --out x.hca "--mode=$mode"
        says err 'is no mode; the modes are rust and held'
        absent x.hca
        good
    done
done
status 2 'a mode twice' check --layout held.txt --mode rust --frames held.hca
says err '--mode is given twice'
good
status 2 'a list has no mode' list --list frames.list --mode held
says err '--mode is not for this command'
good

# -- no header says it; convert and bank take it
for mode in rust held; do
    status 0 "a header with $mode" header $layout --mode $mode --rate 48000 --count 3 --padding 512 --out $mode.file
    good
done
same rust.file held.file
line=$here/sample/line.wav
status 0 'convert with held' convert "$line" --bitrate 48000 --mode held --out line.hca
says out 'layout --kinds D --base 104 --stereo 0 --total 128 --frame-size 278 --mode held'
tail -c +97 line.hca >line.frames
"$program" encode --layout "$here/sample/line.layout" --mode held --spectra "$here/sample/line.spectra" --out again.frames --quiet || fail "$name"
same line.frames again.frames
good
status 0 'convert with rust' convert "$line" --bitrate 48000 --mode rust --out rust.line
grep -q 'frame-size 278$' out || fail "$name: the layout says more"
status 0 'convert without a word' convert "$line" --bitrate 48000 --out plain.line
same rust.line plain.line
good
mkdir in
cp "$line" in/a.wav
status 0 'a bank with held' bank --in in --out bank --bitrate 48000 --mode held
same line.hca bank/a.hca
status 0 'a bank with the same mode' bank --in in --out bank --bitrate 48000 --mode held
says out 'skipped  1'
good
status 0 'a bank with another mode' bank --in in --out bank --bitrate 48000
says out 'done     1'
same plain.line bank/a.hca
status 0 'a bank with rust' bank --in in --out bank --bitrate 48000 --mode rust
says out 'skipped  1'
good
