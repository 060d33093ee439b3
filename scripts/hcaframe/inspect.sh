# What a header says, and whole HCA files by it.
status 0 'a whole file' header $layout --rate 48000 --count 3 --padding 512 --frames frames.hca --out whole.hca
status 0 'a whole file of a pair' encode $pair --quiet --spectra stereo.f32 --intensities stereo.int --out stereo.frames
status 0 'its header' header $pair --rate 44100 --count 3 --padding 832 --loop-start 128 --loop-end 2000 --frames stereo.frames --out stereo.hca

# -- the table
status 0 'inspect' inspect --in whole.hca
for line in 'channels      1' 'derived kinds D' 'base          40' 'stereo        0' 'total         60' 'frame size    200' 'minimum       1' \
    'maximum       15' 'rate          48000' 'frames        3' 'padding       512' 'loop          none'; do
    says out "$line"
done
good
status 0 'inspect of a loop' inspect --in=stereo.hca
says out 'derived kinds PS'
says out 'loop frames   frame 0, delay 256; end frame 2, padding 944'
says out 'loop samples  128 to 2000'
good
want=0 name='inspect of a stream that goes on'
{ cat stereo.hca; head -c 300000 /dev/zero; } | "$program" inspect --in - >again 2>err
ended $?
same out again
good
status 0 'inspect of a header alone' header $layout --rate 1 --count 0 --padding 0 --minimum 4 --maximum 10 --out alone.hca
status 0 'inspect of a header alone' inspect --in alone.hca
says out 'minimum       4'
says out 'frames        0'
good
status 0 'inspect, quiet' inspect --in whole.hca --quiet
silent out
silent err
good

# -- the layout file
status 0 'a layout file' inspect --in alone.hca --kinds D --layout-out out.txt
[ "$(cat out.txt)" = '--kinds D --base 40 --stereo 0 --total 60 --frame-size 200 --minimum 4 --maximum 10' ] || fail "$name: other words"
good
status 0 'a layout file, read with it' inspect --in whole.hca --kinds D --layout-out out.txt
status 0 'a layout file, read with it' check --layout out.txt --frames frames.hca
says out '3 good, 0 refused'
good
status 2 'kinds without a layout file' inspect --in whole.hca --kinds D
says err '--kinds is given without --layout-out'
good
status 2 'a layout file without kinds' inspect --in whole.hca --layout-out x.txt
says err '--layout-out is given without --kinds'
absent x.txt
good
status 2 'kinds for two channels' inspect --in whole.hca --kinds PS --layout-out x.txt
says err '--kinds is PS: kinds for 2 channels; the header has 1'
absent x.txt
good
status 0 'kinds that decoders derive otherwise' inspect --in stereo.hca --kinds DD --layout-out out.txt
says err '--kinds is DD; of this header decoders derive PS'
says out 'channels      2'
good
status 2 'a layout file over the input' inspect --in whole.hca --kinds D --layout-out whole.hca
says err 'are the same file'
good

# -- refused headers: 2 and 26 to 29
# refused NUMBER TEXT FILE: by each of the three commands, with status 1, and no file is written
refused() {
    status 1 "refusal $1: inspect" inspect --in "$3" --kinds D --layout-out x.txt
    says err "hcaframe: refusal $1: $2"
    silent out
    absent x.txt
    good
    for command in read check; do
        status 1 "refusal $1: $command" $command --hca "$3"
        says err "hcaframe: refusal $1: $2"
        silent out
        good
    done
}
head -c 95 whole.hca >short.hca
refused 2 '95 bytes; a header has 96' short.hca
refused 2 '0 bytes; a header has 96' empty
{ head -c 93 whole.hca; printf '\001'; tail -c +95 whole.hca; } >damaged.file
refused 26 "the header's check is wrong: damaged bytes, or no HCA file" damaged.file
refused 26 "the header's check is wrong: damaged bytes, or no HCA file" spectra.f32
start=4843410002000060666d74 middle=0200ac440000002800800340636f6d7001a1010f0100803434
end=00006c6f6f700000000500000027000803406369706800007061640000000000000000000000000000000000000000000000000000000000
unhex $start 01 $middle 03 $end 7308 >name.hca
refused 27 "a name or the version in the header is another than the writer's" name.hca
unhex $start 00 $middle 04 $end e57f >field.hca
refused 28 'a field of the header is one that the writer never writes' field.hca
unhex $start 00 $middle 03 01 ${end#00} f12c >rest.hca
refused 29 'the header is not 0 where the writer stores nothing' rest.hca

# -- whole files
status 0 'read of a whole file' read --hca whole.hca --records whole.rec
same records.bin whole.rec
cp out whole.text
status 0 'read of a whole file' read $layout --frames frames.hca
same out whole.text
good
status 0 'check of a whole file' check --hca stereo.hca
says out '3 good, 0 refused'
silent err
good
status 0 'check of a whole file with its kinds' check --hca=stereo.hca --kinds=PS
says out '3 good, 0 refused'
silent err
good
want=0 name='check of a whole file as a stream'
cat whole.hca | "$program" check --hca - >out 2>err
ended $?
says out '3 good, 0 refused'
good
status 1 'check with other kinds' check --hca stereo.hca --kinds DD
says err '--kinds is DD; of this header decoders derive PS'
good
status 2 'kinds for another number of channels' check --hca stereo.hca --kinds PSD
says err '--kinds is PSD: kinds for 3 channels; the header has 2'
good
{ head -c 346 whole.hca; printf '\252\252'; tail -c 348 whole.hca; } >damaged.file
status 1 'a damaged frame' check --hca damaged.file
says out 'frame 1: refusal 8'
says out '2 good, 1 refused'
good
status 1 'a damaged frame, read' read --hca damaged.file --records x.rec
says err 'frame 1: refusal 8'
absent x.rec
good

# -- another size
{ cat whole.hca; printf '\000'; } >longer.hca
head -c 695 whole.hca >shorter.hca
head -c 496 whole.hca >two.hca
for file in longer shorter two; do
    status 2 "another size: $file" check --hca $file.hca
    says err 'its header and 3 frames of 200 bytes make 696'
    silent out
    good
    want=2 name="another size as a stream: $file"
    cat $file.hca | "$program" check --hca - >out 2>err
    ended $?
    says err 'the input: its header counts 3 frames of 200 bytes, and it has another size'
    good
    want=2 name="another size as a stream, no records: $file"
    cat $file.hca | "$program" read --hca - --records x.rec >out 2>err
    ended $?
    absent x.rec
    good
done
status 2 'no frames' check --hca alone.hca
says err 'has no frames'
status 0 'no frames, and that is meant' check --hca alone.hca --allow-empty
says out '0 good, 0 refused'
good

# -- words
status 2 'neither of two' check $layout
says err '--frames is missing, or --hca in its place'
status 2 'both' check --frames frames.hca --hca whole.hca
says err '--frames is given, and --hca in its place too'
good
for word in '--base 40' '--stereo 0' '--total 60' '--frame-size 200' '--minimum 1' '--maximum 15' '--layout layout.txt'; do
    status 2 "a whole file and $word" read --hca whole.hca $word
    says err 'is given, and --hca in its place too'
    good
done
status 2 'a header is not for a header' header $layout --hca whole.hca --rate 1 --count 3 --padding 0 --out x.hca
says err '--hca is not for this command'
good
