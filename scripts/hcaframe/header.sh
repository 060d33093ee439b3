# The header of an HCA file, alone and in front of its frames.
mono='--kinds D --base 64 --stereo 0 --total 100 --frame-size 170'
line=4843410002000060666d74000100bb800000002f00800200636f6d7000aa010f
status 0 'header' header $mono --rate 48000 --count 47 --padding 512 --out head.hca
says out 'header, 96 bytes'
holds head.hca $line 0101644000050000636970680000706164000000000000000000000000000000 \
    0000000000000000000000000000000000000000000000000000000000002b1d
good
status 0 'header with a loop' header $mono --rate=48000 --count 47 --padding 512 --loop-start 0 --loop-end 896 --out head.hca --quiet
[ ! -s out ] || fail "$name: something is said"
holds head.hca $line 01016440000500006c6f6f700000000000000000008000006369706800007061 \
    640000000000000000000000000000000000000000000000000000000000238c
good
want=0 name='header of a pair, on standard output'
"$program" header --kinds PS --base 52 --stereo 52 --total 128 --frame-size 417 --rate 44100 --count 40 --padding 832 --loop-start 5000 --loop-end 40000 \
    --out - >head.hca 2>err </dev/null
ended $?
says err 'header, 96 bytes'
holds head.hca 4843410002000060666d74000200ac440000002800800340636f6d7001a1010f \
    01008034340300006c6f6f700000000500000027000803406369706800007061 640000000000000000000000000000000000000000000000000000000000da93
good
stream='--rate 48000 --padding 512'
status 0 'header and frames' header $layout $stream --count 3 --frames frames.hca --out made.hca
says out 'header and 3 frames, 696 bytes'
status 0 'header and frames' header --layout layout.txt $stream --count 3 --out head.hca
cat head.hca frames.hca >whole.hca
same whole.hca made.hca
good
name='header and frames, by streams'
cat frames.hca | "$program" header $layout $stream --count 3 --frames - --out - >made.hca 2>err
ended $?
says err 'header and 3 frames, 696 bytes'
same whole.hca made.hca
good
name='header and frames, more than a block'
i=0
while [ $i -lt 200 ]; do cat frames.hca; i=$((i + 1)); done >long.hca
status 0 "$name" header $layout $stream --count 600 --frames long.hca --out made.hca
says out 'header and 600 frames, 120096 bytes'
tail -c +97 made.hca >back.hca
same long.hca back.hca
good
status 0 'header and no frames, as its count says' header $layout $stream --count 0 --frames empty --out made.hca
says out 'header and 0 frames, 96 bytes'
good
for count in 2 4 4294967295; do
    bytes=$((count * 200))
    status 2 "header and frames of another count: $count" header $layout $stream --count $count --frames frames.hca --out x.hca
    says err "hcaframe: the frames are 600 bytes; --count $count and --frame-size 200 make $bytes bytes"
    absent x.hca
    good
    want=2 name="header and a stream of another count: $count"
    cat frames.hca | "$program" header $layout $stream --count $count --frames - --out x.hca >out 2>err
    ended $?
    says err "hcaframe: the frames are 600 bytes; --count $count and --frame-size 200 make $bytes bytes"
    absent x.hca
    good
done
head -c 599 frames.hca >cut.hca
status 2 'header and frames that end within a frame' header $layout $stream --count 3 --frames cut.hca --out x.hca
says err 'hcaframe: the frames are 599 bytes; --count 3 and --frame-size 200 make 600 bytes'
absent x.hca
good
status 2 'header before a whole HCA file' header $layout $stream --count 3 --frames whole.hca --out x.hca
says err 'whole.hca is a whole HCA file'
absent x.hca
want=2 name='header before a whole HCA file as a stream'
cat whole.hca | "$program" header $layout $stream --count 3 --frames - --out x.hca >out 2>err
ended $?
says err 'the input is a whole HCA file'
absent x.hca
good
status 2 'header in the place of its frames' header $layout $stream --count 3 --frames frames.hca --out ./frames.hca
says err '--frames and --out are the same file'
good
status 0 'the largest numbers of a header' header $mono --rate 8388607 --count 4294967295 --padding 65535 --loop-start 4294967167 --loop-end 4294967167 \
    --out head.hca
good
outside() {
    name="a header's number: $1"
    status 2 "$name" header --kinds $2 --base 1 --stereo 0 --total 1 --frame-size 8 --rate $3 --count $4 --padding $5 --loop-start $6 --loop-end $7 --out x.hca
    says err "hcaframe: refusal 16: a number does not fit the header: $1"
    absent x.hca
    good
}
outside '9 channels; there are 1 to 8' DDDDDDDDD 0 0 0 0 0
outside '--rate is 0; it is 1 to 8388607' D 0 0 0 0 0
outside '--rate is 8388608; it is 1 to 8388607' D 8388608 0 0 0 0
outside '--count is 4294967296; it is at most 4294967295' D 1 4294967296 0 0 0
outside '--count is 999999999999999999; it is at most 4294967295' D 1 999999999999999999 0 0 0
outside '--padding is 65536; it is at most 65535' D 1 0 65536 0 0
outside '--loop-start is 4294967168; it is at most 4294967167' D 1 0 0 4294967168 0
outside '--loop-end is 4294967168; it is at most 4294967167' D 1 0 0 0 4294967168
status 2 'a number of nineteen digits' header $mono --rate 1000000000000000000 --count 1 --padding 0 --out x.hca
says err '--rate: 1000000000000000000 is not a number of up to eighteen digits'
good
status 2 'a loop without its end' header $mono $stream --count 1 --loop-start 0 --out x.hca
says err 'hcaframe: --loop-start is given without --loop-end'
good
status 2 'a loop without its start' header $mono $stream --count 1 --loop-end 896 --out x.hca
says err 'hcaframe: --loop-end is given without --loop-start'
good
status 2 'a header without its rate' header $mono --count 1 --padding 0 --out x.hca
says err 'hcaframe: --rate is missing'
good
status 2 'a rate for another command' check $layout --frames frames.hca --rate 48000
says err '--rate is not for this command'
absent x.hca
good


# -- frames behind a header are read strictly
status 1 'header before a damaged frame' header $layout $stream --count 3 --frames damaged.hca --out x.hca
says err 'frame 1: refusal 8: the check is wrong'
says err 'hcaframe: with --unchecked the frames are taken as they stand'
absent x.hca
good
want=1 name='header before a damaged frame, by a stream'
cat damaged.hca | "$program" header $layout $stream --count 3 --frames - --out x.hca >out 2>err
ended $?
says err 'frame 1: refusal 8'
absent x.hca
good
{ cat long.hca; cat damaged.hca; } >late.hca
status 1 'header before a damaged frame behind many' header $layout $stream --count 603 --frames late.hca --out x.hca
says err 'frame 601: refusal 8'
absent x.hca
good
status 0 'header before a damaged frame, unchecked' header $layout $stream --count 3 --frames damaged.hca --unchecked --out made.hca
says out 'header and 3 frames, 696 bytes'
"$program" header $layout $stream --count 3 --quiet --out head.hca
cat head.hca damaged.hca >whole.hca
same whole.hca made.hca
good
want=2 name='more frames than the header counts, by a stream, unchecked'
cat long.hca | "$program" header $layout $stream --count 3 --frames - --unchecked --out x.hca >out 2>err
ended $?
says err 'hcaframe: the frames are 120000 bytes; --count 3 and --frame-size 200 make 600 bytes'
absent x.hca
good
# a value above every scale is at the upper clip: its code is one past its range and gets no bits, a corner of the Rust that the stage keeps
i=0
while [ $i -lt 1024 ]; do printf '\000\000\310\102'; i=$((i + 1)); done >loud.f32
corner='--kinds D --base 40 --stereo 0 --total 40 --frame-size 21'
"$program" encode $corner --quiet --spectra loud.f32 --out loud.hca
status 1 'header before a frame with a code past its range' header $corner $stream --count 1 --frames loud.hca --out x.hca
says err 'frame 0: refusal 13 at bit 152: '
says err 'hcaframe: with --unchecked the frames are taken as they stand'
absent x.hca
status 0 'header before a frame with a code past its range, unchecked' header $corner $stream --count 1 --frames loud.hca --unchecked --out x.hca
rm x.hca
good
status 2 'unchecked without frames' header $layout $stream --count 3 --unchecked --out x.hca
says err 'hcaframe: --unchecked is given without --frames'
good

# -- kinds that decoders derive: a header carries none
for kinds in D:0 D:10 DD:0 PS:10 DDD:0 PSD:10 DDDD:0 PSPS:10 DDDDD:0 PSDPS:10 PSDDPS:10 PSDDPSD:10 PSDDPSPS:10 DDDDDDDD:0; do
    bands="--base 30 --stereo ${kinds#*:} --total 60 --frame-size 600"
    status 0 "kinds that decoders derive: $kinds" header --kinds ${kinds%:*} $bands $stream --count 1 --out x.hca
    bytes x.hca 96
    rm x.hca
    good
done
for kinds in P:0 S:10 PS:0 SP:10 DD:10 DPS:10 PSDD:10 PPSS:10 DPSPS:10 PSPSDD:10 PSPSPS:10 PSPSPSD:10 PSPSPSPS:10 DDDDDDPS:0; do
    bands="--base 30 --stereo ${kinds#*:} --total 60 --frame-size 600"
    status 2 "kinds that decoders derive otherwise: $kinds" header --kinds ${kinds%:*} $bands $stream --count 1 --out x.hca
    says err "hcaframe: --kinds is ${kinds%:*}; a header carries no kinds"
    says err 'For who must there is --any-kinds.'
    absent x.hca
    good
done
bands='--base 30 --stereo 0 --total 60 --frame-size 300'
status 0 'kinds that decoders derive otherwise, by who must' header --kinds PS $bands $stream --count 1 --any-kinds --out x.hca
bytes x.hca 96
rm x.hca
good
