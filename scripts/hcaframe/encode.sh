# Spectra to frames, mixed and unmixed, and the list beside the frames.
status 0 'encode' encode $layout --spectra spectra.f32 --out frames.hca
says out '3 frames, 600 bytes'
same table.txt out
bytes frames.hca 600
good
status 0 'encode by a layout file' encode --layout layout.txt --spectra spectra.f32 --out again.hca
same frames.hca again.hca
good
status 0 'quiet' encode $layout --quiet --spectra spectra.f32 --out again.hca
silent out
silent err
same frames.hca again.hca
good
status 0 'the spoken line of the sample' encode --layout "$here/sample/line.layout" --spectra "$here/sample/line.spectra" --out line.frames
says out '47 frames'
[ "$(sha256sum <line.frames | head -c 12)" = 989beeb826db ] || fail "$name: other frames"
good
# more frames than one call of the library takes here, and the same bytes
i=0
while [ $i -lt 400 ]; do cat spectra.f32; i=$((i + 1)); done >many.f32
i=0
while [ $i -lt 400 ]; do cat frames.hca; i=$((i + 1)); done >many.hca
status 0 'many frames' encode $layout --spectra many.f32 --out x.hca --list many.list
same many.hca x.hca
says out '1200 frames, 240000 bytes'
[ "$(sed -n 1201p out)" = '    1199      0         0      0      223' ] || fail "$name: another last row"
bytes many.list 9609
rm x.hca
good
{ cat many.f32 nan.f32; cat many.f32; } >late.f32
status 1 'a refused frame behind many' encode $layout --spectra late.f32 --out x.hca
says err 'frame 1201: refusal 4 at 1023: '
[ "$(tail -n 1 out | cut -c 1-8)" = '    1200' ] || fail "$name: the rows before it are not there"
absent x.hca
good

# -- stereo: the spectra of three frames twice, so the layout has two channels and three frames
status 0 'stereo' encode $pair --spectra stereo.f32 --intensities stereo.int --out stereo.hca
says out '3 frames, 900 bytes'
good
status 2 'intensities are missing' encode $pair --spectra stereo.f32 --out x.hca
says err '--intensities is missing'
absent x.hca
good
head -c 40 /dev/zero >short.int
status 2 'intensities end within a frame' encode $pair --spectra stereo.f32 --intensities short.int --out x.hca
says err '40 bytes'
absent x.hca
good
head -c 32 /dev/zero >two.int
status 2 'intensities of fewer frames' encode $pair --spectra stereo.f32 --intensities two.int --out x.hca
says err 'as many frames'
absent x.hca
good
{ head -c 9 /dev/zero; printf '\020'; head -c 38 /dev/zero; } >high.int
status 1 'an intensity above 15' encode $pair --spectra stereo.f32 --intensities high.int --out x.hca
says err 'frame 0: refusal 3 at 9: '
absent x.hca
good

head -c 32 /dev/zero >two.int
want=2 name='intensities of fewer frames, by a stream'
"$program" encode $pair --spectra stereo.f32 --intensities - --out x.hca <two.int >out 2>err
ended $?
says err 'hcaframe: the intensities end before the spectra'
[ "$(wc -l <out)" -eq 3 ] || fail "$name: the rows before it are not there"
absent x.hca
good
name='intensities of more frames, by a stream'
head -c 49 /dev/zero | "$program" encode $pair --spectra stereo.f32 --intensities - --out x.hca >out 2>err
ended $?
says err 'hcaframe: the spectra end before the intensities'
absent x.hca
good

# -- refusals
echo kept >kept.hca
cp kept.hca kept.copy
status 1 'NaN' encode $layout --spectra nan.f32 --out kept.hca
says err 'frame 1: refusal 4 at 1023: a spectrum value is NaN or infinite'
same kept.hca kept.copy
good
{ head -c 8192 spectra.f32; printf '\000\000\200\377'; tail -c 4092 spectra.f32; } >infinite.f32
status 1 'infinite' encode $layout --spectra infinite.f32 --out x.hca
says err 'frame 2: refusal 4 at 0: '
absent x.hca
good
head -c 24576 /dev/zero >six.f32
status 1 'no level' encode --kinds DDDDDD --base 1 --stereo 0 --total 1 --frame-size 8 --spectra six.f32 --out x.hca
says err 'frame 0: refusal 5 '
absent x.hca
good
head -c 20480 /dev/zero >five.f32
status 0 'five silent channels' encode --kinds DDDDD --base 1 --stereo 0 --total 1 --frame-size 8 --spectra five.f32 --out five.hca
says out '47'
good

# -- the list beside the frames
status 0 'encode with a list' encode $layout --spectra spectra.f32 --out x.hca --list frames.list
says out '3 frames, 600 bytes'
same frames.hca x.hca
sed -n '2,4p' out | while read -r frame level boundary pairs bits; do
    printf '%04x%02x%02x%08x' "$level" "$boundary" "$pairs" "$bits"
done >entries
holds frames.list 564649000100000003 "$(cat entries)"
rm x.hca
good
status 0 'a list of no frames' encode $layout --allow-empty --spectra empty --out x.hca --list empty.list
holds empty.list 564649000100000000
rm x.hca
good
want=0 name='a list on standard output'
"$program" encode $layout --spectra - --out x.hca --list - <spectra.f32 >piped.list 2>err
ended $?
says err '3 frames, 600 bytes'
same frames.list piped.list
same frames.hca x.hca
rm x.hca
good
name='frames on standard output, and a list'
"$program" encode $layout --spectra spectra.f32 --out - --list y.list >x.hca 2>err </dev/null
ended $?
same frames.hca x.hca
same frames.list y.list
rm x.hca y.list
good
echo kept >kept.list
cp kept.list kept.copy
status 1 'a refused frame leaves no list' encode $layout --spectra nan.f32 --out x.hca --list kept.list
says err 'frame 1: refusal 4 '
same kept.list kept.copy
absent x.hca
status 1 'a refused frame leaves no new list' encode $layout --spectra nan.f32 --out x.hca --list y.list
absent x.hca
absent y.list
good
beside
ln -s kept.list link.list
# a list that is another file of the call is refused as any such two, and leaves no frames
two() {
    twin "$@"
    absent x.hca
}
two 'the frames as the list' encode $layout --spectra spectra.f32 --out x.hca --list x.hca
two 'the frames as the list, by another name' encode $layout --spectra spectra.f32 --out x.hca --list ./x.hca
two 'the frames as the list, through a link' encode $layout --spectra spectra.f32 --out here/x.hca --list inner/there/x.hca
two 'the frames as the list, both there' encode $layout --spectra spectra.f32 --out here/frames.hca --list inner/there/frames.hca
two 'the spectra as the list' encode $layout --spectra here/spectra.f32 --out x.hca --list ./here/spectra.f32
two 'the layout as the list' encode --layout here/layout.txt --spectra spectra.f32 --out x.hca --list inner/there/layout.txt
two 'standard output twice' encode $layout --spectra spectra.f32 --out - --list -
want=2 name='frames on standard output, which is the list'
"$program" encode $layout --quiet --spectra spectra.f32 --out - --list y.list >>y.list 2>err </dev/null
ended $?
says err '--out and --list are the same file'
[ ! -s y.list ] || fail "$name: something was encoded"
name='a list on standard output, which is the frames'
"$program" encode $layout --quiet --spectra spectra.f32 --out y.list --list - >>y.list 2>err </dev/null
ended $?
says err '--out and --list are the same file'
[ ! -s y.list ] || fail "$name: something was encoded"
rm y.list
good
status 2 'a list that is a link' encode $layout --spectra spectra.f32 --out x.hca --list link.list
says err 'hcaframe: --list: link.list is a symbolic link'
absent x.hca
good
status 2 'a list in a folder that is missing' encode $layout --spectra spectra.f32 --out x.hca --list none/y.list
says err 'No such file or directory'
absent x.hca
good
one='--kinds D --base 1 --stereo 0 --total 1 --frame-size 8'
# a silent channel of 65,536 frames; the file takes no room on the disk
sparse silent.f32 268435456
status 0 'a list of 65,536 frames' encode $one --quiet --spectra silent.f32 --out x.hca --list x.list
bytes x.list 524297
bytes x.hca 524288
good
want=0 name='a list of 65,536 frames, by a stream'
"$program" encode $one --quiet --spectra - --out y.hca --list y.list <silent.f32 >out 2>err
ended $?
same x.list y.list
same x.hca y.hca
rm x.hca x.list y.hca y.list
good
rm silent.f32
status 2 'a list for another command' check $layout --frames frames.hca --list y.list
says err '--list is not for this command'
good


# -- unmixed spectra: the pair of the sample, from before and behind the stereo step
mixed="--layout $here/sample/pair.layout"
status 0 'spectra of a pair' encode $mixed --spectra "$here/sample/pair.spectra" --intensities "$here/sample/pair.intensities" --out pair.hca --list pair.list
status 0 'unmixed spectra of a pair' encode $mixed --unmixed "$here/sample/pair.unmixed" --out unmixed.hca --list unmixed.list
same pair.hca unmixed.hca
same pair.list unmixed.list
good
want=0 name='unmixed spectra and intensities, by a stream'
"$program" encode $mixed --quiet --unmixed - --intensities "$here/sample/pair.intensities" --out unmixed.hca <"$here/sample/pair.unmixed" >out 2>err
ended $?
same pair.hca unmixed.hca
good
status 0 'unmixed spectra without a pair' encode $layout --unmixed spectra.f32 --out unmixed.hca
same frames.hca unmixed.hca
good
# 65,536 and the next float as the second value
{ head -c 4 spectra.f32; printf '\000\000\200\107'; tail -c 12280 spectra.f32; } >high.f32
status 0 'an unmixed value of 65,536' encode $layout --unmixed high.f32 --out x.hca
rm x.hca
{ head -c 4 spectra.f32; printf '\001\000\200\107'; tail -c 12280 spectra.f32; } >high.f32
status 0 'a value above 65,536' encode $layout --spectra high.f32 --out x.hca
rm x.hca
status 1 'an unmixed value above 65,536' encode $layout --unmixed high.f32 --out x.hca
says err 'frame 0: refusal 17: the magnitude of an unmixed spectrum value is above 65536'
absent x.hca
good
status 1 'an unmixed value that is NaN' encode $layout --unmixed nan.f32 --out x.hca
says err 'frame 1: refusal 4 at 1023: '
absent x.hca
good
status 2 'spectra and unmixed ones' encode $layout --spectra spectra.f32 --unmixed stereo.f32 --out x.hca
says err 'hcaframe: --spectra is given, and --unmixed in its place too'
absent x.hca
good
status 2 'neither spectra nor unmixed ones' encode $layout --out x.hca
says err 'hcaframe: --spectra is missing, or --unmixed in its place'
absent x.hca
good
status 2 'unmixed spectra as the output' encode $layout --unmixed spectra.f32 --out ./spectra.f32
says err '--unmixed and --out are the same file'
same spectra.f32 here/spectra.f32
good
status 2 'unmixed spectra for another command' check $layout --frames frames.hca --unmixed spectra.f32
says err '--unmixed is not for this command'
good

i=0
while [ $i -lt 100 ]; do cat "$here/sample/pair.unmixed"; i=$((i + 1)); done >long.unmixed
i=0
while [ $i -lt 100 ]; do cat pair.hca; i=$((i + 1)); done >long.hca
status 0 'unmixed spectra of many frames' encode $mixed --quiet --unmixed long.unmixed --out x.hca
same long.hca x.hca
rm x.hca
good
