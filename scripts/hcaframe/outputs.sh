# Outputs: what may stand under their names, and that none of them is an input.

# -- what stands under their name
mkfifo pipe
mkdir inner
status 2 'an output that is a pipe' encode $layout --spectra spectra.f32 --out pipe
says err 'hcaframe: --out: pipe is no regular file'
[ -p pipe ] || fail "$name: the pipe is gone"
good
status 2 'an output that is a device' encode $layout --spectra spectra.f32 --out /dev/null
says err 'hcaframe: --out: /dev/null is no regular file'
[ -c /dev/null ] || fail "$name: the device is gone"
good
echo kept >kept.hca
cp kept.hca kept.copy
ln -s kept.hca link.hca
ln -s nowhere loose.hca
for link in link.hca loose.hca /dev/stdout; do
    status 2 "an output that is a link: $link" encode $layout --spectra spectra.f32 --out $link
    says err "hcaframe: --out: $link is a symbolic link: name the file that it leads to"
    [ -L $link ] || fail "$name: the link is gone"
    same kept.hca kept.copy
    good
done
status 2 'records that are a link' read $layout --frames frames.hca --records link.hca
says err 'hcaframe: --records: link.hca is a symbolic link'
good
status 2 'an output that is a folder' encode $layout --spectra spectra.f32 --out inner
says err 'hcaframe: --out: inner is a folder'
[ ! -s out ] || fail "$name: something was encoded"
good
status 2 'an output that is a folder, with a slash' encode $layout --spectra spectra.f32 --out inner/
says err 'hcaframe: --out: inner/ is a folder'
[ -z "$(ls inner)" ] || fail "$name: a file is left in it"
good
status 2 'an output without a name' encode $layout --spectra spectra.f32 --out ''
says err 'hcaframe: --out names no file'
[ ! -s out ] || fail "$name: something was encoded"
good
status 2 'an output without a name, by =' encode $layout --spectra spectra.f32 --out=
says err 'hcaframe: --out names no file'
good
status 0 'an output in the place of a file' encode $layout --spectra spectra.f32 --out kept.hca
same frames.hca kept.hca
[ -L link.hca ] || fail "$name: the link is gone"
good

status 2 'an output in a folder that is missing' encode $layout --spectra spectra.f32 --out none/x.hca
says err 'hcaframe: none/x.hca: No such file or directory'
good
status 2 'an output with a slash behind it' encode $layout --spectra spectra.f32 --out new/
says err 'hcaframe: new/: No such file or directory'
absent new
good
if [ "$(id -u)" -ne 0 ]; then
    cp kept.copy fast.hca
    chmod 400 fast.hca
    status 2 'an output that is protected' encode $layout --spectra spectra.f32 --out fast.hca
    says err 'hcaframe: fast.hca: Permission denied'
    same fast.hca kept.copy
    good
fi

# -- names: as long as the system lets them be, and temporary ones that are taken
long=$(printf %0251d 0).hca
status 0 'a name of 255 bytes' encode $layout --spectra spectra.f32 --out "$long"
same frames.hca "$long"
clean
good
other=$(printf %0250d 0)1.hca
status 0 'two names of 255 bytes, in a folder' encode $layout --spectra spectra.f32 --out "inner/$long" --list "inner/$other"
same frames.hca "inner/$long"
same frames.list "inner/$other"
[ "$(ls inner | wc -l)" -eq 2 ] || fail "$name: a file is left behind"
rm inner/*
good
status 2 'a name of 255 bytes twice' encode $layout --spectra spectra.f32 --out "inner/$long" --list "./inner/$long"
says err '--out and --list are the same file'
[ -z "$(ls inner)" ] || fail "$name: a file is left behind"
good
status 2 'a name of 256 bytes' encode $layout --spectra spectra.f32 --out "0$long"
says err "hcaframe: 0$long: File name too long"
clean
good
# the shell that runs the program in its place has the program's number
want=0 name='temporary names that are taken'
mkdir taken
(
    me=$(sh -c 'echo $PPID')
    echo mine >"taken/x.hca.tmp-$me"
    ln -s nowhere "taken/x.hca.tmp-$((me + 1))"
    exec "$program" encode $layout --spectra spectra.f32 --out taken/x.hca >out 2>err
)
ended $?
same frames.hca taken/x.hca
[ "$(cat taken/x.hca.tmp-* 2>/dev/null)" = mine ] || fail "$name: a file was overwritten"
[ "$(ls taken | wc -l)" -eq 3 ] || fail "$name: other files are there"
good

# -- none of the inputs
rmdir inner
beside
twin 'spectra as the output' encode $layout --spectra here/spectra.f32 --out here/spectra.f32
twin 'spectra as the output, by another name' encode $layout --spectra here/spectra.f32 --out ./here/spectra.f32
twin 'spectra as the output, through a link' encode $layout --spectra inner/there/spectra.f32 --out here/spectra.f32
ln spectra.f32 hard.f32
twin 'spectra as the output, by a hard link' encode $layout --spectra spectra.f32 --out hard.f32
twin 'frames as the records' read $layout --frames here/frames.hca --records here/frames.hca
twin 'frames as the records, through a link' read $layout --frames here/frames.hca --records inner/there/frames.hca
twin 'intensities as the output' encode $pair --spectra stereo.f32 --intensities here/frames.hca --out=here/frames.hca
twin 'spectra as the intensities' encode $pair --spectra here/spectra.f32 --intensities here/spectra.f32 --out x.hca
twin 'the layout as the output' encode --layout here/layout.txt --spectra spectra.f32 --out here/layout.txt
twin 'the layout as the output, by another name' encode --layout here/layout.txt --spectra spectra.f32 --out "$folder/here/layout.txt"
want=2 name='standard input as the output'
"$program" encode $layout --spectra - --out here/spectra.f32 <here/spectra.f32 >out 2>err
ended $?
says err '--spectra and --out are the same file'
same spectra.f32 here/spectra.f32
good
name='standard input as standard output'
"$program" read $layout --frames - --records - <here/frames.hca 2>err >>here/frames.hca
ended $?
says err '--frames and --records are the same file'
same frames.hca here/frames.hca
good
name='standard output as the output'
"$program" encode $layout --spectra spectra.f32 --out out >out 2>err </dev/null
ended $?
says err '--out and standard output are the same file'
good
for command in check read; do
    want=2 name="$command: frames as standard output"
    "$program" $command $layout --frames here/frames.hca >>here/frames.hca 2>err </dev/null
    ended $?
    says err '--frames and standard output are the same file'
    same frames.hca here/frames.hca
    good
    name="$command: standard input as standard output"
    "$program" $command $layout --frames - <here/frames.hca >>here/frames.hca 2>err
    ended $?
    says err '--frames and standard output are the same file'
    same frames.hca here/frames.hca
    good
done
name='the layout as standard output'
"$program" encode --layout here/layout.txt --spectra spectra.f32 --out x.hca >>here/layout.txt 2>err </dev/null
ended $?
says err '--layout and standard output are the same file'
same layout.txt here/layout.txt
absent x.hca
good
want=0 name='frames as standard output, where nothing is said'
"$program" check $layout --quiet --frames here/frames.hca >>here/frames.hca 2>err </dev/null
ended $?
same frames.hca here/frames.hca
good
want=0 name='one device as standard input and output'
"$program" encode $layout --allow-empty --spectra - --out - </dev/null >/dev/null 2>err
ended $?
good

# -- one file seen in two places, and a system that tells nothing of open files; where mounts may be made
mounts='unshare -m'
[ "$(id -u)" -eq 0 ] || mounts='unshare -rm'
mkdir mounted
if $mounts mount --bind here mounted 2>/dev/null; then
    want=2 name='spectra as the output, through another mount'
    $mounts sh -c 'mount --bind here mounted && exec "$@"' sh "$program" encode $layout --spectra here/spectra.f32 --out mounted/spectra.f32 \
        >out 2>err </dev/null
    ended $?
    says err '--spectra and --out are the same file'
    same spectra.f32 here/spectra.f32
    good
    name='the frames as the list, through another mount'
    $mounts sh -c 'mount --bind here mounted && exec "$@"' sh "$program" encode $layout --spectra spectra.f32 --out here/x.hca --list mounted/x.hca \
        >out 2>err </dev/null
    ended $?
    says err '--out and --list are the same file'
    [ "$(ls here | wc -l)" -eq 3 ] || fail "$name: a file is left behind"
    good
fi
if $mounts umount -l /proc 2>/dev/null; then
    want=2 name='spectra as the output, without /proc'
    $mounts sh -c 'umount -l /proc && exec "$@"' sh "$program" encode $layout --spectra here/spectra.f32 --out ./here/spectra.f32 >out 2>err </dev/null
    ended $?
    says err '--spectra and --out are the same file'
    same spectra.f32 here/spectra.f32
    good
fi
