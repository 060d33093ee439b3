# Inputs: missing, cut, empty, from a pipe, and files that change while they are read.
status 2 'a file that is missing' encode $layout --spectra none.f32 --out x.hca
says err 'hcaframe: none.f32: No such file or directory'
absent x.hca
good
head -c 5000 spectra.f32 >short.f32
status 2 'a file that ends within a frame' encode $layout --spectra short.f32 --out x.hca
says err 'short.f32: 5000 bytes'
says err '4096 bytes; bytes over: 904'
absent x.hca
good
mkdir inner
status 2 'a folder' check $layout --frames inner
says err 'Is a directory'
good
status 2 'an output folder that is missing' encode $layout --spectra spectra.f32 --out none/x.hca
says err 'No such file or directory'
good

# -- no frames at all: mostly a producer that failed
echo kept >kept.hca
cp kept.hca kept.copy
status 2 'empty spectra' encode $layout --spectra empty --out kept.hca
says err 'hcaframe: empty has no frames; where that is meant, say --allow-empty'
same kept.hca kept.copy
clean
good
status 2 'empty frames' check $layout --frames empty
says err 'hcaframe: empty has no frames'
good
status 2 'empty frames, read' read $layout --frames empty --records kept.hca
says err 'hcaframe: empty has no frames'
same kept.hca kept.copy
good
status 2 'empty records' write $layout --records empty --out kept.hca
says err 'hcaframe: empty has no frames'
same kept.hca kept.copy
good
want=2 name='a producer that failed in a pipe'
false | "$program" encode $layout --spectra - --out kept.hca --list x.list >out 2>err
ended $?
says err 'hcaframe: the input has no frames; where that is meant, say --allow-empty'
same kept.hca kept.copy
absent x.list
good
status 0 'empty spectra that are meant' encode $layout --allow-empty --spectra empty --out empty.hca
says out '0 frames, 0 bytes'
same empty empty.hca
good
status 0 'empty frames that are meant' check $layout --allow-empty --frames empty
says out '0 good, 0 refused'
good
status 0 'empty frames that are meant, read' read $layout --frames empty --allow-empty --records empty.bin
says out '0 frames, 0 bytes'
same empty empty.bin
good
status 0 'empty records that are meant' write $layout --records empty --out empty.hca --allow-empty --quiet
silent out
same empty empty.hca
good
status 2 'the word for empty inputs where none is' wav --in empty --allow-empty
says err '--allow-empty is not for this command'
good

# -- pipes
mkfifo pipe
cat spectra.f32 >pipe &
status 0 'spectra from a pipe' encode $layout --spectra pipe --out piped.hca
same frames.hca piped.hca
good
head -c 5000 spectra.f32 >pipe &
status 2 'a pipe that ends within a frame' encode $layout --spectra pipe --out x.hca
says err 'the input ends within frame 1; bytes of it: 904 of 4096'
absent x.hca
good


# -- a file that changes while it is read: the program waits for its intensities, and has opened and measured its spectra then
# changes NAME BYTES: the spectra of 2,000 frames become as long as this
changes() {
    want=2 name=$1
    sparse change.f32 8192000
    "$program" encode $layout --spectra change.f32 --intensities pipe --out x.hca >out 2>err </dev/null &
    running=$!
    exec 3>pipe
    sparse change.f32 "$2"
    head -c 16000 /dev/zero >&3
    exec 3>&-
    wait $running
    ended $?
    absent x.hca
}
changes 'a file that becomes shorter' 5734400
says err 'hcaframe: change.f32: 1400 of 2000 frames'
good
changes 'a file that is cut within a frame' 5734500
says err 'hcaframe: change.f32: 1400 of 2000 frames'
good
changes 'a file that becomes longer' 8196096
says err 'hcaframe: change.f32: more than 2000 frames'
good
