# Standard input, output and error: as files, closed, full, or given up.

# -- as files
want=0 name='standard input'
"$program" check $layout --frames - <frames.hca >out 2>err
ended $?
says out '3 good, 0 refused'
good
name='standard output'
"$program" encode $layout --spectra - --out - <spectra.f32 >piped.hca 2>err
ended $?
cp piped.hca out
same frames.hca piped.hca
says err '3 frames, 600 bytes'
good
name='standard output, quiet'
"$program" write $layout --quiet --records=records.bin --out=- >piped.hca 2>err </dev/null
ended $?
same frames.hca piped.hca
silent err
good
name='records on standard output'
cat frames.hca | "$program" read --layout layout.txt --frames - --records - >piped.bin 2>err
ended $?
same records.bin piped.bin
says err 'frame 2: level '
good
name='the layout from standard input'
"$program" check --layout - --frames frames.hca <layout.txt >out 2>err
ended $?
says out '3 good, 0 refused'
good
want=2 name='standard input in the middle of a frame'
{ head -c 100 >/dev/null; "$program" check $layout --frames - >out 2>err; } <frames.hca
ended $?
says err 'the input ends within frame 2; bytes of it: 100 of 200'
good
status 2 'standard input twice' encode $layout --spectra - --intensities - --out x.hca
says err '--spectra and --intensities are the same file'
absent x.hca
good

# -- closed, full, or given up
closed() {
    same frames.hca x.hca
    rm x.hca
    good
}
: >out
want=0 name='standard output closed'
"$program" encode $layout --spectra spectra.f32 --out x.hca 2>err </dev/null >&-
ended $?
closed
name='the null device, open both ways'
"$program" encode $layout --spectra spectra.f32 --out x.hca 2>err </dev/null 1<>/dev/null
ended $?
closed
name='standard input and output closed'
"$program" encode $layout --spectra spectra.f32 --out x.hca 2>err <&- >&-
ended $?
closed
name='standard output closed, quiet'
"$program" encode $layout --quiet --spectra spectra.f32 --out x.hca 2>err <&- >&-
ended $?
closed
name='all three closed'
"$program" encode --layout layout.txt --spectra spectra.f32 --out x.hca <&- >&- 2>&-
closed
name='standard error closed, and a refusal'
"$program" encode $layout --spectra nan.f32 --out x.hca >out </dev/null 2>&-
absent x.hca
good
want=2 name='closed standard input as an input'
"$program" check $layout --frames - >out 2>err <&-
ended $?
says err 'Bad file descriptor'
good
name='closed standard output as an output'
"$program" encode $layout --spectra spectra.f32 --out - 2>err </dev/null >&-
ended $?
says err 'Bad file descriptor'
good
name='closed standard output as an output, quiet'
"$program" encode $layout --quiet --spectra spectra.f32 --out - 2>err </dev/null >&-
ended $?
says err 'Bad file descriptor'
good
if [ -w /dev/full ]; then
    name='standard output is full'
    for file in frames.hca empty; do
        "$program" check $layout --allow-empty --frames $file >/dev/full 2>err </dev/null
        ended $?
        says err 'hcaframe: standard output: No space left on device'
    done
    "$program" encode $layout --spectra spectra.f32 --out x.hca >/dev/full 2>err </dev/null
    ended $?
    says err 'hcaframe: standard output: No space left on device'
    says err 'hcaframe: x.hca is whole'
    closed
    name='standard output is full, and there are two files'
    "$program" encode $layout --spectra spectra.f32 --out x.hca --list x.list >/dev/full 2>err </dev/null
    ended $?
    says err 'hcaframe: x.hca is whole'
    says err 'hcaframe: x.list is whole'
    same frames.list x.list
    rm x.list
    closed
    want=1 name='standard output is full, and a frame is refused'
    "$program" encode $layout --spectra nan.f32 --out x.hca >/dev/full 2>err </dev/null
    ended $?
    says err 'frame 1: refusal 4 '
    absent x.hca
    good
    want=2 name='the help on a full device'
    "$program" --help >/dev/full 2>err
    ended $?
    says err 'hcaframe: standard output: No space left on device'
    good
    name='frames on a full device'
    "$program" encode $layout --spectra spectra.f32 --out - >/dev/full 2>err </dev/null
    ended $?
    says err 'hcaframe: writing: No space left on device'
    good
    name='frames on a full device, and a list'
    "$program" encode $layout --spectra spectra.f32 --out - --list x.list >/dev/full 2>err </dev/null
    ended $?
    says err 'hcaframe: writing: No space left on device'
    says err 'hcaframe: no file is whole'
    absent x.list
    good
fi
want=0 name='a closed pipe ends the text, not the records'
# enough frames that a pipe does not hold their text
i=0
while [ $i -lt 40 ]; do cat frames.hca; i=$((i + 1)); done >many.hca
{ "$program" read $layout --frames many.hca --records x.bin 2>err; echo $? >code; } | head -n 1 >out
ended "$(cat code)"
says out 'frame 0: level '
silent err
bytes x.bin 508800
clean
good

# -- progress, where a person watches and the work is long: two batches of frames with a pause between them
if python3 -c 'import pty' 2>/dev/null; then
    cat >watched.py <<'P'
import os, pty, subprocess, sys, time
watched, terminal = pty.openpty()
with open(os.devnull, "w") as nowhere:
    run = subprocess.Popen(sys.argv[1:], stdin=subprocess.PIPE, stdout=nowhere, stderr=terminal)
os.close(terminal)
for pause in (1.2, 0):
    run.stdin.write(bytes(512 * 4096))
    run.stdin.flush()
    time.sleep(pause)
run.stdin.close()
said = b""
while True:
    try:
        part = os.read(watched, 4096)
    except OSError:
        break
    if not part:
        break
    said += part
sys.stdout.buffer.write(said)
sys.exit(run.wait())
P
    want=0 name='progress on a terminal'
    python3 watched.py "$program" encode $layout --spectra - --out x.hca >out 2>err
    ended $?
    says out 'frame 1024'
    good
    name='progress on a terminal, quiet'
    python3 watched.py "$program" encode $layout --quiet --spectra - --out x.hca >out 2>err
    ended $?
    silent out
    good
    rm x.hca
fi
