# What no command may mind: a large environment, a small stack.
# commands: each of them, with its outputs
commands() {
    "$program" encode $layout --spectra spectra.f32 --out x.hca --list x.list >out 2>err </dev/null && same frames.hca x.hca && same frames.list x.list &&
        "$program" encode $pair --unmixed stereo.f32 --out x.hca >out 2>err </dev/null &&
        "$program" read $layout --frames frames.hca --records x.bin >out 2>err </dev/null && same records.bin x.bin &&
        "$program" write $layout --records records.bin --out x.hca >out 2>err </dev/null && same frames.hca x.hca &&
        "$program" check $layout --frames frames.hca >out 2>err </dev/null &&
        "$program" header $layout --rate 48000 --count 3 --padding 0 --frames frames.hca --out x.hca >out 2>err </dev/null &&
        "$program" wav --in "$here/sample/line.wav" --samples x.f32 >out 2>err </dev/null &&
        "$program" list --list frames.list --svg x.svg --frame-size 200 >out 2>err </dev/null &&
        "$program" encode $sixteen --spectra sixteen.f32 --out x.hca >out 2>err </dev/null &&
        "$program" read $sixteen --frames x.hca --records x.bin >out 2>err </dev/null &&
        "$program" write $sixteen --records x.bin --out y.hca >out 2>err </dev/null && same x.hca y.hca &&
        "$program" convert "$here/sample/pair.wav" --bitrate 72000 --out x.hca >out 2>err </dev/null &&
        "$program" bank --in "$here/sample" --out made --bitrate 72000 --force >out 2>err </dev/null && same x.hca made/pair.hca
}
sixteen='--kinds DDDDDDDDDDDDDDDD --base 100 --stereo 0 --total 128 --frame-size 65535'
i=0
while [ $i -lt 16 ]; do cat spectra.f32; i=$((i + 1)); done >sixteen.f32

want=0 name='every command in an environment of 1 MB'
(
    value=$(printf %0120000d 0)
    export v1="$value" v2="$value" v3="$value" v4="$value" v5="$value" v6="$value" v7="$value" v8="$value" v9="$value"
    commands
)
ended $?
good
name='every command on a stack of 256 KiB'
( ulimit -s 256 && commands )
ended $?
good
