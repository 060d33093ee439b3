# What the parts of the command line's tests share; scripts/hcaframe-test.sh reads it first. Each part runs in a folder of its own, with these files: the
# spectra of three frames and what they become, the same of a pair, an empty file and spectra with a NaN.
# shellcheck shell=sh

layout='--kinds D --base 40 --stereo 0 --total 60 --frame-size 200'
pair='--kinds PS --base 30 --stereo 10 --total 60 --frame-size 300'
cases=0

prepare() {
    cp "$here"/scripts/hcaframe/data/* .
    "$program" encode $layout --quiet --spectra spectra.f32 --out frames.hca --list frames.list || exit 1
    "$program" read $layout --quiet --frames frames.hca --records records.bin || exit 1
    cat spectra.f32 spectra.f32 >stereo.f32
    head -c 48 /dev/zero >stereo.int
    { head -c 8188 spectra.f32; printf '\001\000\300\177'; tail -c 4096 spectra.f32; } >nan.f32
    { head -c 250 frames.hca; printf '\252\252'; tail -c 348 frames.hca; } >damaged.hca
    : >empty
    : >out
    : >err
}

fail() {
    echo "WRONG: $part: $1"
    echo "--- standard output"
    head -n 20 out
    echo "--- standard error"
    head -n 20 err
    exit 1
}

# status NUMBER NAME WORDS..: runs the program with the words; its status must be the number
status() {
    want=$1 name=$2
    shift 2
    "$program" "$@" >out 2>err </dev/null
    ended $?
}

# ended GOT: the status that the program ended with is the one that is wanted
ended() {
    [ "$1" = "$want" ] || fail "$name: status $1, not $want"
    cases=$((cases + 1))
}

# says FILE TEXT: the file has a line with this text
says() {
    grep -q -F -e "$2" "$1" || fail "$name: no line has: $2"
}

# silent FILE: nothing was written there
silent() {
    [ ! -s "$1" ] || fail "$name: something is said"
}

good() {
    echo "ok: $part: $name"
}

same() {
    cmp -s "$1" "$2" || fail "$name: $1 and $2 differ"
}

# bytes FILE COUNT: the file has so many bytes
bytes() {
    [ "$(wc -c <"$1")" -eq "$2" ] || fail "$name: $1 has another length"
}

# clean: no temporary file is left behind
clean() {
    [ -z "$(ls | grep tmp-)" ] || fail "$name: a file is left behind"
}

absent() {
    [ ! -e "$1" ] || fail "$name: $1 is there"
    clean
}

# holds FILE HEX..: the file's bytes are these
holds() {
    file=$1
    shift
    [ "$(od -An -v -tx1 "$file" | tr -d ' \n')" = "$(printf %s "$@")" ] || fail "$name: $file holds other bytes"
}

# unhex HEX..: these bytes
unhex() {
    printf "$(printf %s "$@" | awk -v d=0123456789abcdef '{ for (i = 1; i < length($0); i += 2)
        printf "\\%03o", 16 * (index(d, substr($0, i, 1)) - 1) + index(d, substr($0, i + 1, 1)) - 1 }')"
}

# sparse FILE BYTES: a file of zeros that takes no room on the disk
sparse() {
    dd if=/dev/zero of="$1" bs=1 count=0 seek="$2" 2>/dev/null
}

# beside: files in a folder, and a second way there, for calls of which two words name one file
beside() {
    mkdir here inner
    cp spectra.f32 frames.hca layout.txt here
    ln -s ../here inner/there
}

# twin NAME WORDS..: such a call is refused, and every file stays as it was
twin() {
    status 2 "$@"
    says err 'are the same file'
    for file in spectra.f32 frames.hca layout.txt; do same $file here/$file; done
    [ "$(ls here | wc -l)" -eq 3 ] || fail "$name: a file is left behind"
    silent out
    good
}
