# WAV files.
# told TEXT: standard output has these lines, with a space in place of each line end
told() {
    [ "$(tr '\n' ' ' <out)" = "$1 " ] || fail "$name: it says other numbers"
}
riff=524946460000000057415645
mono8=666d74201000000001000100401f0000000000000000 # one channel at 8,000 Hz; the depth follows
unhex 524946462800000057415645666d74201000000001000100401f0000803e00000200100064617461040000000080ff7f >take.wav
status 0 'wav of 16 bits' wav --in take.wav --samples take.f32
told 'channels 1 rate 8000 depth 16 samples 2 peak 1.000000 (3f800000) mean 0.999985 (3f7fff00)'
holds take.f32 000080bf 00fe7f3f
good
status 0 'wav, quiet' wav --in take.wav --quiet
[ ! -s out ] || fail "$name: something is said"
good
want=0 name='wav by streams'
cat take.wav | "$program" wav --in - --samples - >piped.f32 2>err
ended $?
says err 'samples 2'
same take.f32 piped.f32
good
unhex $riff 4c4953540300000061626300 666d74201000000001000100 80bb0000000000000000 1800 646174610a000000 000080ffff7f010000ff >deep.wav
status 0 'wav of 24 bits, and an odd chunk' wav --in=deep.wav --samples=deep.f32
told 'channels 1 rate 48000 depth 24 samples 3 peak 1.000000 (3f800000) mean 0.666667 (3f2aaaab)'
holds deep.f32 000080bf feff7f3f 00000034
good
unhex $riff $mono8 2000 646174610c000000 0000804b 0000803f 0000803f >float.wav
status 0 'wav of floats' wav --in float.wav
told 'channels 1 rate 8000 depth 32 samples 3 peak 16777216.000000 (4b800000) mean 5592405.500000 (4aaaaaab)'
good
unhex $riff $mono8 2000 6461746108000000 ffff7f7f ffff7fff >loud.wav
status 0 'wav of the largest floats' wav --in loud.wav
told 'channels 1 rate 8000 depth 32 samples 2 peak at least 2^63 (7f7fffff) mean infinite (7f800000)'
good
unhex $riff $mono8 1000 6461746104000000 01000000 >low.wav
status 0 'wav of a low sample' wav --in low.wav
told 'channels 1 rate 8000 depth 16 samples 2 peak 0.000031 (38000000) mean 0.000015 (37800000)'
good
unhex $riff 6461746118000000 000000000000000000000000000000000000000000000000 >bare.wav
status 0 'wav without a format' wav --in bare.wav
told 'channels 2 rate 44100 depth 16 samples 12 peak 0.000000 (00000000) mean 0.000000 (00000000)'
good
# no_wav NUMBER TEXT HEX..: the file is refused
no_wav() {
    number=$1 text=$2
    shift 2
    unhex "$@" >bad.wav
    status 1 "wav refused: $text" wav --in bad.wav --samples x.f32
    says err "hcaframe: refusal $number: $text"
    [ ! -s out ] || fail "$name: something is said"
    absent x.f32
    good
}
no_wav 22 'it is no WAV file' $riff $mono8 1000 64617461020000
no_wav 23 'it has no data chunk' $riff $mono8 1000 6461746100000000
no_wav 24 'its samples are not of 16, 24 or 32 bits' $riff $mono8 0800 6461746104000000 00000000
no_wav 25 'a sample is NaN or infinite' $riff $mono8 2000 6461746104000000 0000807f
status 1 'wav of an empty file' wav --in empty
says err 'hcaframe: refusal 22: '
good

# -- long files
{ unhex $riff $mono8 1000 64617461ffffffff; head -c 2097108 /dev/zero; } >full.wav
status 0 'a WAV file of 2 MiB, which claims more' wav --in full.wav --samples full.f32
says out 'samples 1048554'
says err 'hcaframe: the data chunk claims 4294967295 bytes, and the file has 2097108 of them'
bytes full.f32 4194216
good
printf 0 >>full.wav
status 0 'a WAV file of more than 2 MiB' wav --in full.wav
says out 'samples 1048554'
rm full.wav full.f32
good
# 16 MB of 16 bits, each sample its number
if command -v python3 >/dev/null; then
    python3 - <<'P'
import array, struct
n = 8000000
data = array.array("h", ((i * 40503 >> 5 & 0xFFFF) - 32768 for i in range(n))).tobytes()
head = b"RIFF" + struct.pack("<I", 36 + len(data)) + b"WAVEfmt " + struct.pack("<IHHIIHH", 16, 1, 2, 48000, 192000, 4, 16)
open("long.wav", "wb").write(head + b"data" + struct.pack("<I", len(data)) + data)
open("long.want", "wb").write(array.array("f", (s / 32768 for s in array.array("h", data))).tobytes())
P
    bytes long.wav 16000044
    status 0 'a WAV file of 16 MB' wav --in long.wav --samples long.f32
    silent err
    says out 'samples 8000000'
    same long.want long.f32
    good
    want=0 name='a WAV file of 16 MB, by a stream'
    cat long.wav | "$program" wav --in - --samples again.f32 >out 2>err
    ended $?
    same long.want again.f32
    good
    if command -v sox >/dev/null; then
        name='a WAV file of 16 MB, beside sox'
        sox long.wav -t f32 sox.f32
        same sox.f32 long.f32
        good
    fi
    rm long.*
fi
# a file of 5 GB takes no room on the disk, and is refused without memory for it
{ unhex $riff $mono8 1000 64617461ffffffff; } >huge.wav
sparse huge.wav 5000000000
if [ "$(wc -c <huge.wav)" -eq 5000000000 ]; then
    want=2 name='a WAV file of 5 GB'
    ( ulimit -v 100000; exec "$program" wav --in huge.wav --samples x.f32 >out 2>err )
    ended $?
    says err 'hcaframe: the WAV file has more than 1073741824 bytes, the most that hcaframe takes'
    absent x.f32
    good
    name='a WAV file of 5 GB as standard input'
    ( ulimit -v 100000; exec "$program" wav --in - <huge.wav >out 2>err )
    ended $?
    says err 'hcaframe: the WAV file has more than 1073741824 bytes'
    good
    sparse none.wav 5000000000
    want=1 name='5 GB that are no WAV file: the mark is judged before the size'
    ( ulimit -v 100000; exec "$program" wav --in none.wav >out 2>err )
    ended $?
    says err 'hcaframe: refusal 22: '
    good
    rm none.wav
fi
rm huge.wav

# -- files of another form than they say
{ unhex $riff $mono8 1000 6461746108000000 01000000; } >cut.wav
status 0 'a data chunk that claims more than the file has' wav --in cut.wav --samples cut.f32
says err 'hcaframe: the data chunk claims 8 bytes, and the file has 4 of them'
says out 'samples 2'
bytes cut.f32 8
good
wide='hcaframe: the format tag says integers of 32 bits, and they are read as floats: convert to 24 bits'
unhex $riff $mono8 2000 6461746104000000 00000040 >wide.wav
status 0 'integers of 32 bits' wav --in wide.wav
says err "$wide"
good
unhex $riff $mono8 2000 6461746104000000 ffffffff >wide.wav
status 1 'integers of 32 bits that are no floats' wav --in wide.wav
says err "$wide"
says err 'hcaframe: refusal 25: '
good
real=666d74201000000003000100401f0000000000000000 # the same with the tag of floats
unhex $riff $real 2000 6461746104000000 0000003f >real.wav
status 0 'floats by their tag' wav --in real.wav
says out 'peak 0.500000 (3f000000)'
silent err
good
# the longer form of the format, whose tag stands further behind
unhex $riff 666d742028000000feff0100401f00000000000000002000 160020000000000001000000000010008000 00aa00389b71 6461746104000000 00000040 >wide.wav
status 0 'integers of 32 bits, by the longer format' wav --in wide.wav
says err "$wide"
good

# -- words
status 2 'a WAV file that is missing' wav --in none.wav
says err 'hcaframe: none.wav: No such file or directory'
good
status 2 'samples in the place of their WAV file' wav --in take.wav --samples ./take.wav
says err '--in and --samples are the same file'
good
status 2 'wav without its file' wav --samples x.f32
says err 'hcaframe: --in is missing'
good
status 2 'a layout for a WAV file' wav --in take.wav --layout layout.txt
says err '--layout is not for this command'
absent x.f32
good

