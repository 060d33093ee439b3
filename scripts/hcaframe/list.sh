# What a list holds, in numbers and as a picture.
unhex 564649000100000000 >empty.list
unhex 564649000100000003 000c280000000522 00fe7f3fffffffff 01ff000700000000 >three.list
status 0 'list' list --list three.list
says out '       1    254       127     63 4294967295'
says out '3 frames: highest level 511, most pairs removed 63, bits 4294968609'
good
want=0 name='list from standard input'
"$program" list --list - <three.list >piped 2>err
ended $?
same out piped
good
status 0 'list, quiet' list --list three.list --quiet
[ ! -s out ] || fail "$name: something is said"
good
status 0 'a frame of a list' list --list three.list --frame 2
says out '       2    511         0      7          0'
[ "$(wc -l <out)" -eq 2 ] || fail "$name: more than a frame"
good
for frame in 3 4294967296 999999999999999999; do
    status 1 "a frame that a list does not have: $frame" list --list three.list --frame $frame --svg x.svg
    says err 'hcaframe: refusal 31: it has no such frame'
    absent x.svg
    good
done
status 0 'a list of no frames, told' list --list empty.list
says out '0 frames: highest level 0, most pairs removed 0, bits 0'
good
status 0 'the list of the frames' list --list frames.list --svg frames.svg --frame-size 200
says out '3 frames: '
says frames.svg '<svg '
for frame in 0 1 2; do says frames.svg "y='339'>$frame</text>"; done
[ "$(tail -n 1 frames.svg)" = '</svg>' ] || fail "$name: the picture does not end"
if command -v python3 >/dev/null; then
    python3 -c 'import sys, xml.dom.minidom; xml.dom.minidom.parse(sys.argv[1])' frames.svg >out 2>err || fail "$name: the picture is not well-formed"
fi
good
want=0 name='a picture on standard output'
"$program" list --list frames.list --svg - --frame-size=200 >piped.svg 2>err </dev/null
ended $?
says err '3 frames: '
same frames.svg piped.svg
good
# no_list NUMBER TEXT HEX..: the list is refused
no_list() {
    number=$1 text=$2
    shift 2
    unhex "$@" >bad.list
    status 1 "list refused: $text" list --list bad.list --svg x.svg
    says err "hcaframe: refusal $number: $text"
    absent x.svg
    good
}
no_list 19 'it is no list' 5646490002000000
no_list 19 'it is no list' 564649000200000001
no_list 20 'its length is not 9 bytes and 8 for each of its frames' 564649000100000001
no_list 20 'its length is not 9 bytes and 8 for each of its frames' 564649000120000001 000c280000000522
no_list 21 "a frame's level is above 511" 564649000100000002 000c280000000522 0200000000000000
{ unhex 564649000100010000; head -c 524288 /dev/zero; } >long.list
status 0 'a list of 65,536 frames' list --list long.list --svg long.svg
says out '65536 frames: highest level 0, most pairs removed 0, bits 0'
says long.svg 'frames 0 to 65535'
good
# the count of a list of 5 GB is another one, and the mark of the second file is none
unhex 564649000100010000 >huge.list
sparse huge.list 5000000000
sparse none.list 5000000000
if [ "$(wc -c <huge.list)" -eq 5000000000 ]; then
    want=1 name='a list of 5 GB'
    ( ulimit -v 100000; exec "$program" list --list huge.list >out 2>err )
    ended $?
    says err 'hcaframe: refusal 20: '
    name='a list of 5 GB by a stream'
    cat huge.list | ( ulimit -v 100000; exec "$program" list --list - >out 2>err )
    ended $?
    says err 'hcaframe: refusal 20: '
    name='5 GB that are no list'
    ( ulimit -v 100000; exec "$program" list --list none.list >out 2>err )
    ended $?
    says err 'hcaframe: refusal 19: '
    good
fi
rm huge.list none.list
status 2 'the picture in the place of its list' list --list three.list --svg ./three.list
says err '--list and --svg are the same file'
good
status 2 'a frame size without a picture' list --list three.list --frame-size 200
says err 'hcaframe: --frame-size is given without --svg'
good
status 2 'a frame size that no frame has' list --list three.list --svg x.svg --frame-size 7
says err 'hcaframe: --frame-size is 7; it is 8 to 65535'
absent x.svg
good
status 2 'a layout for a list' list --list three.list --total 60
says err '--total is not for this command'
good

want=2 name='the list as standard output'
cp three.list copy.list
"$program" list --list copy.list >>copy.list 2>err </dev/null
ended $?
says err '--list and standard output are the same file'
same three.list copy.list
good
