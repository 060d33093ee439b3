# Which frames are good.
status 0 'check' check $layout --frames frames.hca
says out 'frame 0: good'
says out '3 good, 0 refused'
good
status 1 'check finds the damaged frame' check $layout --frames damaged.hca
says out 'frame 0: good'
says out 'frame 1: refusal 8: the check is wrong'
says out 'frame 2: good'
says out '2 good, 1 refused'
good
status 1 'check of a damaged frame, quiet' check $layout --quiet --frames damaged.hca
silent out
silent err
good

# -- whole HCA files
{ printf 'HCA\000\002\000\000\140'; head -c 88 /dev/zero; cat frames.hca; } >whole.hca
for command in check read; do
    status 2 "$command of a whole HCA file" $command $layout --frames whole.hca
    says err 'whole.hca is a whole HCA file, with a header of 96 bytes'
    says err 'read and check take the whole file by --hca FILE'
    says err 'tail -c +97 FILE takes the frames out'
    good
    want=2 name="$command of a whole HCA file as a stream"
    cat whole.hca | "$program" $command $layout --frames - >out 2>err
    ended $?
    says err 'the input is a whole HCA file, with a header of 96 bytes'
    good
done
want=0 name='the frames of a whole HCA file'
tail -c +97 whole.hca | "$program" check $layout --frames - >out 2>err
ended $?
says out '3 good, 0 refused'
good
