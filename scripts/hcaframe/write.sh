# Records to frames.
status 0 'write' write $layout --records records.bin --out back.hca
says out '3 frames, 600 bytes'
same frames.hca back.hca
good
"$program" encode $pair --quiet --spectra stereo.f32 --intensities stereo.int --out stereo.hca
"$program" read $pair --quiet --frames stereo.hca --records stereo.bin
status 0 'stereo write' write $pair --records stereo.bin --out stereo2.hca
same stereo.hca stereo2.hca
good
one='--kinds D --base 1 --stereo 0 --total 1 --frame-size 8'
printf '\377\377\377\377\000\000\000\374' >high.hca
"$program" read $one --quiet --frames high.hca --records high.bin
status 0 'level 511 and boundary 127, written' write $one --records high.bin --out high2.hca
same high.hca high2.hca
good
{ printf '\377\377\377\377'; tail -c 12716 records.bin; } >illegal.bin
status 1 'a record that is not legal' write $layout --records illegal.bin --out x.hca
says err 'frame 0: refusal 15: the record is not legal'
absent x.hca
good
status 1 'a record that does not fit' write --kinds D --base 40 --stereo 0 --total 60 --frame-size 100 --records records.bin --out x.hca
says err 'frame 0: refusal 7 with bits needed: '
absent x.hca
good
