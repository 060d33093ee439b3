# Frames to what they hold, and to records.
status 0 'read' read $layout --frames frames.hca
says out 'frame 2: level '
says out 'codes 7:'
says out '3 frames, 600 bytes'
good
status 0 'read with records' read $layout --frames frames.hca --records records.bin
bytes records.bin 12720
good
status 0 'read, quiet' read $layout --quiet --frames frames.hca --records again.bin
silent out
same records.bin again.bin
good
"$program" encode $pair --quiet --spectra stereo.f32 --intensities stereo.int --out stereo.hca
status 0 'stereo read' read $pair --frames stereo.hca --records stereo.bin
says out 'channel 1, coded bands 30'
good

# -- any level and any boundary that the fields hold
one='--kinds D --base 1 --stereo 0 --total 1 --frame-size 8'
printf '\377\377\377\377\000\000\000\374' >high.hca
status 0 'level 511 and boundary 127' read $one --frames high.hca --records high.bin
says out 'frame 0: level 511, boundary 127'
holds high.bin ff010000 7f000000 "$(printf %08464d 0)"
good

# -- refusals
status 1 'read stops at the damaged frame' read $layout --frames damaged.hca --records x.bin
says err 'frame 1: refusal 8'
says out 'frame 0: level '
absent x.bin
good
