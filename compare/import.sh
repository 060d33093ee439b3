#!/bin/sh
# Makes the test copy of the published Rust (cridecoder) in published/src/hca.
# Visibility changes and nothing else, in encoder.rs alone; the last lines check
# that: with every "pub " taken out, copy and original are equal byte for byte.
set -eu
here=$(cd "$(dirname "$0")" && pwd)
from=${1:-$here/cridecoder/src/hca}
to=$here/published/src/hca
work=$(mktemp -d)
trap 'rm -rf "$work"' EXIT

for f in bitreader decoder tables; do cp "$from/$f.rs" "$work/$f.rs"; done
# items at the margin, methods (not the trait's `default`), and the fields of two structs
sed -e 's/^\(fn\|struct\|const\|static\) /pub \1 /' \
    -e '/^    fn default()/!s/^    fn /    pub fn /' \
    -e '/^\(pub \)\{0,1\}struct \(ChannelEncodeState\|HcaEncoder\) {/,/^}/s/^    \([a-z_]*\): /    pub \1: /' \
    "$from/encoder.rs" > "$work/encoder.rs"

for f in encoder bitreader decoder tables; do
    sed 's/pub //g' "$from/$f.rs" > "$work/original"
    sed 's/pub //g' "$work/$f.rs" > "$work/copy"
    cmp "$work/original" "$work/copy"
    # an unchanged copy keeps its time, so that cargo builds nothing anew
    cmp -s "$work/$f.rs" "$to/$f.rs" || cp "$work/$f.rs" "$to/$f.rs"
    echo "$f.rs: equal up to \"pub \", $(diff "$from/$f.rs" "$work/$f.rs" | grep -c '^>') lines made visible"
done

# The second copy of encoder.rs: where MIN_RESOLUTION and MAX_RESOLUTION are used, in three expressions on three lines, two numbers stand that
# the thread sets before it calls (src/limits.rs). In two expressions more, that of spectral_bit_count and that of quantize_spectra below resolution 8, the code
# is first held as the thread's mode says. With the names put back, and the two holds taken out, it has to be the copy above.
sed -e '/^pub const /!{' -e 's/MIN_RESOLUTION/crate::limits::minimum()/g' -e 's/MAX_RESOLUTION/crate::limits::maximum()/g' -e '}' \
    -e 's/quantized\.clamp(0, 15)/crate::limits::held(quantized, 8, resolution).clamp(0, 15)/' \
    -e 's/quantized\.clamp(-8, 7)/crate::limits::held(quantized, 0, resolution).clamp(-8, 7)/' "$work/encoder.rs" > "$work/limited.rs"
sed -e 's/crate::limits::minimum()/MIN_RESOLUTION/g' -e 's/crate::limits::maximum()/MAX_RESOLUTION/g' \
    -e 's/crate::limits::held(quantized, [08], resolution)/quantized/' "$work/limited.rs" > "$work/copy"
cmp "$work/encoder.rs" "$work/copy"
lines=$(diff "$work/encoder.rs" "$work/limited.rs" | grep -c '^>')
holds=$(grep -c 'crate::limits::held(quantized, [08], resolution)' "$work/limited.rs")
if [ "$lines" -ne 5 ] || [ "$holds" -ne 2 ]; then
    echo "limited.rs: $lines lines differ, $holds of them hold a code, not five and two" >&2
    exit 1
fi
cmp -s "$work/limited.rs" "$to/limited.rs" || cp "$work/limited.rs" "$to/limited.rs"
echo "limited.rs: equal to encoder.rs but for the limits of the resolution and the mode, on $lines lines"

# The lines that read a WAV file: encode_wav_to_hca hands out no samples, so its body up to where all are read (`let cfg`) makes a function
# that does. Head and end are new; every line between them has to be the original's.
between() { # the lines of $1 between the first that begins with $2 and ends a head, and the next that begins with $3
    awk -v from="$2" -v to="$3" 'index($0, from) == 1 { head = 1 } inside && index($0, to) == 1 { exit } inside { print }
        head && /\{$/ { inside = 1; head = 0 }' "$1"
}
between "$from/encoder.rs" 'pub fn encode_wav_to_hca' '    let cfg = ' > "$work/original"
{
    echo '//! The lines of encode_wav_to_hca that read the samples, word for word; made by import.sh.'
    echo 'use super::encoder::HcaEncoderError;'
    echo
    echo '/// Samples, channels, rate, depth.'
    echo 'pub fn wav_samples(wav_data: &[u8]) -> Result<(Vec<f32>, u32, u32, u32), HcaEncoderError> {'
    cat "$work/original"
    echo '    Ok((samples, channels, sample_rate, bits_per_sample))'
    echo '}'
} > "$work/wav_samples.rs"
between "$work/wav_samples.rs" 'pub fn wav_samples' '    Ok((samples' > "$work/copy"
cmp "$work/original" "$work/copy"
lines=$(wc -l < "$work/copy")
first=$(grep -n -F -x '    if wav_data.len() < 44 || &wav_data[0..4] != b"RIFF" || &wav_data[8..12] != b"WAVE" {' "$from/encoder.rs" | cut -d: -f1)
cut=$(grep -n '^    let cfg = ' "$from/encoder.rs" | cut -d: -f1)
if [ "$lines" -ne $((cut - first)) ]; then
    echo "wav_samples.rs: $lines lines, not those from $first to $cut of encoder.rs" >&2
    exit 1
fi
cmp -s "$work/wav_samples.rs" "$to/wav_samples.rs" || cp "$work/wav_samples.rs" "$to/wav_samples.rs"
echo "wav_samples.rs: $lines lines of encode_wav_to_hca, equal"
