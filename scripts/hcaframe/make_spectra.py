#!/usr/bin/env python3
"""Writes data/spectra.f32: three frames of one channel, a falling spectrum with two tones, a quieter one, and silence but for one band."""
import math
import struct


def value(frame, subframe, band):
    if frame == 2:
        return 0.25 if band == 3 and subframe == 5 else 0.0
    loud = (1.0, 0.05)[frame]
    tone = 0.5 if band in (7, 19) else 0.0
    return loud * (math.sin(1.7 * band + 0.9 * subframe) * 0.3 / (1 + band) + tone * math.cos(0.4 * subframe))


with open("data/spectra.f32", "wb") as out:
    for frame in range(3):
        for subframe in range(8):
            for band in range(128):
                out.write(struct.pack("<f", value(frame, subframe, band)))
