"""Takes the noise out of a sound: a WAV file of a tone with noise is filtered by 31 taps, and both are drawn.

Writes noisy.wav, filtered.wav and noise.svg into the folder that it is called in, and tells how much noise is left.
"""

import math
import random

from piperench import Streams, make, plot, signals

RATE, SECONDS, TONE = 8000, 1, 200


def low_pass(taps: int, cut: float, bits: int) -> list[int]:
    """A symmetric low-pass filter by its sinc under a Hann window; the factors sum up to about 2^bits."""
    middle = (taps - 1) / 2
    window = [0.5 - 0.5 * math.cos(2 * math.pi * (k + 1) / (taps + 1)) for k in range(taps)]
    ideal = [2 * cut if k == middle else math.sin(2 * math.pi * cut * (k - middle)) / (math.pi * (k - middle)) for k in range(taps)]
    return [round(value * weight * 2**bits) for value, weight in zip(ideal, window)]


def loudness(values: list[int]) -> float:
    return math.sqrt(sum(value * value for value in values) / len(values))


chance = random.Random(1)
tone = [round(8000 * math.sin(2 * math.pi * TONE * n / RATE)) for n in range(RATE * SECONDS)]
noisy = [value + round(chance.gauss(0, 3000)) for value in tone]
signals.write_wav("noisy.wav", noisy, rate=RATE)

# The filter, as a program.
made = make.fir(low_pass(31, 500 / RATE, 8), bits=16)
program = made.program(stripes=8)

# The file through the filter. The sum of the factors is 2^8, so a shift by 8 gives the old loudness.
sound = signals.read_wav("noisy.wav")
filtered = [y >> 8 for y in program.run(sound.channels)["y"].tolist()]
signals.write_wav("filtered.wav", filtered, rate=sound.rate)
assert program.run(sound.channels).rows() == made.model(sound.channels)

plot.lines(Streams({"noisy": noisy[:400], "filtered": filtered[:400]})).save("noise.svg")

# The filter is late by 15 samples; what is left beside the tone is noise.
before = loudness([a - b for a, b in zip(noisy, tone)])
after = loudness([a - b for a, b in zip(filtered[31:], tone[16:])])
print(f"noise before {before:.0f}, after {after:.0f}, {program.cost().units} units")
