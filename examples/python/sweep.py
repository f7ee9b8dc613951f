"""Runs one filter on more and more stripes: the results stay, and the cycles fall."""

from piperench import make

made = make.fir([-3, -9, -7, 12, 45, 73, 73, 45, 12, -7, -9, -3], bits=8)
samples = [(n * n + 17 * n) % 256 - 128 for n in range(500)]
expected = made.model(samples)
program = made.program()
told = {speed.stripes: speed.run for speed in program.cost(samples=len(samples)).speeds}
print(f"{len(program.cost().stages)} stages")
print("stripes  cycles")
for stripes in (2, 3, 4, 8, 16, 32, 64):
    trace = program.trace(samples, stripes=stripes)
    assert trace.results.rows() == expected
    assert trace.cycles == told.get(stripes, trace.cycles)
    print(f"{stripes:7}  {trace.cycles:6}")
