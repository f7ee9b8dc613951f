"""Compares check sums that a program makes with those of binascii: of 16 bits byte by byte, and that of zip bit by bit."""

import binascii

from piperench import make

DATA = b"A program means the same on two stripes as on two hundred."

telegraph = make.crc(0x1021, 16, bits=8)
results = telegraph.program(stripes=2).run(DATA)["y"]
print(f"crc_hqx {binascii.crc_hqx(DATA, 0):#06x}, the program {int(results[-1]):#06x}")

zipped = make.crc(0x04C11DB7, 32, initial=0xFFFFFFFF, final=0xFFFFFFFF, reflect=True)
bits = [byte >> k & 1 for byte in DATA for k in range(8)]
results = zipped.program().run(bits)["y"]
print(f"crc32 {binascii.crc32(DATA):#010x}, the program {int(results[-1]):#010x} on the {zipped.fabric} fabric")
