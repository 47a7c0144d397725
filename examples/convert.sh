# A number, a text, a refusal, a malformed table, a signal of 4 bits, the same in a file of edition 4.10, and many values; mdf-convert is on the PATH.
mdf-convert samples/tractor.mdf 528 signed -3
mdf-convert samples/tractor.mdf 2488 unsigned 6
mdf-convert samples/tractor.mdf 0xd60 unsigned 1
mdf-convert samples/tractor.mdf 3688 unsigned 15
mdf-convert samples/tractor.mdf 4288 signed -1 --width 4
mdf-convert samples/tractor.mdf 4288 signed -1 --width 4 --edition 4.10
printf '6\n0\n' | mdf-convert samples/tractor.mdf 2488 unsigned -
