# A value to text turned around behind the end of the image, in a file of its own, and a text turned back into its number; mdf-convert is on the PATH.
mdf-convert samples/tractor.mdf 1664 --invert target/back.mdf
mdf-convert target/back.mdf 4400 text Low
