# For dmasim asm: copies a byte 256 times.
DMALP 1 256
DMALD
DMAST
DMALPEND 1 2
DMAEND
