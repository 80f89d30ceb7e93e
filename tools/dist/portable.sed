# From the module for x86-64 to one for any machine with the lowest byte first. Its triple, its data layout and its processor go: all
# sizes, offsets and alignments are written out in it. The proved functions of the interface are fir_.._code here, over which
# portable.awk writes others; those that follow the calling convention of x86-64 are kept from outside. portable.c has them again.
/^target datalayout = /d
/^target triple = /d
/^attributes /s/ "target-cpu"="[^"]*"//
/^define [^"]*@fir_[a-z_]*(/s/^define /define internal /
s/@"abi_c::\(fir_[a-z_]*\)"/@\1_code/g
