# Which riser gets heat first.
#
# A riser is the pipe that feeds one row of flats, and each asks for heat in
# watts. The one that asks for most goes first; of two that ask for the same, the
# one with the lower number. Risers are numbered from 0.
#
#   0.0(demands) gives the number of the riser
#
# The demands are a vector of 1 to 16 integers:
#
#   $ fir run examples/riser.fir 0.0 [800,2400,1900]
#   DONE 1 after 176 steps
#
#   $ fir run examples/riser.fir 0.0 [500,500,300,500]
#   DONE 0 after 176 steps
#
# A small house has one riser, and its demand is a plain integer:
#
#   $ fir run examples/riser.fir 0.0 1200
#   DONE 0 after 4 steps
#
# Without a riser there is nothing to choose:
#
#   $ fir run examples/riser.fir 0.0 []
#   UNDEF after 10 steps
#   examples/riser.fir:94:5: at 363 in 3.0, block 0: r5 = get r0[r1]: index 0 is outside of v0 []
#
# No run takes more than 176 steps, whatever the demands are, and the first two above take
# as many. Versions stand behind those that they call:
#
#   $ fir bounds examples/riser.fir --under 200
#   examples/riser.fir:48:1: 1.0 2 steps
#   examples/riser.fir:84:1: 3.0 8 steps
#   examples/riser.fir:70:1: 2.0 41 steps
#   examples/riser.fir:54:1: 1.1 174 steps
#   examples/riser.fir:41:1: 0.0 176 steps
#
# `fir bounds examples/riser.fir --why` says what each is made of.

# DISPATCH looks at what the demands are and picks 1.0 or 1.1.
version 0.0(r0: value) -> int
  registers r1: int
  level portal
  block 0 quiet -> r1
    r1 = dispatch 1(r0: value) -> int quiet

# One riser: it is the first.
version 1.0(r0: int) -> int
  level portal
  block 0 quiet -> r0
    r0 = lit 0

# Several: riser 0 is the best so far, and four groups of four may better it.
version 1.1(r0: vector) -> int
  registers r1: int, r2: int
  level portal
  block 0 quiet -> r1
    r1 = lit 0
    r2 = lit 0
    r1 = call 2.0(r0, r1, r2)
    r2 = lit 4
    r1 = call 2.0(r0, r1, r2)
    r2 = lit 8
    r1 = call 2.0(r0, r1, r2)
    r2 = lit 12
    r1 = call 2.0(r0, r1, r2)

# The best of the best so far, r1, and four risers from r2 on. The demands are
# borrowed: they are looked at, not copied.
version 2.0(r0: borrow vector, r1: int, r2: int) -> int
  registers r3: int
  level portal
  block 0 quiet -> r1
    r3 = lit 1
    r1 = call 3.0(r0, r1, r2)
    r2 = add r2, r3
    r1 = call 3.0(r0, r1, r2)
    r2 = add r2, r3
    r1 = call 3.0(r0, r1, r2)
    r2 = add r2, r3
    r1 = call 3.0(r0, r1, r2)

# The better one of the best so far, r1, and riser r2.
version 3.0(r0: borrow vector, r1: int, r2: int) -> int
  registers r3: int, r4: int, r5: int, r6: int
  level portal
  block 0 quiet -> r1
    # A riser that does not exist is replaced by the best so far.
    r3 = len r0
    r3 = less r2, r3
    r4 = select r3 ? r2 : r1

    # Does it ask for more?
    r5 = get r0[r1]
    r6 = get r0[r4]
    r5 = less r5, r6
    r1 = select r5 ? r4 : r1

# Tests, which `fir test` tries.
# test 0.0 [800,2400,1900]: DONE 1 within 176 steps
# test 0.0 [500,500,300,500]: DONE 0 within 176 steps
# test 0.0 [0,0,0,0,0,0,0,0,0,0,0,0,0,0,0,1]: DONE 15
# test 0.0 1200: DONE 0 after 4 steps
# test 0.0 []: UNDEF                          # nothing to choose
