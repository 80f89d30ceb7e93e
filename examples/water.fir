# How much warmth the tank for hot water is short of, as the office for water wrote it.
#
# Old sensors give a reading, an integer. New ones give a vector: the reading, and the
# tenths of a volt that their battery has.
#
# Temperatures are in tenths of a degree: 500 is 50.0 degrees.
#
#   0.0(tank, wanted) gives by how much the tank is too cold, 0 where it is not
#
# An old sensor:
#
#   $ fir run examples/water.fir 0.0 440 500
#   DONE 60 after 9 steps
#
# A new one:
#
#   $ fir run examples/water.fir 0.0 [440,31] 500
#   DONE 60 after 11 steps
#
# A tank that is warm enough:
#
#   $ fir run examples/water.fir 0.0 520 500
#   DONE 0 after 9 steps
#
# One box runs this script and heating.fir, which is another office's: house.fir is
# the two joined.

version 0.0(r0: value, r1: int) -> int
  # r0 the tank's sensor, r1 how warm it is to be
  registers r2: int
  level portal
  block 0 quiet -> r2
    r2 = dispatch 1(r0: value) -> int quiet
    r2 = call 2.0(r2, r1)

# An old sensor.
version 1.0(r0: int) -> int
  level portal
  block 0 quiet -> r0

# A new one.
version 1.1(r0: vector) -> int
  registers r1: int
  level portal
  block 0 quiet -> r1
    r1 = lit 0
    r1 = get r0[r1]

# What is missing, and nothing where the tank is too warm.
version 2.0(r0: int, r1: int) -> int
  registers r2: int, r3: int
  level portal
  block 0 quiet -> r0
    r0 = sub r1, r0
    r2 = lit 0
    r3 = less r0, r2
    r0 = select r3 ? r2 : r0

# Tests, which `fir test` tries.
# test 0.0 440 500: DONE 60 after 9 steps
# test 0.0 [440,31] 500: DONE 60 after 11 steps
# test 0.0 520 500: DONE 0                    # warm enough
# test 2.0 500 500: DONE 0
