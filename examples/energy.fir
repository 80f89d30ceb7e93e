# The energy counter of a heat pump, in watt-seconds.
#
#   0.0(counter, seconds, readings) gives the counter after readings of the
#   power in watts, each of which stands for so many seconds
#
# Four days of 6 kW come to 2,073,600,000, so that 32 bits are used up in the
# fifth. An hour of it, by a reading every quarter of an hour:
#
#   $ fir run examples/energy.fir 0.0 2147000000 900 [5800,6100,6000,5900]
#   DONE 2168420000 after 50 steps
#
# Where a solar roof feeds in, readings are below zero:
#
#   $ fir run examples/energy.fir 0.0 -2147000000 900 [-800,-1200]
#   DONE -2148800000 after 30 steps
#
# No sum wraps. What a full counter comes to is not a number below zero:
#
#   $ fir run examples/energy.fir 0.0 9223372036854775807 900 [1]
#   UNDEF after 19 steps
#   examples/energy.fir:42:5: at 57 in 0.0, block 0: r0 = add r0, r3: 9223372036854775807 + 900 is out of range
#
# 1.0 adds one reading and calls itself for the others, so that no bound is given for it,
# nor for 0.0, which calls it:
#
#   $ fir bounds examples/energy.fir
#   examples/energy.fir:33:1: 0.0 none: 0.0 calls 1.0 calls 1.0
#   examples/energy.fir:45:1: 1.0 none: 1.0 calls 1.0
#
# Its runs end nevertheless, since a vector has 16 items at most: with 16 readings one takes
# 170 steps. Where the plant must be told a bound, calls go down step by step, as in riser.fir.

version 0.0(r0: int, r1: int, r2: vector) -> int
  # r0: the counter; r1: the seconds of a reading; r2: the readings
  registers r3: int
  level portal

  block 0 quiet -> r0
    r3 = lit 0
    r3 = call 1.0(r2, r3)
    r3 = mul r3, r1
    r0 = add r0, r3

# The sum of the readings from a place on.
version 1.0(r0: vector, r1: int) -> int
  registers r2: int, r3: int
  level portal

  block 0 quiet -> r2
    r2 = lit 0
    r3 = len r0
    r3 = less r1, r3
    skip 5 unless r3
    r2 = get r0[r1]
    r3 = lit 1
    r1 = add r1, r3
    r3 = call 1.0(r0, r1)
    r2 = add r2, r3

# Tests, which `fir test` tries.
# test 0.0 2147000000 900 [5800, 6100, 6000, 5900]: DONE 2168420000
# test 0.0 -2147000000 900 [-800, -1200]: DONE -2148800000
# test 0.0 5 900 []: DONE 5
# test 0.0 9223372036854775807 900 [1]: UNDEF after 19 steps
# test 0.0 0 900 [1,2,3,4,5,6,7,8,9,10,11,12,13,14,15,16]: DONE 122400 after 170 steps
# test 0.0 0 900 [1,2,3] --budget 10: STEPS after 10 steps
