# How far the flow temperature may drop at night.
#
# At night the rooms may cool down a little, so the water that flows to them may
# be cooler. In hard frost it may drop less, since the house takes too long to
# warm up again.
#
# Temperatures are in tenths of a degree: 80 is 8.0 degrees.
#
#   0.0(outdoor, hour) gives by how much the flow temperature may drop
#
# At 23 o'clock, 2.0 degrees outdoors:
#
#   $ fir run examples/setback.fir 0.0 20 23
#   DONE 80 after 26 steps
#
# The same hour at -9.0 degrees:
#
#   $ fir run examples/setback.fir 0.0 -90 23
#   DONE 30 after 26 steps
#
# At noon:
#
#   $ fir run examples/setback.fir 0.0 20 12
#   DONE 0 after 26 steps
#
# After a power cut the clock is not set, and gives a vector without items in
# place of the hour. Then the promise below is never looked at:
#
#   $ fir run examples/setback.fir 0.0 20 []
#   DONE 0 after 10 steps

version 0.0(r0: int, r1: value) -> int
  # r0 outdoor, r1 the hour or []
  registers r2: quiet promise, r3: value, r4: int, r5: int, r6: int
  level portal
  block 0 quiet -> r4
    # Three names for what the promise is to know.
    store x0 = r0
    r4 = lit 80
    store x1 = r4
    r4 = lit 30
    store x2 = r4

    # Block 1 is put off until somebody forces it.
    r2 = prom 1
    r4 = dispatch 1(r1: value, r2: quiet promise) -> int quiet

  # How much is allowed at this outdoor temperature: x2 below -5.0 degrees, else x1.
  block 1 quiet -> r4
    r3 = named x0
    r4 = cast r3
    r5 = lit -50
    r5 = less r4, r5
    r3 = named x2
    r4 = cast r3
    r3 = named x1
    r6 = cast r3
    r4 = select r5 ? r4 : r6

# The hour is known. At night, before 6 and after 21, what the promise allows; by
# day nothing.
version 1.0(r0: int, r1: quiet promise) -> int
  registers r2: int, r3: int
  level portal
  block 0 quiet -> r2
    r2 = lit 6
    r2 = less r0, r2
    r3 = lit 21
    r3 = less r3, r0
    r2 = add r2, r3
    r3 = force r1
    r2 = mul r2, r3

# The clock is not set: no drop.
version 1.1(r0: vector, r1: quiet promise) -> int
  registers r2: int
  level portal
  block 0 quiet -> r2
    r2 = lit 0

# Tests, which `fir test` tries.
# test 0.0 20 23: DONE 80 after 26 steps
# test 0.0 -90 23: DONE 30                    # hard frost
# test 0.0 20 12: DONE 0
# test 0.0 20 5: DONE 80
# test 0.0 20 6: DONE 0
# test 0.0 20 []: DONE 0 after 10 steps       # the clock is not set
