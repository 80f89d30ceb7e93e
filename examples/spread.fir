# How much warmer the flow of a circuit is than its return.
#
# Old sensors give a reading, an integer. New ones give a vector: the reading, and
# the tenths of a volt that their battery has. A circuit may have either at its flow
# and either at its return, so function 1 has four versions, one for each pair.
#
# Temperatures are in tenths of a degree: 60 is 6.0 degrees.
#
#   0.0(flow, return) gives the difference
#
# Two old sensors:
#
#   $ fir run examples/spread.fir 0.0 350 290 --stats
#   DONE 60 after 4 steps
#     steps: 4 of at most 7
#     calls: 1
#     DISPATCH steps: 1, looked at 1 of 4 versions
#
# Two new ones fit the last version alone, so that all four are looked at each time.
# A plant that has only new ones is served sooner where that version comes first:
#
#   $ fir run examples/spread.fir 0.0 [350,29] [290,31] --stats
#   DONE 60 after 7 steps
#     steps: 7 of at most 7
#     calls: 1
#     DISPATCH steps: 1, looked at 4 of 4 versions
#
# One of each; `fir trace` shows what each DISPATCH looked at:
#
#   $ fir run examples/spread.fir 0.0 350 [290,31]
#   DONE 60 after 6 steps

# DISPATCH looks at what the sensors gave and picks the first version that takes it.
version 0.0(r0: value, r1: value) -> int
  registers r2: int
  level portal
  block 0 quiet -> r2
    r2 = dispatch 1(r0: value, r1: value) -> int quiet

version 1.0(r0: int, r1: int) -> int
  level portal
  block 0 quiet -> r0
    r0 = sub r0, r1

version 1.1(r0: vector, r1: int) -> int
  registers r2: int
  level portal
  block 0 quiet -> r2
    r2 = lit 0
    r2 = get r0[r2]
    r2 = sub r2, r1

version 1.2(r0: int, r1: vector) -> int
  registers r2: int
  level portal
  block 0 quiet -> r2
    r2 = lit 0
    r2 = get r1[r2]
    r2 = sub r0, r2

version 1.3(r0: vector, r1: vector) -> int
  registers r2: int, r3: int
  level portal
  block 0 quiet -> r2
    r3 = lit 0
    r2 = get r0[r3]
    r3 = get r1[r3]
    r2 = sub r2, r3

# Tests, which `fir test` tries.
# test 0.0 350 290: DONE 60 after 4 steps
# test 0.0 [350,29] 290: DONE 60
# test 0.0 350 [290,31]: DONE 60 after 6 steps
# test 0.0 [350,29] [290,31]: DONE 60 after 7 steps
# test 0.0 [] 290: UNDEF                      # a sensor without a reading
