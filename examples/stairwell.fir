# The rooms of a stairwell, for a block of eight on one box.
#
# Each room keeps two vectors while those behind it are looked at: so a stairwell
# of 9 rooms needs 18 at once, and eight stairwells share 64.
#
#   0.0(rooms) gives the sum of their numbers, 1 to that of the last
#
# No room, and three, alone:
#
#   $ fir run examples/stairwell.fir 0.0 0
#   DONE 0 after 3 steps
#
#   $ fir run examples/stairwell.fir 0.0 3
#   DONE 6 after 30 steps
#
# Nine, of which the last keeps the 17th and the 18th vector:
#
#   $ fir run examples/stairwell.fir 0.0 9
#   DONE 45 after 84 steps
#
# stairwells.plan, beside this script, lets eight of them go on in turn.

version 0.0(r0: int) -> int
  # r0 rooms, r1 those behind the first, r2 and r3 what it keeps, r4 the sum
  registers r1: int, r2: vector, r3: vector, r4: int
  level portal
  block 0 quiet -> r4
    r4 = lit 0
    skip 6 unless r0
    r2 = vec [r0]
    r3 = vec [r0, r0]
    r1 = lit 1
    r1 = sub r0, r1
    r4 = call 0.0(r1)
    r4 = add r4, r0

# Tests, which `fir test` tries.
# test 0.0 0: DONE 0 after 3 steps
# test 0.0 3: DONE 6 after 30 steps
# test 0.0 9: DONE 45 after 84 steps
# test 0.0 32: DEEP                           # 32 calls live at once, and no more
