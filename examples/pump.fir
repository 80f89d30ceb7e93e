# The speed of the circulating pump, from what three rooms ask for.
#
# Temperatures are in tenths of a degree: 210 is 21.0 degrees. A room asks for
# more speed the colder it is, and takes away from the others where it is too warm.
#
#   0.0(wanted, the three rooms) gives what they ask for together
#
# Two rooms are too cold, by 1.0 and by 1.5 degrees; the third is too warm by 1.5:
#
#   $ fir run examples/pump.fir 0.0 210 [200,195,225]
#   DONE 10 after 18 steps
#
# The pump may not stop for an update. pump_later.fir lets no room take away from
# the others. It differs in function 1 alone, so a run may go on under it where 1.0
# has no live call. After 12 steps the third room is still to be asked:
#
#   $ fir run examples/pump.fir 0.0 210 [200,195,225] --then examples/pump_later.fir@12
#   after 12 steps: goes on under examples/pump_later.fir
#   DONE 25 after 22 steps
#
# After 9 steps the second room is being asked:
#
#   $ fir run examples/pump.fir 0.0 210 [200,195,225] --then examples/pump_later.fir@9
#   examples/pump_later.fir:34:1: refused by 15 at 133 after 9 steps: 1.0 has a live call and differs: byte 133 (line 34) is 13, and was 12 at 133 (line 45) of the old image
#   examples/pump.fir:47:3: at 150 in 1.0, block 0: end -> r0

version 0.0(r0: int, r1: vector) -> int
  # r0 wanted, r1 the three rooms
  registers r2: int, r3: int, r4: int
  level portal
  block 0 quiet -> r4
    r2 = lit 0
    r3 = get r1[r2]
    r4 = call 1.0(r0, r3)
    r2 = lit 1
    r3 = get r1[r2]
    r3 = call 1.0(r0, r3)
    r4 = add r4, r3
    r2 = lit 2
    r3 = get r1[r2]
    r3 = call 1.0(r0, r3)
    r4 = add r4, r3

# What a room asks for.
version 1.0(r0: int, r1: int) -> int
  level portal
  block 0 quiet -> r0
    r0 = sub r0, r1

# Tests, which `fir test` tries.
# test 0.0 210 [200,195,225]: DONE 10 after 18 steps
# test 0.0 210 [210,210,240]: DONE -30        # too warm: it takes away from the others
# test 0.0 210 [200,195]: UNDEF               # the third room is missing
# test 0.0 210 [200,195,225] --then pump_later.fir@12: DONE 25 after 22 steps
# test 0.0 210 [200,195,225] --then pump_later.fir@9: refused by 15 at 133 after 9 steps
