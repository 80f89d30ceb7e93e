# The script of pump.fir with another function 1: a room that is too warm asks for
# nothing, and takes nothing away from the others.
#
#   $ fir run examples/pump_later.fir 0.0 210 [200,195,225]
#   DONE 25 after 28 steps
#
# Back to pump.fir before the third room is asked, and while it is:
#
#   $ fir run examples/pump_later.fir 0.0 210 [200,195,225] --then examples/pump.fir@18
#   after 18 steps: goes on under examples/pump.fir
#   DONE 10 after 24 steps
#   $ fir run examples/pump_later.fir 0.0 210 [200,195,225] --then examples/pump.fir@22
#   examples/pump.fir:45:1: refused by 15 at 133 after 22 steps: 1.0 has a live call and differs: byte 133 (line 45) is 12, and was 13 at 133 (line 34) of the old image
#   examples/pump_later.fir:40:5: at 179 in 1.0, block 0: r1 = less r0, r2

version 0.0(r0: int, r1: vector) -> int
  # r0 wanted, r1 the three rooms
  registers r2: int, r3: int, r4: int
  level portal
  block 0 quiet -> r4
    r2 = lit 0
    r3 = get r1[r2]
    r4 = call 1.0(r0, r3)
    r2 = lit 1
    r3 = get r1[r2]
    r3 = call 1.0(r0, r3)
    r4 = add r4, r3
    r2 = lit 2
    r3 = get r1[r2]
    r3 = call 1.0(r0, r3)
    r4 = add r4, r3

# What a room asks for: nothing where it is too warm.
version 1.0(r0: int, r1: int) -> int
  registers r2: int
  level portal
  block 0 quiet -> r0
    r0 = sub r0, r1
    r2 = lit 0
    r1 = less r0, r2
    skip 1 unless r1
    r0 = move r2

# Tests, which `fir test` tries.
# test 0.0 210 [200,195,225]: DONE 25 after 28 steps
# test 0.0 210 [210,210,240]: DONE 0          # too warm, and takes nothing away
# test 0.0 210 [200,195,225] --then pump.fir@18: DONE 10 after 24 steps
# test 0.0 210 [200,195,225] --then pump.fir@22: refused by 15 at 133 after 22 steps
