# How warm the water is that flows to the rooms, as the office for heating wrote it.
#
# The colder it is outdoors, the warmer is the flow: half a degree for each degree
# that is missing outdoors. No floor may get more than 35.0 degrees.
#
# Temperatures are in tenths of a degree: 350 is 35.0 degrees.
#
#   0.0(outdoor, room) gives the flow temperature for a room that is to be so warm
#
# At -5.0 degrees outdoors, for 21.0 degrees in the room:
#
#   $ fir run examples/heating.fir 0.0 -50 210
#   DONE 340 after 10 steps
#
# In hard frost the limit holds:
#
#   $ fir run examples/heating.fir 0.0 -200 210
#   DONE 350 after 10 steps
#
# In summer:
#
#   $ fir run examples/heating.fir 0.0 210 210
#   DONE 210 after 10 steps
#
# One box runs this script and water.fir, which is another office's: house.fir is the
# two joined.

version 0.0(outdoor: int, room: int) -> int
  # flow: what is missing outdoors, then half of it, then the temperature
  registers flow: int, two: int
  level portal
  block 0 quiet -> flow
    flow = sub room, outdoor
    two = lit 2
    flow = div flow, two
    flow = add flow, room
    flow = call 1.0(flow)

# The limit of the floors.
version 1.0(flow: int) -> int
  registers limit: int, within: int
  level portal
  block 0 quiet -> flow
    limit = lit 350
    within = less flow, limit
    flow = select within ? flow : limit

# Tests, which `fir test` tries.
# test 0.0 -50 210: DONE 340 after 10 steps
# test 0.0 -200 210: DONE 350                 # the limit of the floors
# test 0.0 210 210: DONE 210
# test 1.0 350: DONE 350
# test 1.0 351: DONE 350
