# When to defrost the outdoor coil.
#
# Frost grows on the coil while the outdoor air is cold and damp. It shows in a
# coil that is much colder than the air. A defrost costs heat, so it is not
# started too often, and only below two degrees; but after three hours in the
# cold the sensors are not trusted any more, and it is started anyway.
#
# Temperatures are in tenths of a degree Celsius: 20 is 2.0 degrees.
#
#   0.0(outdoor, coil, minutes since the last defrost) gives 1 for yes, 0 for no
#
# A coil at -7.5 degrees in air of 1.5 degrees, 55 minutes after the last one:
#
#   $ fir run examples/defrost.fir 0.0 15 -75 55
#   DONE 1 after 24 steps
#
# The same only 20 minutes after the last one:
#
#   $ fir run examples/defrost.fir 0.0 15 -75 20
#   DONE 0 after 24 steps
#
# A coil that looks well after 4 hours in the cold:
#
#   $ fir run examples/defrost.fir 0.0 15 10 240
#   DONE 1 after 24 steps
#
# Just below two degrees, and at two degrees, where all else is skipped:
#
#   $ fir run examples/defrost.fir 0.0 19 -75 240
#   DONE 1 after 24 steps
#
#   $ fir run examples/defrost.fir 0.0 20 -75 240
#   DONE 0 after 4 steps

version 0.0(outdoor: int, coil: int, minutes: int) -> int
  # defrost, frosted and due are 1 for yes and 0 for no
  registers defrost: int, frosted: int, due: int, limit: int
  level portal
  block 0 quiet -> defrost
    # Only below 2.0 degrees; else defrost is 0, and stays so.
    limit = lit 20
    defrost = less outdoor, limit
    skip 7 unless defrost

    # Is the coil frosted, and have 40 minutes gone by?
    frosted = call 1.0(outdoor, coil)
    limit = lit 40
    due = less limit, minutes
    defrost = call 2.0(frosted, due)

    # Or have 180 minutes gone by?
    limit = lit 180
    due = less limit, minutes
    defrost = call 2.1(defrost, due)

# Is the coil frosted? It is below zero, and more than 8.0 degrees colder than
# the air.
version 1.0(outdoor: int, coil: int) -> int
  registers frost: int, colder: int, limit: int
  level portal
  block 0 quiet -> frost
    limit = lit 0
    frost = less coil, limit
    colder = sub outdoor, coil
    limit = lit 80
    colder = less limit, colder
    frost = call 2.0(frost, colder)

# Both of two.
version 2.0(r0: int, r1: int) -> int
  level portal
  block 0 quiet -> r0
    r0 = mul r0, r1

# At least one of two.
version 2.1(r0: int, r1: int) -> int
  level portal
  block 0 quiet -> r0
    r0 = select r0 ? r0 : r1

# Tests, which `fir test` tries.
# test 0.0 15 -75 55: DONE 1 after 24 steps   # frosted
# test 0.0 15 -75 20: DONE 0                  # too soon
# test 0.0 15 10 240: DONE 1                  # by the hours alone
# test 0.0 19 -75 240: DONE 1                 # just below 2.0 degrees
# test 0.0 20 -75 240: DONE 0 after 4 steps   # at 2.0 degrees all else is skipped
# test 0.0 11 -70 41: DONE 1                  # more than 8.0 degrees colder
# test 0.0 10 -70 41: DONE 0                  # not more
# test 0.0 11 -70 40: DONE 0
# test 1.0 11 -70: DONE 1
# test 1.0 110 1: DONE 0                      # no frost above zero
# test 0.0 15 -75: refused by 12
