# What the meter of a heat pump shows, by who asks: a tenant sees the heat that was
# used, site staff also how often the pump started, and the factory all that the meter
# counts.
#
# The meter gives a vector: kilowatt-hours of heat, starts, and seconds of overload.
#
#   0.0(meter) answers the tenants' portal
#   0.1(meter) answers site staff
#   0.2(meter) answers the factory
#
# All three dispatch on function 1 by the same line. Its versions stand in order, the
# most telling one first, and each gets the first that its level allows: those above
# are passed over, however well they fit.
#
#   $ fir run examples/levels.fir 0.0 [5120,840,37] --level portal
#   DONE [5120] after 8 steps
#
#   $ fir run examples/levels.fir 0.1 [5120,840,37] --level staff
#   DONE [5120, 840] after 10 steps
#
#   $ fir run examples/levels.fir 0.2 [5120,840,37] --level factory
#   DONE [5120, 840, 37] after 4 steps
#
# The portal looks at all three versions and takes the last:
#
#   $ fir run examples/levels.fir 0.0 [5120,840,37] --level portal --stats
#   DONE [5120] after 8 steps
#     steps: 8 of at most 8
#     calls: 2
#     DISPATCH steps: 1, looked at 3 of 3 versions
#
# A run begins at versions of its level or lower. Whoever may more may also ask what a
# tenant may, and gets the same:
#
#   $ fir run examples/levels.fir 0.0 [5120,840,37] --level factory
#   DONE [5120] after 8 steps
#
#   $ fir run examples/levels.fir 0.1 [5120,840,37] --level portal
#   refused by 19 at 0: 0.1 is of level staff, and the run states portal

version 0.0(r0: vector) -> own vector
  registers r1: own vector
  level portal
  block 0 quiet -> r1
    r1 = dispatch 1(r0: vector) -> own vector quiet

version 0.1(r0: vector) -> own vector
  registers r1: own vector
  level staff
  block 0 quiet -> r1
    r1 = dispatch 1(r0: vector) -> own vector quiet

version 0.2(r0: vector) -> own vector
  registers r1: own vector
  level factory
  block 0 quiet -> r1
    r1 = dispatch 1(r0: vector) -> own vector quiet

# All that the meter counts.
version 1.0(r0: vector) -> own vector
  registers r1: own vector
  level factory
  block 0 quiet -> r1
    r1 = dup r0

# The heat, and the starts. A CALL goes to its own level or down, here down.
version 1.1(r0: vector) -> own vector
  registers r1: own vector, r2: int, r3: int
  level staff
  block 0 quiet -> r1
    r2 = call 2.0(r0)
    r3 = lit 1
    r3 = get r0[r3]
    r1 = vec [r2, r3]

# The heat alone. `call 1.0(r0)` here would be refused by 18.
version 1.2(r0: vector) -> own vector
  registers r1: own vector, r2: int
  level portal
  block 0 quiet -> r1
    r2 = call 2.0(r0)
    r1 = vec [r2]

# The heat of a meter.
version 2.0(r0: vector) -> int
  registers r1: int
  level portal
  block 0 quiet -> r1
    r1 = lit 0
    r1 = get r0[r1]

# Tests, which `fir test` tries.
# test 0.0 [5120,840,37] --level portal: DONE [5120] after 8 steps
# test 0.1 [5120,840,37] --level staff: DONE [5120, 840] after 10 steps
# test 0.2 [5120,840,37] --level factory: DONE [5120, 840, 37] after 4 steps
# test 0.0 [5120,840,37] --level factory: DONE [5120] after 8 steps
# test 0.1 [5120,840,37] --level portal: refused by 19
# test 0.2 [5120,840,37] --level staff: refused by 19
