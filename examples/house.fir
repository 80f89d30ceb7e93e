# Heating and hot water in one box: heating.fir and water.fir, joined. The commands stand
# here; the versions below are as `fir join` writes them, which keeps no comments.
#
#   $ fir join examples/heating.fir examples/water.fir -o house.bin
#   file                  its function  its number now
#   examples/heating.fir             0               0
#   examples/heating.fir             1               1
#   examples/water.fir               0               2
#   examples/water.fir               1               3
#   examples/water.fir               2               4
#   joined to house.bin, 302 bytes, 5 functions, 6 versions
#
# With `-o house.fir` it writes the text. Function 0 of water.fir is function 2 now, and
# its DISPATCH and its CALL go to functions 3 and 4. All else is as it was, so that each
# entry gives what it gives alone, after as many steps:
#
#   $ fir run house.bin 0.0 -50 210
#   DONE 340 after 10 steps
#   $ fir run house.bin 2.0 [440,31] 500
#   DONE 60 after 11 steps
#   $ fir check house.bin
#   0.0 2 2 0 0
#   1.0 1 3 0 0
#   2.0 2 1 0 0
#   3.0 1 0 0 0
#   3.1 1 1 0 0
#   4.0 2 3 0 0
#   accepted 6
#
# Behind the functions of both there is nothing:
#
#   $ fir run house.bin 5.0 7
#   refused by 11 at 0: there is no function 5, the last function is 4
#
# Tests, which `fir test` tries.
# test 0.0 -50 210: DONE 340 after 10 steps
# test 2.0 440 500: DONE 60 after 9 steps
# test 2.0 [440,31] 500: DONE 60 after 11 steps
# test 5.0 7: refused by 11
# test check: accepted 6

version 0.0(r0: int, r1: int) -> int
  registers r2: int, r3: int
  level portal
  block 0 quiet -> r2
    r2 = sub r1, r0
    r3 = lit 2
    r2 = div r2, r3
    r2 = add r2, r1
    r2 = call 1.0(r2)

version 1.0(r0: int) -> int
  registers r1: int, r2: int
  level portal
  block 0 quiet -> r0
    r1 = lit 350
    r2 = less r0, r1
    r0 = select r2 ? r0 : r1

version 2.0(r0: value, r1: int) -> int
  registers r2: int
  level portal
  block 0 quiet -> r2
    r2 = dispatch 3(r0: value) -> int quiet
    r2 = call 4.0(r2, r1)

version 3.0(r0: int) -> int
  level portal
  block 0 quiet -> r0

version 3.1(r0: vector) -> int
  registers r1: int
  level portal
  block 0 quiet -> r1
    r1 = lit 0
    r1 = get r0[r1]

version 4.0(r0: int, r1: int) -> int
  registers r2: int, r3: int
  level portal
  block 0 quiet -> r0
    r0 = sub r1, r0
    r2 = lit 0
    r3 = less r0, r2
    r0 = select r3 ? r2 : r0
