//! Texts laid out anew.

use text::{assemble, lay_out};

/// Asserts what a text is laid out to, and that this stays as it is.
#[track_caller]
fn laid(text: &str, expected: &str) {
    let anew = lay_out(text).expect("a text that is well formed");
    assert_eq!(anew, expected);
    assert_eq!(lay_out(&anew).as_deref(), Ok(expected), "a second time");
    assert_eq!(assemble(text), assemble(expected), "the image");
}

#[test]
fn words_have_one_space_between_them_and_signs_those_of_the_form() {
    for (line, expected) in [
        ("flow=move   r1", "flow = move r1"),
        ("r1 =vec[r0 ,flow]", "r1 = vec [r0, flow]"),
        ("r1 = vec [ ]", "r1 = vec []"),
        ("r1 = get r0 [ r1 ]", "r1 = get r0[r1]"),
        ("set r0 [r1]=flow", "set r0[r1] = flow"),
        ("r1=add r0,flow", "r1 = add r0, flow"),
        ("r1 = arith  9 r0 , r1", "r1 = arith 9 r0, r1"),
        ("r1=select r0?flow:r1", "r1 = select r0 ? flow : r1"),
        ("store x1=r0", "store x1 = r0"),
        ("r1 = peek r0 . x1", "r1 = peek r0.x1"),
        ("poke r0.x1=r1", "poke r0.x1 = r1"),
        ("r1=call 3 . 1 ( r0 ,r1 )", "r1 = call 3.1(r0, r1)"),
        ("r1 = call 3.1( )", "r1 = call 3.1()"),
        (
            "r1=dispatch 3( r0:int ,flow :own   vector)->value quiet",
            "r1 = dispatch 3(r0: int, flow: own vector) -> value quiet",
        ),
        ("skip 3\tunless r0", "skip 3 unless r0"),
        ("r1=lit -7", "r1 = lit -7"),
        ("bytes 01  fF", "bytes 01 fF"),
    ] {
        let head = "version 0.0(r0: int, r1: int, flow: int) -> int\n  level portal\n  block 0 quiet -> r0\n";
        laid(
            &format!("{head}\t {line} "),
            &format!("{head}    {expected}\n"),
        );
    }
}

#[test]
fn declarations_stand_one_step_to_the_right_and_counts_without_spaces() {
    laid(
        "  version 0 . 0 ( a :int,r1:0x47 )->own vector parameters = 3 blocks =2\n\
         registers b:int , r3: quiet   promise\n      level 9\nblock 0 mark 7->b count= 5\n",
        "version 0.0(a: int, r1: 0x47) -> own vector parameters=3 blocks=2\n  \
         registers b: int, r3: quiet promise\n  level 9\n  block 0 mark 7 -> b count=5\n",
    );
}

#[test]
fn words_stay_as_they_are_written() {
    let text = "version 0.0(flow: int) -> int\n  level 1\n  block 0 quiet -> r0\n    r0 = arith 0 r0, flow\n";
    laid(text, text);
}

#[test]
fn a_version_has_one_blank_line_before_it_or_before_its_comments() {
    laid(
        "\n\n# The first.\nversion 0.0(r0: int) -> int\nlevel portal\nblock 0 quiet -> r0\n\
         # The second,\n# and more.\nversion 1.0(r0: int) -> int\nlevel portal\nblock 0 quiet -> r0\n\n\n\n\
         version 2.0(r0: int) -> int\nlevel portal\nblock 0 quiet -> r0\nversion 3.0(r0: int) -> int\n\n\n",
        "# The first.\nversion 0.0(r0: int) -> int\n  level portal\n  block 0 quiet -> r0\n\n\
         # The second,\n# and more.\nversion 1.0(r0: int) -> int\n  level portal\n  block 0 quiet -> r0\n\n\
         version 2.0(r0: int) -> int\n  level portal\n  block 0 quiet -> r0\n\nversion 3.0(r0: int) -> int\n",
    );
}

#[test]
fn comments_stand_as_what_they_stand_before() {
    laid(
        "   # The head.\n\n# Of the version.\nversion 0.0(r0: int) -> int\n# Of the level.\nlevel portal\n\
         # Of the block.\nblock 0 quiet -> r0\n# Of the literal,\n#in two lines.\nr0 = lit 1\n\n# Loose.\n\nr0 = lit 2\n",
        "# The head.\n\n# Of the version.\nversion 0.0(r0: int) -> int\n  # Of the level.\n  level portal\n  \
         # Of the block.\n  block 0 quiet -> r0\n    # Of the literal,\n    #in two lines.\n    r0 = lit 1\n\n    \
         # Loose.\n\n    r0 = lit 2\n",
    );
}

#[test]
fn a_loose_comment_before_a_version_stays_at_the_left_or_below_the_code_before_it() {
    laid(
        "version 0.0(r0: int) -> int\nblock 0 quiet -> r0\nr0 = lit 1\n # The end of the block.\n\n\
         # A new part.\n\nversion 1.0(r0: int) -> int\nblock 0 quiet -> r0\n\n# test 0.0 7: DONE 1   # aligned\n  # Within.",
        "version 0.0(r0: int) -> int\n  block 0 quiet -> r0\n    r0 = lit 1\n    # The end of the block.\n\n\
         # A new part.\n\nversion 1.0(r0: int) -> int\n  block 0 quiet -> r0\n\n# test 0.0 7: DONE 1   # aligned\n  # Within.\n",
    );
}

#[test]
fn comments_behind_code_stand_one_below_the_other() {
    laid(
        "version 0.0(r0: int) -> int #a\nlevel portal      # b   \nblock 0 quiet -> r0\nr0 = lit 1# c\n\
         r0 = lit -100 # d\n\nr0 = lit 1 # e\n# f\nr0 = lit 22 # é\n",
        "version 0.0(r0: int) -> int  #a\n  level portal               # b\n  block 0 quiet -> r0\n    r0 = lit 1     # c\n    \
         r0 = lit -100  # d\n\n    r0 = lit 1  # e\n    # f\n    r0 = lit 22  # é\n",
    );
}

#[test]
fn line_ends_are_those_of_the_first_line() {
    laid(
        "version 0.0(r0: int) -> int\r\nlevel portal # b \r\n# c\r\nblock 0 quiet -> r0",
        "version 0.0(r0: int) -> int\r\n  level portal  # b\r\n  # c\r\n  block 0 quiet -> r0\r\n",
    );
}

#[test]
fn nothing_is_laid_out_to_nothing_and_comments_alone_to_themselves() {
    laid("", "");
    laid("\n \n\t\n", "");
    laid("  # a\n#b  \n\n\n  # c", "# a\n#b\n\n# c\n");
}

#[test]
fn a_text_that_is_wrong_is_not_laid_out() {
    let error = lay_out("version 0.0(r0: int) -> int\n  r0 = lot 1\n").expect_err("it is wrong");
    assert_eq!((error.line, error.column), (2, 8));
}
