//! The words of refusals by question 8: each rule of "Types fit when".

mod support;

use cases::image;
use support::refused;

/// A version with a register of each type: VERSION at 0, BLOCK at 24, the first
/// instruction at 31. Version 1.0 behind it has a parameter of each ownership.
fn with(instructions: &str) -> Vec<u8> {
    image(&format!(
        "version 0.0(r0: int, r1: vector, r2: own vector, r3: borrow vector, r4: value, r5: any, r6: quiet promise, r7: reflective promise) -> int
           registers r8: own vector
           block 0 reflective -> r0
             {instructions}
         version 1.0(r0: own vector, r1: borrow vector, r2: int) -> own vector
           block 0 quiet -> r0
         version 1.1(r0: value, r1: reflective promise) -> value
           block 0 quiet -> r0"
    ))
}

/// Asserts the words for an instruction that question 8 refuses at 31.
#[track_caller]
fn misfit(instruction: &str, words: &str) {
    refused(&with(instruction), &format!("refused by 8 at 31: {words}"));
}

#[test]
fn a_plain_result_needs_a_shared_register_whose_kind_holds_it() {
    misfit("r1 = lit 5", "LIT gives an integer, r1 is a shared vector");
    misfit("r2 = lit 5", "LIT gives an integer, r2 is an owned vector");
    misfit("r6 = len r1", "LEN gives an integer, r6 is a quiet promise");
    misfit(
        "r1 = get r1[r0]",
        "GET gives an integer, r1 is a shared vector",
    );
    misfit(
        "r8 = add r0, r0",
        "ARITH add gives an integer, r8 is an owned vector",
    );
    misfit(
        "r7 = select r0 ? r0 : r0",
        "SELECT gives an integer, r7 is a reflective promise",
    );
}

#[test]
fn a_fresh_vector_needs_an_owned_register_or_one_whose_kind_holds_it() {
    misfit("r0 = vec []", "VEC gives a fresh vector, r0 is an integer");
    misfit(
        "r6 = dup r1",
        "DUP gives a fresh vector, r6 is a quiet promise",
    );
    misfit("r0 = use r2", "USE gives a fresh vector, r0 is an integer");
    misfit(
        "r0 = call 1.0(r2, r1, r0)",
        "CALL of 1.0 gives a fresh vector, r0 is an integer",
    );
}

#[test]
fn nothing_enters_a_borrowed_register() {
    misfit(
        "r3 = vec []",
        "VEC gives a fresh vector, r3 is a borrowed vector, which nothing enters",
    );
    misfit(
        "r3 = lit 1",
        "LIT gives an integer, r3 is a borrowed vector, which nothing enters",
    );
    misfit(
        "r3 = move r1",
        "MOVE gives a shared vector, r3 is a borrowed vector, which nothing enters",
    );
}

#[test]
fn move_takes_a_shared_source_within_its_destination() {
    misfit(
        "r1 = move r2",
        "MOVE needs a shared source, r2 is an owned vector",
    );
    misfit(
        "r1 = move r3",
        "MOVE needs a shared source, r3 is a borrowed vector",
    );
    misfit(
        "r0 = move r4",
        "MOVE needs a source within r0's kind, r0 is an integer, r4 is of kind value",
    );
    misfit(
        "r6 = move r7",
        "MOVE needs a source within r6's kind, r6 is a quiet promise, r7 is a reflective promise",
    );
    misfit(
        "r2 = move r1",
        "MOVE gives a shared vector, r2 is an owned vector",
    );
}

#[test]
fn cast_takes_a_shared_source_to_a_shared_destination() {
    misfit(
        "r1 = cast r2",
        "CAST needs a shared source, r2 is an owned vector",
    );
    misfit(
        "r2 = cast r5",
        "CAST gives a shared vector, r2 is an owned vector",
    );
}

#[test]
fn store_and_poke_take_a_shared_value() {
    misfit(
        "store x0 = r2",
        "STORE needs a shared source, r2 is an owned vector",
    );
    misfit(
        "store x0 = r6",
        "STORE needs an integer, a vector or a value, r6 is a quiet promise",
    );
    misfit(
        "store x0 = r5",
        "STORE needs an integer, a vector or a value, r5 is of kind any",
    );
    misfit(
        "poke r6.x0 = r3",
        "POKE needs a shared source, r3 is a borrowed vector",
    );
    misfit(
        "poke r6.x0 = r7",
        "POKE needs an integer, a vector or a value, r7 is a reflective promise",
    );
}

#[test]
fn use_and_set_take_an_owned_vector() {
    misfit(
        "r1 = use r1",
        "USE needs an owned vector, r1 is a shared vector",
    );
    misfit(
        "r1 = use r3",
        "USE needs an owned vector, r3 is a borrowed vector",
    );
    misfit(
        "set r1[r0] = r0",
        "SET needs an owned vector, r1 is a shared vector",
    );
    misfit(
        "set r3[r0] = r0",
        "SET needs an owned vector, r3 is a borrowed vector",
    );
}

#[test]
fn dup_len_and_get_take_any_vector() {
    misfit("r1 = dup r0", "DUP needs a vector, r0 is an integer");
    misfit("r0 = len r4", "LEN needs a vector, r4 is of kind value");
    misfit("r0 = get r5[r0]", "GET needs a vector, r5 is of kind any");
}

#[test]
fn indices_items_and_operands_are_integers() {
    misfit(
        "r0 = get r1[r1]",
        "GET needs an integer as index, r1 is a shared vector",
    );
    misfit(
        "set r2[r4] = r0",
        "SET needs an integer as index, r4 is of kind value",
    );
    misfit(
        "set r2[r0] = r1",
        "SET needs an integer as item, r1 is a shared vector",
    );
    misfit(
        "r1 = vec [r0, r4]",
        "VEC needs integers as items, r4 is of kind value",
    );
    misfit(
        "r0 = div r1, r0",
        "ARITH div needs integers, r1 is a shared vector",
    );
    misfit(
        "r0 = less r0, r5",
        "ARITH less needs integers, r5 is of kind any",
    );
    misfit(
        "r0 = select r4 ? r0 : r0",
        "SELECT needs integers, r4 is of kind value",
    );
    misfit(
        "r0 = select r0 ? r0 : r6",
        "SELECT needs integers, r6 is a quiet promise",
    );
}

#[test]
fn named_and_peek_give_a_value() {
    misfit("r0 = named x0", "NAMED gives a value, r0 is an integer");
    misfit(
        "r1 = peek r6.x0",
        "PEEK gives a value, r1 is a shared vector",
    );
}

#[test]
fn peek_poke_and_force_take_a_promise() {
    misfit(
        "r4 = peek r1.x0",
        "PEEK needs a promise, r1 is a shared vector",
    );
    misfit("poke r5.x0 = r0", "POKE needs a promise, r5 is of kind any");
    misfit("r0 = force r0", "FORCE needs a promise, r0 is an integer");
    misfit(
        "r1 = force r6",
        "FORCE gives an integer, r1 is a shared vector",
    );
}

#[test]
fn prom_gives_a_promise_by_its_blocks_mark() {
    misfit(
        "r6 = prom 1\nblock 1 reflective -> r0",
        "PROM gives a reflective promise, r6 is a quiet promise",
    );
    misfit(
        "r4 = prom 1\nblock 1 quiet -> r0",
        "PROM gives a quiet promise, r4 is of kind value",
    );
}

#[test]
fn arguments_of_a_call_fit_the_parameters() {
    misfit(
        "r8 = call 1.0(r1, r1, r0)",
        "CALL of 1.0: parameter r0 is an owned vector, r1 is a shared vector",
    );
    misfit(
        "r8 = call 1.0(r2, r4, r0)",
        "CALL of 1.0: parameter r1 is a borrowed vector, r4 is of kind value",
    );
    misfit(
        "r8 = call 1.0(r2, r3, r4)",
        "CALL of 1.0: parameter r2 is an integer, r4 is of kind value",
    );
    misfit(
        "r4 = call 1.1(r2, r6)",
        "CALL of 1.1: parameter r0 is of kind value, r2 is an owned vector",
    );
    misfit(
        "r4 = call 1.1(r0, r1)",
        "CALL of 1.1: parameter r1 is a reflective promise, r1 is a shared vector",
    );
    misfit(
        "r0 = call 1.1(r0, r7)",
        "CALL of 1.1 gives a value, r0 is an integer",
    );
}

#[test]
fn a_register_that_a_call_empties_stands_once_in_it() {
    misfit(
        "r8 = call 1.0(r2, r2, r0)",
        "CALL of 1.0 empties r2, which stands in it 2 times",
    );
    misfit(
        "r0 = dispatch 1(r2: own vector, r2: own vector, r2: borrow vector) -> int quiet",
        "DISPATCH of function 1 empties r2, which stands in it 3 times",
    );
}

#[test]
fn dispatch_is_judged_by_its_own_signature() {
    misfit(
        "r0 = dispatch 1(r0: int, r1: own vector) -> int quiet",
        "DISPATCH of function 1: argument 2 is declared an owned vector, r1 is a shared vector",
    );
    misfit(
        "r0 = dispatch 1(r4: int) -> int quiet",
        "DISPATCH of function 1: argument 1 is declared an integer, r4 is of kind value",
    );
    misfit(
        "r0 = dispatch 1() -> own vector quiet",
        "DISPATCH of function 1 gives a fresh vector, r0 is an integer",
    );
    misfit(
        "r8 = dispatch 1() -> vector quiet",
        "DISPATCH of function 1 gives a shared vector, r8 is an owned vector",
    );
}

#[test]
fn promise_blocks_set_and_empty_nothing() {
    let in_block = |instruction: &str, words: &str| {
        refused(
            &with(&format!(
                "r7 = prom 1\nblock 1 reflective -> r0\n{instruction}"
            )),
            &format!("refused by 8 at 44: {words}"),
        );
    };
    in_block(
        "r1 = use r2",
        "USE empties r2 in block 1, and a promise block sets and empties nothing",
    );
    in_block(
        "set r2[r0] = r0",
        "SET sets an item of r2 in block 1, and a promise block sets and empties nothing",
    );
    in_block(
        "r1 = call 1.0(r2, r3, r0)",
        "CALL of 1.0 empties r2 in block 1, and a promise block sets and empties nothing",
    );
    in_block(
        "r0 = dispatch 1(r8: own vector) -> int quiet",
        "DISPATCH of function 1 empties r8 in block 1, and a promise block sets and empties nothing",
    );
}

#[test]
fn a_promise_block_gives_an_integer() {
    refused(
        &with("r7 = prom 1\nblock 1 reflective -> r1"),
        "refused by 8 at 37: BLOCK 1 gives r1, a shared vector, and a promise gives an integer",
    );
    refused(
        &with("r7 = prom 1\nblock 1 reflective -> r5"),
        "refused by 8 at 37: BLOCK 1 gives r5, of kind any, and a promise gives an integer",
    );
}

#[test]
fn block_0_gives_what_its_version_returns() {
    let gives = |parameter: &str, returns: &str, words: &str| {
        refused(
            &image(&format!(
                "version 0.0(r0: {parameter}) -> {returns}\nblock 0 quiet -> r0"
            )),
            &format!("refused by 8 at 16: BLOCK 0 gives r0, {words}"),
        );
    };
    gives(
        "vector",
        "int",
        "a shared vector, and 0.0 returns an integer",
    );
    gives(
        "vector",
        "own vector",
        "a shared vector, and 0.0 returns an owned vector",
    );
    gives(
        "borrow vector",
        "vector",
        "a borrowed vector, and 0.0 returns a shared vector",
    );
    gives("any", "value", "of kind any, and 0.0 returns a value");
}
