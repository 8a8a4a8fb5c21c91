//! Expressions and scripts as the language has them.

use super::Rng;
use super::random::{ATOMS, MATHS};

const INFIX: [u16; 16] = [9, 6, 31, 20, 50, 51, 52, 53, 54, 55, 56, 57, 9, 31, 20, 31];

/// An expression of about `size` tokens.
pub fn expression(rng: &mut Rng, size: usize) -> Vec<u16> {
    let mut ops = Vec::with_capacity(size + 4);
    put_expression(rng, size, &mut ops);
    ops
}

/// Statements of about `size` tokens.
pub fn script(rng: &mut Rng, size: usize) -> Vec<u16> {
    let mut ops = Vec::with_capacity(size + 8);
    put_script(rng, size, &mut ops);
    ops
}

/// `size` in two parts, neither empty.
fn split(rng: &mut Rng, size: usize) -> (usize, usize) {
    let left = 1 + rng.below(size.max(2) - 1);
    (left, size.saturating_sub(left).max(1))
}

fn put_expression(rng: &mut Rng, size: usize, ops: &mut Vec<u16>) {
    if size < 2 {
        ops.push(*rng.pick(&ATOMS));
        return;
    }
    match rng.below(if size < 4 { 8 } else { 16 }) {
        0 | 1 | 8 | 9 | 10 => {
            let (left, right) = split(rng, size - 1);
            put_expression(rng, left, ops);
            ops.push(*rng.pick(&INFIX));
            put_expression(rng, right, ops);
        }
        2 => put_after(rng, 6, size - 1, ops),
        3 => put_after(rng, 7, size - 1, ops),
        4 => {
            ops.push(*rng.pick(&[43, 42, 44, 40]));
            ops.extend(vec![45; (1 + rng.below(3)).min(size - 1)]);
        }
        5 => {
            ops.extend([43, 58]);
            put_expression(rng, size.saturating_sub(2), ops);
        }
        6 => ops.extend([43, 72, 43]),
        7 | 11 => {
            ops.push(4);
            put_expression(rng, size.saturating_sub(2), ops);
            ops.push(5);
        }
        12 => {
            ops.extend([41, 2]);
            put_expression(rng, size - 3, ops);
            ops.push(3);
        }
        13 => put_conditional(rng, size, ops),
        _ => put_call(rng, size, ops),
    }
}

/// A prefix operator and its operand.
fn put_after(rng: &mut Rng, prefix: u16, size: usize, ops: &mut Vec<u16>) {
    ops.push(prefix);
    put_expression(rng, size, ops);
}

fn put_conditional(rng: &mut Rng, size: usize, ops: &mut Vec<u16>) {
    let (condition, rest) = split(rng, size - 2);
    let (then, otherwise) = split(rng, rest);
    put_expression(rng, condition, ops);
    ops.push(59);
    put_expression(rng, then, ops);
    if rng.chance(85) {
        ops.push(60);
        put_expression(rng, otherwise, ops);
    }
}

fn put_call(rng: &mut Rng, size: usize, ops: &mut Vec<u16>) {
    let function = if rng.chance(50) {
        40
    } else {
        *rng.pick(&MATHS)
    };
    ops.extend([function, 4]);
    let mut left = size - 3;
    loop {
        let (argument, rest) = split(rng, left);
        put_expression(rng, argument, ops);
        left = rest;
        if rest <= 1 || rng.chance(50) {
            break;
        }
        ops.push(75);
    }
    ops.push(5);
}

fn put_script(rng: &mut Rng, size: usize, ops: &mut Vec<u16>) {
    let goal = ops.len() + size;
    loop {
        let left = goal.saturating_sub(ops.len()).max(2);
        let statement = 1 + rng.below((left - 1).min(24));
        put_statement(rng, statement, ops);
        ops.push(73);
        if ops.len() >= goal {
            return;
        }
    }
}

fn put_statement(rng: &mut Rng, size: usize, ops: &mut Vec<u16>) {
    match rng.below(if size < 8 { 6 } else { 9 }) {
        0 | 1 => {
            ops.push(*rng.pick(&[43, 44]));
            if rng.chance(25) {
                ops.push(45);
            }
            ops.push(71);
            put_expression(rng, size.saturating_sub(2).max(1), ops);
        }
        2 => {
            ops.push(74);
            put_expression(rng, size.saturating_sub(1).max(1), ops);
        }
        3 => ops.push(*rng.pick(&[69, 70])),
        4 | 5 => put_expression(rng, size, ops),
        6 => put_loop(rng, &[67, 4], size, ops),
        7 => put_loop(rng, &[68, 4, 44, 75], size, ops),
        _ => {
            let (condition, rest) = split(rng, size - 4);
            let (then, otherwise) = split(rng, rest);
            put_expression(rng, condition, ops);
            ops.push(59);
            put_block(rng, then, ops);
            if rng.chance(60) {
                ops.push(60);
                put_block(rng, otherwise, ops);
            }
        }
    }
}

/// `loop` or `for_each`, up to its last argument but one, and what it goes over and its block.
fn put_loop(rng: &mut Rng, head: &[u16], size: usize, ops: &mut Vec<u16>) {
    ops.extend(head);
    let (over, body) = split(rng, size - 6);
    put_expression(rng, over, ops);
    ops.push(75);
    put_block(rng, body, ops);
    ops.push(5);
}

fn put_block(rng: &mut Rng, size: usize, ops: &mut Vec<u16>) {
    ops.push(0);
    put_script(rng, size.saturating_sub(2), ops);
    ops.push(1);
}
