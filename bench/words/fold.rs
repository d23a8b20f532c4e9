// The reference of the speed test: 10^8 mixed operations on words, as plain Rust would have them.
// rustc -O fold.rs && time ./fold
#[derive(Clone, Copy)]
enum Op {
    Add,
    Sub,
    Mul,
    And,
    Or,
    Xor,
    Sll,
    Srl,
    Sra,
    Rol,
    Ror,
    Udiv,
    Urem,
    Sdiv,
    Srem,
    Smod,
}

#[derive(Clone, Copy)]
struct Word {
    width: u8,
    value: u128,
}

fn ones(width: u8) -> u128 {
    u128::MAX >> (128 - width)
}

fn signed(a: Word) -> i128 {
    let up = 128 - a.width;
    ((a.value << up) as i128) >> up
}

fn low(width: u8, value: u128) -> Word {
    Word { width, value: value & ones(width) }
}

fn rotated(a: Word, by: u128) -> Word {
    let by = (by % u128::from(a.width)) as u8;
    if by == 0 { a } else { low(a.width, (a.value << by) | (a.value >> (a.width - by))) }
}

fn op2(o: Op, a: Word, b: Word) -> Word {
    let w = a.width;
    let width = u128::from(w);
    match o {
        Op::Add => low(w, a.value.wrapping_add(b.value)),
        Op::Sub => low(w, a.value.wrapping_sub(b.value)),
        Op::Mul => low(w, a.value.wrapping_mul(b.value)),
        Op::And => low(w, a.value & b.value),
        Op::Or => low(w, a.value | b.value),
        Op::Xor => low(w, a.value ^ b.value),
        Op::Sll => low(w, if b.value < width { a.value << b.value } else { 0 }),
        Op::Srl => low(w, if b.value < width { a.value >> b.value } else { 0 }),
        Op::Sra => low(w, (signed(a) >> b.value.min(width - 1)) as u128),
        Op::Rol => rotated(a, b.value),
        Op::Ror => rotated(a, width - b.value % width),
        Op::Udiv => low(w, if b.value == 0 { u128::MAX } else { a.value / b.value }),
        Op::Urem => low(w, if b.value == 0 { a.value } else { a.value % b.value }),
        Op::Sdiv if b.value == 0 => low(w, if signed(a) < 0 { 1 } else { u128::MAX }),
        Op::Sdiv => low(w, signed(a).wrapping_div(signed(b)) as u128),
        Op::Srem if b.value == 0 => a,
        Op::Srem => low(w, signed(a).wrapping_rem(signed(b)) as u128),
        Op::Smod if b.value == 0 => a,
        Op::Smod => {
            let left = signed(a).wrapping_rem(signed(b));
            let other = left != 0 && (left < 0) != (signed(b) < 0);
            low(w, (if other { left.wrapping_add(signed(b)) } else { left }) as u128)
        }
    }
}

const OPERATORS: [Op; 16] = [
    Op::Add,
    Op::Mul,
    Op::Xor,
    Op::Sll,
    Op::Sub,
    Op::Udiv,
    Op::Or,
    Op::Srl,
    Op::And,
    Op::Sdiv,
    Op::Rol,
    Op::Sra,
    Op::Urem,
    Op::Ror,
    Op::Srem,
    Op::Smod,
];

fn fold(width: u8, turns: u64) -> Word {
    let step = low(width, 0x9e37_79b9_7f4a_7c15_f39c_c060_5ced_c835);
    let mut a = low(width, 0x0123_4567_89ab_cdef);
    let mut b = step;
    for turn in 0..turns {
        let c = op2(OPERATORS[(turn % 16) as usize], a, b);
        a = op2(Op::Add, b, step);
        b = op2(Op::Xor, c, a);
    }
    b
}

fn main() {
    for width in [8, 64, 128] {
        let start = std::time::Instant::now();
        let word = fold(width, 33_333_333);
        println!("{} {} {} ms", word.width, word.value, start.elapsed().as_millis());
    }
}
