//! Numbers modulo p = 2^64 - 2^32 + 1.

const P: u64 = 0xffff_ffff_0000_0001;

pub fn add(x: u64, y: u64) -> u64 {
    let sum = u128::from(x) + u128::from(y);
    (if sum >= u128::from(P) { sum - u128::from(P) } else { sum }) as u64
}

pub fn sub(x: u64, y: u64) -> u64 {
    if x >= y { x - y } else { P - (y - x) }
}

/// By 2^64 = 2^32 - 1 and 2^96 = -1.
pub fn mul(x: u64, y: u64) -> u64 {
    let product = u128::from(x) * u128::from(y);
    let low = product as u64;
    let high = (product >> 64) as u64;
    let (top, middle) = (high >> 32, high & 0xffff_ffff);
    let without = if low >= top { low - top } else { low.wrapping_sub(top).wrapping_add(P) };
    let with = u128::from(without) + u128::from(middle) * 0xffff_ffff;
    (if with >= u128::from(P) { with - u128::from(P) } else { with }) as u64
}

pub fn inverse(x: u64) -> u64 {
    let (mut power, mut square, mut left) = (1, x, P - 2);
    while left > 0 {
        if left & 1 == 1 {
            power = mul(power, square);
        }
        square = mul(square, square);
        left >>= 1;
    }
    power
}
