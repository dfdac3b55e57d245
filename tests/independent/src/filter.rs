//! The filters of instances 1 to 5, on the variables of a row: bytes 0 or 1.

#![forbid(unsafe_code)]

/// The product of bits is 1 exactly if all of them are.
#[inline]
fn product<const DEGREE: usize>(monomial: &[u8; DEGREE]) -> u8 {
    u8::from(*monomial == [1; DEGREE])
}

/// The sum of monomials of one degree, end to end.
#[inline]
pub fn monomials<const DEGREE: usize>(x: &[u8]) -> u8 {
    let (monomials, _) = x.as_chunks::<DEGREE>();
    monomials
        .iter()
        .fold(0, |sum, monomial| sum ^ product(monomial))
}

/// Takes a monomial of that degree off the front; its value.
#[inline]
pub fn take<const DEGREE: usize>(x: &mut &[u8]) -> u8 {
    let (monomial, rest) = x.split_first_chunk().expect("variables enough");
    *x = rest;
    product::<DEGREE>(monomial)
}

/// Takes a triangle of degree 9 off the front; its value. Its monomials have
/// degree 1, 2, up to 9.
#[inline]
pub fn take_triangle_9(x: &mut &[u8]) -> u8 {
    let below_6 = take::<1>(x) ^ take::<2>(x) ^ take::<3>(x) ^ take::<4>(x) ^ take::<5>(x);
    below_6 ^ take::<6>(x) ^ take::<7>(x) ^ take::<8>(x) ^ take::<9>(x)
}

/// The same for degree 16.
#[inline]
pub fn take_triangle_16(x: &mut &[u8]) -> u8 {
    let below_13 = take_triangle_9(x) ^ take::<10>(x) ^ take::<11>(x) ^ take::<12>(x);
    below_13 ^ take::<13>(x) ^ take::<14>(x) ^ take::<15>(x) ^ take::<16>(x)
}

/// 1 exactly if at least `least` of the variables are 1.
#[inline]
pub fn threshold(x: &[u8], least: usize) -> u8 {
    let ones: usize = x.iter().map(|&bit| usize::from(bit)).sum();
    u8::from(ones >= least)
}

/// 42 variables, 64 pairs, 8 triangles of degree 9.
pub fn flip_530(x: &[u8]) -> u8 {
    let (linear, x) = x.split_at(42);
    let (quadratic, mut x) = x.split_at(128);
    let triangles = (0..8).fold(0, |sum, _| sum ^ take_triangle_9(&mut x));
    monomials::<1>(linear) ^ monomials::<2>(quadratic) ^ triangles
}

/// 82 variables, 112 pairs, 8 triangles of degree 16.
pub fn flip_1394(x: &[u8]) -> u8 {
    let (linear, x) = x.split_at(82);
    let (quadratic, mut x) = x.split_at(224);
    let triangles = (0..8).fold(0, |sum, _| sum ^ take_triangle_16(&mut x));
    monomials::<1>(linear) ^ monomials::<2>(quadratic) ^ triangles
}

/// 128 of degree 1, 64 of degree 2, 80 of degree 4, 80 of degree 8.
pub fn filip_1216(x: &[u8]) -> u8 {
    let (ones, x) = x.split_at(128);
    let (twos, x) = x.split_at(64 * 2);
    let (fours, eights) = x.split_at(80 * 4);
    monomials::<1>(ones) ^ monomials::<2>(twos) ^ monomials::<4>(fours) ^ monomials::<8>(eights)
}

/// 128 of degree 1, 64 of degree 2, 64 of degree 16.
pub fn filip_1280(x: &[u8]) -> u8 {
    let (ones, x) = x.split_at(128);
    let (twos, sixteens) = x.split_at(64 * 2);
    monomials::<1>(ones) ^ monomials::<2>(twos) ^ monomials::<16>(sixteens)
}

/// 81 variables and a threshold of 32 on the other 63.
pub fn filip_144(x: &[u8]) -> u8 {
    let (summed, counted) = x.split_at(81);
    monomials::<1>(summed) ^ threshold(counted, 32)
}
