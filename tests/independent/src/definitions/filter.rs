//! The filters of instances 1 to 5, on bits.

// ---- from their formulas ----

/// L: the sum of x(i) for i below n.
pub fn linear(x: &[u8], n: usize) -> u8 {
    (0..n).map(|i| x[i]).fold(0, |sum, value| sum ^ value)
}

/// Q: the sum of x(2i) x(2i+1) for i below n; it has 2n variables.
pub fn quadratic(x: &[u8], n: usize) -> u8 {
    (0..n)
        .map(|i| x[2 * i] & x[2 * i + 1])
        .fold(0, |sum, value| sum ^ value)
}

/// T: the sum for i from 1 to k of the products, over j below i, of
/// x(j + i(i-1)/2); it has k(k+1)/2 variables.
pub fn triangular(x: &[u8], k: usize) -> u8 {
    (1..=k)
        .map(|i| (0..i).fold(1, |product, j| product & x[j + i * (i - 1) / 2]))
        .fold(0, |sum, value| sum ^ value)
}

/// FLIP(n1, n2, nb triangles of degree k): the direct sum of L on n1
/// variables, Q on n2, and each T on its own.
pub fn flip(x: &[u8], n1: usize, n2: usize, nb: usize, k: usize) -> u8 {
    let mut sum = linear(x, n1) ^ quadratic(&x[n1..], n2 / 2);
    for triangle in 0..nb {
        sum ^= triangular(&x[n1 + n2 + triangle * (k * (k + 1) / 2)..], k);
    }
    sum
}

/// The direct sum of monomials with that vector: its g-th monomial of degree i
/// begins after all those of lower degree and g of its own.
pub fn direct_sum(x: &[u8], vector: &[usize]) -> u8 {
    let mut sum = 0;
    for i in 1..=vector.len() {
        let lower: usize = (1..i).map(|degree| degree * vector[degree - 1]).sum();
        for g in 0..vector[i - 1] {
            let begin = lower + g * i;
            sum ^= u8::from((begin..begin + i).all(|j| x[j] == 1));
        }
    }
    sum
}

/// The Hamming weight: how many bits are 1.
pub fn weight(x: &[u8]) -> usize {
    x.iter().filter(|&&bit| bit == 1).count()
}

/// 1 exactly if the weight is d or more.
pub fn threshold(x: &[u8], d: usize) -> u8 {
    u8::from(weight(x) >= d)
}

/// The sum of the first k variables and the threshold d of the others.
pub fn xor_threshold(x: &[u8], k: usize, d: usize) -> u8 {
    linear(x, k) ^ threshold(&x[k..], d)
}

/// The value of a filter of instances 1 to 5.
pub fn value(instance: u32, x: &[u8]) -> u8 {
    match instance {
        1 => flip(x, 42, 128, 8, 9),
        2 => flip(x, 82, 224, 8, 16),
        3 => direct_sum(x, &[128, 64, 0, 80, 0, 0, 0, 80]),
        4 => direct_sum(x, &[128, 64, 0, 0, 0, 0, 0, 0, 0, 0, 0, 0, 0, 0, 0, 64]),
        5 => xor_threshold(x, 81, 32),
        _ => panic!("instance {instance} has no filter"),
    }
}

// ---- by another way ----

/// The degrees of the monomials of instances 1 to 4, in row order.
pub fn degrees(instance: u32) -> Vec<usize> {
    let mut degrees = Vec::new();
    let mut add = |count, degree| degrees.extend(std::iter::repeat_n(degree, count));
    match instance {
        1 | 2 => {
            let (linear, pairs, triangle) = if instance == 1 {
                (42, 64, 1..=9)
            } else {
                (82, 112, 1..=16)
            };
            add(linear, 1);
            add(pairs, 2);
            for _ in 0..8 {
                for degree in triangle.clone() {
                    add(1, degree);
                }
            }
        }
        3 => {
            add(128, 1);
            add(64, 2);
            add(80, 4);
            add(80, 8);
        }
        4 => {
            add(128, 1);
            add(64, 2);
            add(64, 16);
        }
        _ => panic!("instance {instance} is no sum of monomials"),
    }
    degrees
}

/// The sum of monomials of these degrees, which use up the variables in order.
pub fn by_degrees(x: &[u8], degrees: &[usize]) -> u8 {
    let mut variables = x.iter();
    let mut sum = 0;
    for &degree in degrees {
        let mut product = 1;
        for _ in 0..degree {
            product *= variables.next().expect("a variable for every factor");
        }
        sum = (sum + product) % 2;
    }
    assert!(variables.next().is_none(), "every variable is used");
    sum
}

/// The sum of all products of d different variables. For d = 32 of 63 it is
/// the threshold: d is a power of 2, and there are 2d - 1 variables.
pub fn symmetric(x: &[u8], d: usize) -> u8 {
    // sums[j]: that of all products of j of the variables taken so far.
    let mut sums = vec![0; d + 1];
    sums[0] = 1;
    for &bit in x {
        for j in (1..=d).rev() {
            sums[j] ^= sums[j - 1] & bit;
        }
    }
    sums[d]
}
