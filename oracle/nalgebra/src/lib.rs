//! Stand-in for nalgebra: vectors, root and rotation by the formulas of document 01, section 1, each operation rounded once in the
//! written order.

use std::ops::Mul;

#[derive(Debug, Clone, Copy, Default, PartialEq)]
pub struct Vector2<T> {
    pub x: T,
    pub y: T,
}

#[derive(Debug, Clone, Copy, Default, PartialEq)]
pub struct Vector3<T> {
    pub x: T,
    pub y: T,
    pub z: T,
}

/// The quaternion (w, v) with v = (i, j, k). The four numbers may be any numbers.
#[derive(Debug, Clone, Copy, PartialEq)]
pub struct UnitQuaternion<T> {
    pub w: T,
    pub i: T,
    pub j: T,
    pub k: T,
}

impl Vector2<f32> {
    pub fn new(x: f32, y: f32) -> Self {
        Vector2 { x, y }
    }

    pub fn dot(&self, other: &Self) -> f32 {
        self.x * other.x + self.y * other.y
    }

    pub fn norm_squared(&self) -> f32 {
        self.x * self.x + self.y * self.y
    }

    pub fn norm(&self) -> f32 {
        if cfg!(feature = "processor_root") {
            self.norm_squared().sqrt()
        } else {
            root(self.norm_squared())
        }
    }
}

impl Vector3<f32> {
    pub fn new(x: f32, y: f32, z: f32) -> Self {
        Vector3 { x, y, z }
    }

    /// The unit vector (1, 0, 0).
    pub fn x() -> Self {
        Vector3::new(1.0, 0.0, 0.0)
    }

    pub fn xy(&self) -> Vector2<f32> {
        Vector2::new(self.x, self.y)
    }

    pub fn cross(&self, b: &Self) -> Self {
        Vector3::new(
            self.y * b.z - self.z * b.y,
            self.z * b.x - self.x * b.z,
            self.x * b.y - self.y * b.x,
        )
    }

    fn scale(&self, k: f32) -> Self {
        Vector3::new(k * self.x, k * self.y, k * self.z)
    }

    fn plus(&self, b: &Self) -> Self {
        Vector3::new(self.x + b.x, self.y + b.y, self.z + b.z)
    }
}

impl Default for UnitQuaternion<f32> {
    /// No rotation.
    fn default() -> Self {
        UnitQuaternion {
            w: 1.0,
            i: 0.0,
            j: 0.0,
            k: 0.0,
        }
    }
}

impl Mul<Vector3<f32>> for UnitQuaternion<f32> {
    type Output = Vector3<f32>;

    /// t = 2(v × n); the answer is (w·t + v × t) + n.
    fn mul(self, n: Vector3<f32>) -> Vector3<f32> {
        let v = Vector3::new(self.i, self.j, self.k);
        let t = v.cross(&n).scale(2.0);
        t.scale(self.w).plus(&v.cross(&t)).plus(&n)
    }
}

/// The binary32 nearest to the square root, by whole-number squares. NaN and +∞ give themselves, a zero itself, a number below 0 NaN.
pub fn root(x: f32) -> f32 {
    if x.is_nan() || x == f32::INFINITY || x == 0.0 {
        return x;
    }
    if x < 0.0 {
        return f32::NAN;
    }
    let (digits, exponent) = parts(x);
    // x = n · 2^exponent with n in 2^49..2^51 and an even exponent, so the root is that of n times 2^(exponent / 2).
    let shift = 26 + exponent.rem_euclid(2);
    let (n, exponent) = (u64::from(digits) << shift, exponent - shift);
    let floor = whole_root(n);
    // The floor has 25 or 26 binary digits. Twice it, and one more where it is not exact, rounds as the root itself does.
    let sticky = 2 * floor + u64::from(floor * floor != n);
    scaled(sticky, exponent / 2 - 1)
}

/// x = digits · 2^exponent with digits in 2^23..2^24, for a positive finite x.
fn parts(x: f32) -> (u32, i32) {
    let bits = x.to_bits();
    let (field, fraction) = ((bits >> 23) as i32, bits & 0x7F_FFFF);
    if field == 0 {
        let lead = fraction.leading_zeros() as i32 - 8;
        (fraction << lead, -149 - lead)
    } else {
        (fraction | 0x80_0000, field - 150)
    }
}

/// The largest whole number whose square is at most n, for n below 2^52.
fn whole_root(n: u64) -> u64 {
    let (mut low, mut high) = (0u64, 1 << 26);
    while high - low > 1 {
        let middle = (low + high) / 2;
        if middle * middle <= n {
            low = middle;
        } else {
            high = middle;
        }
    }
    low
}

/// n · 2^e rounded to the nearest binary32, ties to even. The answers here are normal numbers: no root of a binary32 is subnormal.
fn scaled(n: u64, e: i32) -> f32 {
    let drop = 64 - n.leading_zeros() as i32 - 24;
    let (kept, rest, half) = (n >> drop, n & ((1 << drop) - 1), 1u64 << (drop - 1));
    let rounded = kept + u64::from(rest > half || (rest == half && kept % 2 == 1));
    let (digits, carry) = if rounded == 1 << 24 { (1 << 23, 1) } else { (rounded, 0) };
    let field = (e + drop + carry + 150) as u32;
    f32::from_bits((field << 23) | (digits as u32 & 0x7F_FFFF))
}

#[cfg(test)]
mod tests {
    use super::root;

    /// The processor's root, which IEEE 754 fixes too.
    #[test]
    fn root_is_the_nearest() {
        for bits in (0..=u32::MAX).step_by(641) {
            let x = f32::from_bits(bits);
            let (here, there) = (root(x), x.sqrt());
            assert!(here.to_bits() == there.to_bits() || here.is_nan() && there.is_nan(), "{bits:08X}");
        }
    }
}
