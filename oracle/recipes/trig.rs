// The recipes of docs/TRIG.md in Rust: f64 additions, subtractions, multiplications, negations and comparisons, each rounded once, no libm.
// Written from that page; the Rattle code of crates/trig is compared with it bit for bit.
fn b(bits: u64) -> f64 {
    f64::from_bits(bits)
}
fn magnitude(x: f64) -> f64 {
    if 0.0 < x {
        x
    } else if x < 0.0 {
        -x
    } else {
        0.0
    }
}
fn signed(x: f64, v: f64) -> f64 {
    if 0.0 < x {
        v
    } else if x < 0.0 {
        -v
    } else {
        x
    }
}
fn clamp(v: f64) -> f64 {
    let m = if v < 1.0 { v } else { 1.0 };
    if -1.0 < m {
        m
    } else {
        -1.0
    }
}
fn nearest_whole(x: f64) -> f64 {
    (x + b(0x4338000000000000)) - b(0x4338000000000000)
}
fn turn_sign(k: f64) -> f64 {
    let p = k - ((k + b(0x4348000000000000)) - b(0x4348000000000000));
    1.0 - (p + p) * p
}
fn sine_series(z: f64) -> f64 {
    let zz = z * z;
    let c = b(0x3f81111111111107) - z * b(0x3f2a01a01a018aad);
    let d = b(0x3ec71de3a5456716) - z * b(0x3e5ae6455a1d7087);
    let e = b(0x3de6124015b5ee3a) - z * b(0x3d6ae5138c1216b3);
    let q = (c + zz * d) + (zz * zz) * (e + zz * b(0x3ce89a4866f527eb));
    z * q - b(0x3fc5555555555555)
}
fn swing(a: f64, k: f64, h: f64) -> f64 {
    let y = (a - h * b(0x400921fb54440000)) - h * b(0x3d968c234c4c6629);
    let z = y * y;
    let w = turn_sign(k) * y;
    clamp(w + (w * z) * sine_series(z))
}
fn in_range(x: f64) -> bool {
    -100000.0 <= x && x <= 100000.0
}
fn within_one(x: f64) -> bool {
    -1.0 <= x && x <= 1.0
}
pub fn sin(x: f64) -> f64 {
    if !in_range(x) {
        return 0.0;
    }
    let a = magnitude(x);
    let k = nearest_whole(a * b(0x3fd45f306dc9c883));
    signed(x, swing(a, k, k))
}
pub fn cos(x: f64) -> f64 {
    if !in_range(x) {
        return 0.0;
    }
    let a = magnitude(x);
    let k = nearest_whole(a * b(0x3fd45f306dc9c883) + 0.5);
    swing(a, k, k - 0.5)
}
fn arc_series(z: f64) -> f64 {
    let mut p = b(0x3f9cd864394d2ff2);
    for c in [
        0xbf8603991d6060e0,
        0x3f906b9d26d10838,
        0x3f7ff5fc4d14c735,
        0x3f88522ddffa6208,
        0x3f8c87265d47ef49,
        0x3f91c593c7b1d958,
        0x3f96e8b2b3b10be4,
        0x3f9f1c71f95269af,
        0x3fa6db6db684b6a1,
        0x3fb3333333336da5,
        0x3fc555555555554f,
    ] {
        p = z * p + b(c);
    }
    p
}
fn arc_near(x: f64) -> f64 {
    let z = x * x;
    x + (x * z) * arc_series(z)
}
fn root(m: f64) -> f64 {
    let mut n = m;
    let mut scale = 1.0;
    for (end, by) in [
        (0x3e30000000000000, 16384.0),
        (0x3f10000000000000, 128.0),
        (0x3f70000000000000, 16.0),
        (0x3fb0000000000000, 4.0),
        (0x3fd0000000000000, 2.0),
    ] {
        if n < b(end) {
            n = n * by * by;
            scale = scale * by;
        }
    }
    let mut r = 2.125 - n * 1.21875;
    for _ in 0..4 {
        r = r * (1.5 - ((0.5 * n) * r) * r);
    }
    r = r * scale;
    let s = m * r;
    s + (0.5 * r) * (m - s * s)
}
fn arc_far(a: f64) -> f64 {
    2.0 * arc_near(root((1.0 - a) * 0.5))
}
pub fn asin(x: f64) -> f64 {
    if !within_one(x) {
        return 0.0;
    }
    let a = magnitude(x);
    if a <= 0.5 {
        arc_near(x)
    } else {
        signed(x, b(0x3ff921fb54442d18) - arc_far(a))
    }
}
pub fn acos(x: f64) -> f64 {
    if !within_one(x) {
        return 0.0;
    }
    let a = magnitude(x);
    if a <= 0.5 {
        b(0x3ff921fb54442d18) - arc_near(x)
    } else if x < 0.0 {
        b(0x400921fb54442d18) - arc_far(a)
    } else {
        arc_far(a)
    }
}
