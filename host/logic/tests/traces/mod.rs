//! Traces for the tests, from a small generator.

/// A text of every request, mostly of few ranks, now filling and now emptying; the same seed makes the same text.
pub fn random(order: u32, levels: u32, count: u32, mut seed: u64) -> String {
    let mut below = |n: u64| {
        seed = seed.wrapping_mul(6364136223846793005).wrapping_add(1442695040888963407);
        (seed >> 33) % n
    };
    let mut text = format!("version 2\norder {order} levels {levels}\n");
    for i in 0..count {
        let fill = if (i / 97) % 2 == 0 { 5 } else { 2 };
        match below(8) {
            n if n < fill => text += &format!("push {} {} {}\n", below(20), below(50), below(1500)),
            7 => text += &format!("replace {} {} {}\n", below(20), below(50), below(1500)),
            6 => text += "idle\n",
            _ => text += "pop\n",
        }
    }
    text
}
