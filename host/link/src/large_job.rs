//! A job of large bodies, which is timed and whose instructions are counted.

use host::asm::assemble;

/// Bodies of the largest such job, and instructions of each.
pub const BODIES: usize = 64;
pub const BODY: usize = 128;

/// So many bodies of operations 1 to 9; the top pushes and pops without end.
pub fn large(bodies: usize) -> Vec<u8> {
    let mut text = "length 4\n".to_string();
    for body in 0..bodies {
        let name = match body {
            0 => "top".to_string(),
            _ => format!("body{body}"),
        };
        text += &format!("procedure {name} all\nagain:\n");
        let turn = [
            "push 0 1",
            "pop 0",
            "push-register 1 2",
            "go-if-empty 1 again",
            "pop 1",
            "add 1",
            "go-if-zero again",
            "sync",
            "spawn top 0",
        ];
        let some = turn[..8 + (body > 0) as usize].iter();
        text += &some
            .cycle()
            .take(BODY - 1)
            .fold(String::new(), |all, line| all + line + "\n");
        text += "go again\n";
    }
    assemble(&text).expect("the large job assembles")
}
