//! Scripts for the drivers: the same made-up calls as lines, some calls where
//! no pair is, and lines that are no calls.

use std::io::{self, Write};

use crate::call::Call;
use crate::generate::Player;
use crate::plain_side::Plain;
use crate::random::{seed_of, Random};
use crate::side::Side;

/// Drivers hash all of memory at each packet, so there is less of it here.
const LARGEST: usize = 1 << 16;

pub fn write(lines: u64, seed: u64, output: &mut impl Write) -> io::Result<()> {
    let mut writer = Lines {
        left: lines,
        random: Random::new(seed),
        output,
    };
    let mut list = 0;
    while writer.left > 0 {
        let mut player = Player::new(seed_of(seed, list), LARGEST);
        let mut side = Side::<Plain>::default();
        for _ in 0..player.calls() {
            let view = side.view();
            if view.is_none() && writer.random.chance(30) {
                writer.without_pair()?;
            }
            let call = player.next(view.as_ref(), side.memory());
            let mut out = vec![0; call.output()];
            let answer = side.run(&call, &mut out);
            player.saw(&call, &answer, &out);
            writer.call(&call)?;
        }
        list += 1;
    }
    Ok(())
}

struct Lines<'a, W> {
    left: u64,
    random: Random,
    output: &'a mut W,
}

impl<W: Write> Lines<'_, W> {
    fn line(&mut self, line: &[u8]) -> io::Result<()> {
        if self.left == 0 {
            return Ok(());
        }
        self.left -= 1;
        self.output.write_all(line)?;
        self.output.write_all(b"\n")
    }

    fn call(&mut self, call: &Call) -> io::Result<()> {
        let Some(line) = call.script() else {
            return Ok(());
        };
        if self.random.chance(2) {
            let broken = broken(&mut self.random, &line);
            self.line(&broken)?;
        }
        self.line(line.as_bytes())
    }

    /// Calls on the pair of a refused set-up, or before any.
    fn without_pair(&mut self) -> io::Result<()> {
        let line = self.random.pick(&[
            "ready",
            "reset",
            "post 1 0 0",
            "region 1 2 3 4 1 1 1",
            "unregion 7",
            "next 0 272",
            "next 5 0",
            "in 0 24 -",
            "in 0 23 0410ffff000000128000000761626300",
            "in 64 24 0410ffff000000128000000761626300",
        ]);
        self.line(line.as_bytes())
    }
}

/// A line made from a call's that is no call.
fn broken(random: &mut Random, line: &str) -> Vec<u8> {
    let words: Vec<&str> = line.split(' ').collect();
    let last = words[words.len() - 1];
    let shorter = &line[..line.len() - last.len()];
    match random.below(16) {
        0 => Vec::new(),
        1 => b" ".to_vec(),
        2 => format!("{line} ").into_bytes(),
        3 => format!(" {line}").into_bytes(),
        4 => format!("{line} 0").into_bytes(),
        5 => line
            .replacen(' ', "  ", 1)
            .into_bytes()
            .into_iter()
            .chain(*b" x")
            .collect(),
        6 => line
            .replacen(' ', "\t", 1)
            .into_bytes()
            .into_iter()
            .chain(*b"\r")
            .collect(),
        7 => format!("{shorter}+1x").into_bytes(),
        8 => format!("{shorter}18446744073709551616")
            .into_bytes()
            .into_iter()
            .chain(*b"g")
            .collect(),
        9 => line.to_uppercase().into_bytes(),
        10 => format!("x{line}").into_bytes(),
        11 => format!("{}s {line}", words[0]).into_bytes(),
        12 => b"in 0 24 0".to_vec(),
        13 => b"in 0 24 0G".to_vec(),
        14 => vec![b'i', b'n', b' ', 0xFF, 0xFE, 0],
        _ => too_wide(random).as_bytes().to_vec(),
    }
}

/// Calls but for one number that its field cannot hold.
fn too_wide(random: &mut Random) -> &'static str {
    random.pick(&[
        "pair rc 256 1 2 65536 0 0 1 1 1 1 64 0",
        "pair rc 256 1 2 65535 0 256 1 1 1 1 64 0",
        "pair rc 256 4294967296 2 65535 0 0 1 1 1 1 64 0",
        "pair rc 256 1 2 65535 0 0 2 1 1 1 64 0",
        "pair ud 256 1 2 65535 0 0 1 1 1 1 64 0",
        "pair rc 256 1 2 65535 0 0 1 1 1 1 64 4294967296",
        "pair rc 256 1 2 65535 0 0 1 1 1 1 64",
        "region 4294967296 0 1 0 1 1 1",
        "region 1 18446744073709551616 1 0 1 1 1",
        "region 1 0 1 0 1 1 2",
        "unregion -1",
        "unregion 4294967296",
        "post 18446744073709551616 0 0",
        "post 1 0 +1",
        "cut rc 256 18 65535 0 0 400 send 4294967296 00",
        "cut rc 256 18 65535 0 0 400 send - 0",
        "cut rc 256 18 65535 0 0 400 write - 0 0",
        "cut rc 256 18 65535 0 0 400 read 0 0 4294967296",
        "cut rc 256 18 65535 0 0 400 fetch 0 0 1",
        "header",
        "header 041",
    ])
}
