//! The program that runs a script of calls: its lines, word by word.
use std::io::Write;
use std::process::{Command, Stdio};

/// What the program writes for a script.
fn run(script: &[u8]) -> String {
    let mut child = Command::new(env!("CARGO_BIN_EXE_calls"))
        .stdin(Stdio::piped())
        .stdout(Stdio::piped())
        .spawn()
        .unwrap();
    let mut input = child.stdin.take().unwrap();
    let script = script.to_vec();
    let writer = std::thread::spawn(move || input.write_all(&script).unwrap());
    let output = child.wait_with_output().unwrap();
    writer.join().unwrap();
    assert!(output.status.success());
    String::from_utf8(output.stdout).unwrap()
}

/// Each line of a script with the answer that it is to have.
fn answers(calls: &[(&str, &str)]) {
    let script: String = calls.iter().map(|(call, _)| format!("{call}\n")).collect();
    let got = run(script.as_bytes());
    let mut lines = got.split_terminator('\n');
    for (call, answer) in calls {
        assert_eq!(lines.next(), Some(*answer), "{call}");
    }
    assert_eq!(lines.next(), None);
}

/// FNV-1a, 64 bits, of memory as a pair line leaves it, with bytes stored at an offset.
fn hash(length: usize, stored: &[(usize, &[u8])]) -> String {
    let mut memory: Vec<u8> = (0..length).map(|i| ((31 * i + 7) % 256) as u8).collect();
    for (offset, bytes) in stored {
        memory[*offset..offset + bytes.len()].copy_from_slice(bytes);
    }
    let mut hash: u64 = 14695981039346656037;
    for byte in memory {
        hash = (hash ^ byte as u64).wrapping_mul(1099511628211);
    }
    format!("{hash:016x}")
}

const PAIR: &str = "pair rc 256 18 52 65535 7 0 1 1 1 1 4096 0";
const EMPTY: &str = "cbf29ce484222325";

#[test]
fn a_send_twice() {
    let stored = hash(4096, &[(2048, b"abc")]);
    let ack = "1100ffff00000034000000071f000001";
    answers(&[
        (PAIR, "0"),
        ("post 5 2048 128", "0"),
        ("ready", "0"),
        (
            "in 4096 24 0410ffff000000128000000761626300",
            &format!("1 0 8 1 {ack} 5:3:-:- {stored}"),
        ),
        (
            "in 4096 24 0410ffff000000128000000761626300",
            &format!("4 0 8 1 {ack} - {stored}"),
        ),
        ("in 4096 23 -", &format!("35 0 8 1 - - {stored}")),
        ("in 4095 24 -", &format!("34 0 8 1 - - {stored}")),
        ("in 4096 24 -", &format!("5 0 8 1 - - {stored}")),
        ("next 4096 272", "36 -"),
        ("reset", "0"),
        ("in 4096 24 -", &format!("5 0 7 0 - - {stored}")),
        (PAIR, "0"),
        ("in 4096 24 -", &format!("5 0 7 0 - - {}", hash(4096, &[]))),
    ]);
}

#[test]
fn an_immediate_and_a_read() {
    let memory = hash(16, &[]);
    answers(&[
        ("pair rc 256 18 52 65535 7 0 1 1 1 1 16 0", "0"),
        ("region 1 0 16 0 1 1 1", "0"),
        ("post 18446744073709551615 0 0", "0"),
        ("ready", "0"),
        (
            "in 16 24 0500ffff0000001280000007ffffffff",
            &format!("1 0 8 1 1100ffff00000034000000071f000001 18446744073709551615:0:4294967295:- {memory}"),
        ),
        (
            "in 16 24 0c00ffff000000128000000800000000000000010000000100000003",
            &format!("2 0 9 2 - - {memory}"),
        ),
        ("in 16 24 -", &format!("32 0 9 2 - - {memory}")),
        ("next 16 271", "35 -"),
        ("next 15 272", "34 -"),
        ("next 16 272", "0 1010ffff00000034000000081f00000226456400",
        ),
    ]);
}

#[test]
fn without_a_pair() {
    let none = [
        ("region 1 0 1 0 1 1 1", "36"),
        ("unregion 1", "37"),
        ("post 0 0 0", "36"),
        ("ready", "36"),
        ("reset", "34"),
        ("next 0 0", "36 -"),
        ("in 0 23 -", &format!("35 0 0 0 - - {EMPTY}")),
        ("in 0 24 -", &format!("34 0 0 0 - - {EMPTY}")),
        ("in 7 24 00", &format!("34 0 0 0 - - {EMPTY}")),
    ];
    answers(&none);
    // A refused set-up leaves none either; a line that is no call leaves the pair.
    let mut refused = vec![
        (PAIR, "0"),
        ("pair rc 256 18 52 65535 7 0 1 1 1 1 4096", "?"),
        ("pair ud 256 18 52 65535 7 0 1 1 1 1 4096 0", "?"),
        ("ready", "0"),
        ("pair rc 257 18 52 65535 7 0 1 1 1 1 4096 0", "39"),
    ];
    refused.extend(none);
    refused.push((PAIR, "0"));
    refused.push((
        "pair uc 256 18 52 65535 7 0 1 1 1 1 1048577 4294967295",
        "34",
    ));
    refused.extend(none);
    answers(&refused);
}

#[test]
fn headers() {
    answers(&[
        ("header -", "5 1"),
        ("header 00", "5 1"),
        ("header 040100000000000000000000", "5 2"),
        ("header 440000000000000000000000", "5 5"),
        ("header 050000000000000000000000", "5 8"),
        (
            "header 0410ffff000000128000000761626300",
            "0 4 0 0 1 65535 0 18 1 0 7 - 0410ffff0000001280000007",
        ),
        (
            "header 2bf08001a5fedcbaff123456000000000000000100000002000000030000000461626300",
            "0 43 1 1 3 32769 165 16702650 1 127 1193046 reth:1:2:3,imm:4 \
             2bf08001a5fedcbaff1234560000000000000001000000020000000300000004",
        ),
        (
            "header 130000000000000000000000ffffffffffffffffffffffff00000000000000010000000000000002",
            "0 19 0 0 0 0 0 0 0 0 0 atomic:18446744073709551615:4294967295:1:2 \
             130000000000000000000000ffffffffffffffffffffffff00000000000000010000000000000002",
        ),
        (
            "header 120000000000000000000000600000010000000000000002",
            "0 18 0 0 0 0 0 0 0 0 0 aeth:96:1,value:2 120000000000000000000000600000010000000000000002",
        ),
        (
            "header 25000000000000000000000000000009",
            "0 37 0 0 0 0 0 0 0 0 0 imm:9 25000000000000000000000000000009",
        ),
    ]);
}

#[test]
fn cuts() {
    answers(&[
        (
            "cut rc 256 18 65535 7 0 16 send - 616263",
            "0 0410ffff000000128000000761626300 8",
        ),
        (
            "cut uc 256 18 65535 16777215 0 16 send 1 -",
            "0 2500ffff0000001280ffffff00000001 0",
        ),
        (
            "cut rc 256 18 65535 7 0 36 write 4 1 2 61626364",
            "0 0b00ffff0000001280000007000000000000000100000002000000040000000461626364 8",
        ),
        (
            "cut rc 256 18 65535 24 0 28 read 1 2 1025",
            "0 0c00ffff000000128000001800000000000000010000000200000401 29",
        ),
        (
            "cut rc 256 18 65535 7 0 40 swap 8 2 3 4",
            "0 1300ffff000000128000000700000000000000080000000200000000000000030000000000000004 8",
        ),
        (
            "cut rc 256 18 65535 7 0 40 add 8 2 3",
            "0 1400ffff000000128000000700000000000000080000000200000000000000030000000000000000 8",
        ),
        ("cut uc 256 18 65535 7 0 40 add 8 2 3", "39 - -"),
        ("cut rc 256 18 65535 7 1 40 add 8 2 3", "34 - -"),
        ("cut rc 256 18 65535 7 0 39 add 8 2 3", "35 - -"),
        (
            "cut rc 256 18 65535 7 0 18446744073709551616 send - -",
            "0 0400ffff0000001280000007 8",
        ),
        ("cut rc 256 18 65535 7 0 16 send -", "?"),
        ("cut rc 256 18 65535 7 0 16 send - - -", "?"),
        ("cut rc 256 18 65535 7 0 16 send 4294967296 -", "?"),
        ("cut rc 256 18 65536 7 0 16 send - -", "39 - -"),
        ("cut rc 256 4294967296 65535 7 0 16 send - -", "39 - -"),
        ("cut rc 256 18 65535 4294967296 0 16 send - -", "39 - -"),
        (
            "cut rc 256 18 65535 7 18446744073709551616 16 send - -",
            "34 - -",
        ),
        ("cut rc 256 18 65535 7 0 40 read 8 2 4294967296", "34 - -"),
        ("cut rc 256 18 65535 7 0 40 read 8 4294967296 4", "?"),
        ("cut rc 256 18 65535 7 0 16 sent - -", "?"),
        ("cut rc 256 18 65535 7 0 16", "?"),
    ]);
}

#[test]
fn lines_that_are_no_call() {
    let lines = [
        "",
        " ",
        "?",
        "READY",
        " ready",
        "ready ",
        "ready 1",
        "ready\r",
        "post  0 0",
        "post 0 0",
        "post +1 0 0",
        "post -1 0 0",
        "post 0x1 0 0",
        "post 18446744073709551616 0 0",
        "post \u{661} 0 0",
        "unregion -",
        "region 1 0 1 0 1 1 2",
        "region 1 0 1 0 1 1 01",
        "in 0 24 0",
        "in 0 24 0A",
        "in 0 24 0g",
        "in 0 24 ",
        "in 0 24 --",
        "in 0 24 \u{e9}",
        "header",
        "header 0x00",
        "pair rc 256 18 52 65535 7 0 1 1 1 1 4096 4294967296",
        "pair 0 256 18 52 65535 7 0 1 1 1 1 4096 0",
    ];
    let no_calls: Vec<(&str, &str)> = lines.iter().map(|line| (*line, "?")).collect();
    answers(&no_calls);
    // A number too large for its field is refused as the rules refuse it.
    answers(&[
        ("pair rc 256 18 52 65536 7 0 1 1 1 1 4096 0", "39"),
        ("pair rc 256 18 52 65535 7 256 1 1 1 1 4096 0", "39"),
        ("pair rc 256 4294967296 52 65535 7 0 1 1 1 1 4096 0", "39"),
        (
            "pair rc 18446744073709551616 18 52 65535 7 0 1 1 1 1 4096 0",
            "39",
        ),
        (
            "pair rc 256 18 52 65535 7 0 1 1 1 1 18446744073709551616 0",
            "34",
        ),
        ("pair rc 256 18 52 65535 7 0 1 1 1 1 8 0", "0"),
        ("post 1 2 18446744073709551616", "34"),
        ("region 1 18446744073709551616 1 0 1 1 1", "34"),
        ("unregion 4294967296", "37"),
        (
            "in 18446744073709551616 24 -",
            "34 0 7 0 - - 7ad4f452d7125475",
        ),
        ("next 18446744073709551616 0", "36 -"),
    ]);
    // Bytes that are no text, a last line without its end, and no line at all.
    assert_eq!(
        run(b"header \xff\nunregion \x000\n\nunregion 0007"),
        "?\n?\n?\n37\n"
    );
    assert_eq!(run(b"reset\r\nreset"), "?\n34\n");
    assert_eq!(run(b""), "");
}
