//! The programs, run as they are.

use std::io::Write;
use std::process::{Command, Stdio};

use crate::common::W12_LISTED;

fn run(program: &str, input: &[u8]) -> String {
    let mut child = Command::new(program)
        .stdin(Stdio::piped())
        .stdout(Stdio::piped())
        .spawn()
        .unwrap();
    let mut stdin = child.stdin.take().unwrap();
    let input = input.to_vec();
    let writer = std::thread::spawn(move || stdin.write_all(&input).unwrap());
    let output = child.wait_with_output().unwrap();
    writer.join().unwrap();
    assert!(output.status.success());
    String::from_utf8(output.stdout).unwrap()
}

fn replay(input: &[u8]) -> String {
    run(env!("CARGO_BIN_EXE_plain-replay"), input)
}

fn list(input: &[u8]) -> String {
    run(env!("CARGO_BIN_EXE_plain-list"), input)
}

fn calls(input: &str) -> Vec<String> {
    let output = run(env!("CARGO_BIN_EXE_plain-calls"), input.as_bytes());
    output.lines().map(str::to_string).collect()
}

const W12: [u8; 18] = [
    0, 16, 4, 0x10, 0xFF, 0xFF, 0, 0, 0, 0x12, 0x80, 0, 0, 7, 0x61, 0x62, 0x63, 0,
];

#[test]
fn w12_replayed() {
    assert_eq!(replay(&[W12, W12].concat()), "1 8 1\n4 8 1\nend 2\n");
    assert_eq!(replay(&[]), "end 0\n");
    assert_eq!(replay(&[0]), "cut\nend 0\n");
    assert_eq!(replay(&[0, 0]), "5 7 0\nend 1\n");
    assert_eq!(replay(&[0, 1]), "cut\nend 0\n");
    assert_eq!(
        replay(&[&W12[..], &W12[..17]].concat()),
        "1 8 1\ncut\nend 1\n"
    );
    assert_eq!(replay(&[&W12[..], &[0]].concat()), "1 8 1\ncut\nend 1\n");
}

#[test]
fn reads_are_drained() {
    let mut record = vec![0, 28, 12, 0, 0xFF, 0xFF, 0, 0, 0, 0x12, 0x80, 0, 0, 7];
    record.extend(0x10000u64.to_be_bytes());
    record.extend(0x1000u32.to_be_bytes());
    record.extend(1024u32.to_be_bytes());
    assert_eq!(
        replay(&[&record[..], &record, &W12].concat()),
        "2 11 1\n4 11 1\n4 11 1\nend 3\n"
    );
}

#[test]
fn w12_listed() {
    let wanted = format!("packet 1, 16 bytes\n{W12_LISTED}");
    assert_eq!(list(&W12), format!("{wanted}end 1\n"));
    assert_eq!(list(&[]), "end 0\n");
    assert_eq!(list(&[0]), "cut\nend 0\n");
    assert_eq!(
        list(&[&W12[..], &W12[..17]].concat()),
        format!("{wanted}cut\nend 1\n")
    );
    // Enough to fill a pipe in both directions at once.
    let dropped = "  dropped       check 1: length, not 12 to 4,128 bytes or no multiple of 4\n";
    let lines = (1..=50_000).map(|number| format!("packet {number}, 1 byte\n{dropped}"));
    let wanted: String = lines.chain(["end 50000\n".to_string()]).collect();
    assert_eq!(list(&[0, 1, 0xFF].repeat(50_000)), wanted);
}

const EMPTY: &str = "cbf29ce484222325";

#[test]
fn without_a_pair() {
    let script = "region 1 1 1 1 1 1 1\npost 1 1 1\nready\nnext 0 300\nunregion 1\nreset\n\
        in 0 23 -\nin 0 24 -\npair rc 100 1 1 1 1 1 1 1 1 1 8 0\nready\nin 8 24 -";
    let none = format!("0 0 0 - - {EMPTY}");
    let none = none.as_str();
    let (short, range) = (format!("35 {none}"), format!("34 {none}"));
    let wanted = [
        "36", "36", "36", "36 -", "37", "34", &short, &range, "39", "36", &range,
    ];
    assert_eq!(calls(script), wanted);
}

#[test]
fn a_script() {
    let script = "pair rc 256 18 52 65535 7 0 1 1 1 1 8 0\n\
        post 99 0 8\n\
        region 1 65536 8 0 1 1 1\n\
        ready\n\
        in 8 24 0410ffff000000128000000761626300\n\
        in 8 23 0410ffff000000128000000761626300\n\
        in 7 24 0410ffff000000128000000761626300\n\
        in 8 24 0c00ffff0000001280000008000000000001000000000001000000080000\n\
        in 8 24 0c00ffff0000001280000008000000000001000000000001000000050000\n\
        in 8 24 0c00ffff00000012800000080000000000010000000000010000000500\n\
        in 8 24 0c00ffff00000012800000080000000000010000000000010000000\n\
        in 8 24 0c00ffff0000001280000008000000000001000000000001\n\
        in 8 24 0c00ffff000000128000000800000000000100000000000100000005\n\
        in 8 24 -\n\
        next 8 271\n\
        next 7 272\n\
        next 8 272\n\
        next 8 272\n\
        unregion 1\n\
        reset\n";
    let got = calls(script);
    // The hash of 61 62 63 64 83 a2 c1 e0, worked out by hand below.
    let memory = [0x61u8, 0x62, 0x63, 0x64, 0x83, 0xA2, 0xC1, 0xE0];
    let mut hash = 0xcbf29ce484222325u64;
    for byte in memory {
        hash = (hash ^ u64::from(byte)).wrapping_mul(0x100000001b3);
    }
    let quiet = |number| format!("{number} 0 8 1 - - {hash:016x}");
    let first = format!("1 0 8 1 1100ffff00000034000000071f000001 99:3:-:- {hash:016x}");
    let read = format!("2 0 9 2 - - {hash:016x}");
    let busy = format!("32 0 9 2 - - {hash:016x}");
    let only = "0 1030ffff00000034000000081f0000026162636483000000";
    let (short, range, drop) = (quiet(35), quiet(34), quiet(5));
    let wanted: Vec<&str> = vec![
        "0", "0", "0", "0", &first, &short, &range, &drop, &drop, &drop, "?", &drop, &read, &busy,
        "35 -", "34 -", only, "36 -", "0", "0",
    ];
    assert_eq!(got, wanted);
}

#[test]
fn headers_and_cuts() {
    let script = "header -\nheader 0001000000000000000000000\nheader 00010000000000000000000000\n\
        header 000100000000000000000000\nheader 400000000000000000000000\n\
        header 030000000000000000000000\n\
        header 03f0ffff0500001281000007000000ff\n\
        header 1200ffff00000034000000071f0000010000000000000002\n\
        header 0b00ffff0000003400000007000000000000000100000002000000030000000461626364\n\
        cut rc 256 18 65535 7 0 16 send - 616263\n\
        cut rc 256 18 65535 7 0 15 send - 616263\n\
        cut rc 256 18 65535 24 0 28 read 1 2 1025\n\
        cut uc 256 18 65535 24 0 28 read 1 2 1025\n\
        cut rc 256 18 65535 24 1 28 read 1 2 1025\n\
        cut uc 256 18 65535 16777215 0 32 write 5 1 2 -\n\
        cut rc 256 18 65535 0 0 40 swap 1 2 3 4\n\
        cut rc 256 18 65535 0 0 40 add 1 2 3\n";
    assert_eq!(
        calls(script),
        [
            "5 1",
            "?",
            "5 1",
            "5 2",
            "5 5",
            "5 8",
            "0 3 1 1 3 65535 5 18 1 1 7 imm:255 03f0ffff0500001281000007000000ff",
            "0 18 0 0 0 65535 0 52 0 0 7 aeth:31:1,value:2 1200ffff00000034000000071f0000010000000000000002",
            "0 11 0 0 0 65535 0 52 0 0 7 reth:1:2:3,imm:4 0b00ffff00000034000000070000000000000001000000020000000300000004",
            "0 0410ffff000000128000000761626300 8",
            "35 - -",
            "0 0c00ffff000000128000001800000000000000010000000200000401 29",
            "39 - -",
            "34 - -",
            "0 2b00ffff0000001280ffffff0000000000000001000000020000000000000005 0",
            "0 1300ffff00000012800000000000000000000001000000020000000000000003\
             0000000000000004 1",
            "0 1400ffff00000012800000000000000000000001000000020000000000000003\
             0000000000000000 1",
        ]
    );
}

#[test]
fn lines_that_are_no_call() {
    let lines = [
        "",
        " ",
        "ready ",
        " ready",
        "Ready",
        "ready\r",
        "ready x",
        "post 1 2",
        "post 1 2 3 4",
        "post 1  2 3",
        "post +1 2 3",
        "post -1 2 3",
        "post 0x1 2 3",
        "in 0 24",
        "in 0 24 ",
        "in 0 24 0",
        "in 0 24 AB",
        "in 0 24 0g",
        "post 18446744073709551616 2 3",
        "region 4294967296 0 1 0 1 1 1",
        "region 1 0 1 0 1 1 2",
        "region 1 0 1 0 1 1 01",
        "unregion",
        "pair ud 256 1 1 1 1 1 1 1 1 1 8 0",
        "pair rc 256 1 1 1 1 1 1 1 1 1 8",
        "pair rc 256 1 1 1 1 1 1 1 1 1 8 4294967296",
        "cut rc 256 1 1 1 0 100 send -",
        "cut rc 256 1 1 1 0 100 send x -",
        "cut rc 256 1 1 1 0 100 sent - -",
        "cut rc 256 1 1 1 0 100",
        "header",
        "header - -",
        "bogus",
    ];
    let good = "pair rc 256 1 1 1 1 1 1 1 1 1 8 0\n";
    // They answer `?` and leave the pair as it is.
    let script = format!(
        "{good}{}\nready\n\npost 0000000000000000000000000001 0 0008",
        lines.join("\n")
    );
    let got = calls(&script);
    assert_eq!(got.len(), lines.len() + 4);
    assert!(got[1..=lines.len()].iter().all(|answer| answer == "?"));
    assert_eq!(got[0], "0");
    assert_eq!(got[lines.len() + 1..], ["0", "?", "0"]);
    assert!(calls("").is_empty());
    // Bytes that are no text are no call either.
    let program = env!("CARGO_BIN_EXE_plain-calls");
    assert_eq!(run(program, b"\xFF\xFE\nready\n\0"), "?\n36\n?\n");
}

/// A number too large for its field is refused as the rules refuse it, and no length is too long to lend.
#[test]
fn numbers_over_their_fields() {
    let calls_and_answers = [
        ("pair rc 256 1 1 65536 1 1 1 1 1 1 8 0", "39"),
        ("pair rc 256 1 1 1 1 256 1 1 1 1 8 0", "39"),
        ("pair rc 256 4294967296 1 1 1 1 1 1 1 1 8 0", "39"),
        ("pair rc 256 1 1 1 1 1 1 1 1 1 18446744073709551616 0", "34"),
        ("pair rc 256 1 1 1 1 1 1 1 1 1 8 0", "0"),
        ("post 1 2 18446744073709551616", "34"),
        ("region 1 18446744073709551616 1 0 1 1 1", "34"),
        ("unregion 4294967296", "37"),
        (
            "in 18446744073709551616 24 -",
            "34 0 1 0 - - 7ad4f452d7125475",
        ),
        ("next 18446744073709551616 0", "36 -"),
        ("cut rc 256 4294967296 1 1 0 100 send - -", "39 - -"),
        ("cut rc 256 1 65536 1 0 100 send - -", "39 - -"),
        (
            "cut rc 256 1 1 1 18446744073709551616 100 send - -",
            "34 - -",
        ),
        ("cut rc 256 1 1 1 0 100 read 1 1 4294967296", "34 - -"),
        (
            "cut rc 256 1 1 1 0 18446744073709551616 send - -",
            "0 040000010000000180000001 2",
        ),
    ];
    let (lines, expected): (Vec<&str>, Vec<&str>) = calls_and_answers.into_iter().unzip();
    assert_eq!(calls(&lines.join("\n")), expected);
}
