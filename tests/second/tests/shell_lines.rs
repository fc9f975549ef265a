//! Scripts of the shell and the lines that they print.

use second::shell::{Lines, Shell, LINE_BYTES};

/// Runs a script of pairs, a command and what it prints, on an empty card.
fn check(script: &[(&str, &str)]) {
    let mut shell = Shell::new(Vec::new());
    for (number, (command, expected)) in script.iter().enumerate() {
        let mut printed = String::new();
        shell.run_line(command.as_bytes(), &mut printed);
        assert_eq!(&printed, expected, "line {number}: {command}");
    }
}

#[test]
fn the_run_of_document_01() {
    check(&[
        ("conflicts", "1 0\n"),
        ("card 4096 165", "ok\n"),
        ("conflicts", "3 0\n"),
        ("mount", "2 0 0\n"),
        ("format", "0\n"),
        ("newlist 0", "0 1\n"),
        ("newblock 0 1 0", "0 1\n"),
        ("write 0 1 07", "0\n"),
        ("read 0 1", "0 07\n"),
        ("read 5 1", "8\n"),
        ("flush 266", "0 266 spent\n"),
        ("read 5 1", "15\n"),
        ("show 5", "list 1: 1\nblock 1: unwritten\n"),
        ("list", "segments 1 used 1 entries 2\nlist 1: 1\nblock 1: unwritten\n"),
        ("flush 1", "0 1 drained\n"),
        ("read 5 1", "0 07\n"),
        ("list", "segments 1 used 1 entries 3\nlist 1: 1\nblock 1: 7\n"),
        ("begin 1", "0\n"),
        ("newblock 1 1 1", "0 2\n"),
        ("write 1 2 0aFf00", "0\n"),
        ("show 1", "list 1: 1 2\nblock 1: 07\nblock 2: 0aff\n"),
        ("show 2", "4\n"),
        ("next 0 1 1", "0 0\n"),
        ("next 1 1 1", "0 2\n"),
        ("inventory 1", "0 1 1\n"),
        ("inventory 1 15", "5 0\n"),
        ("end 1", "0\n"),
        ("cut flush 65536 1", "5\n"),
        ("cut flush 65535 267", "cut 267\n"),
        ("show 0", "3\n"),
        ("mount", "0 0 0\n"),
        ("show 0", "list 1: 1\nblock 1: 07\n"),
        ("cut format 9", "cut 1\n"),
        ("list", "segments 1 used 0 entries 0\n"),
        ("mount", "0 0 0\n"),
        ("show 0", ""),
    ]);
}

#[test]
fn parts_are_lent() {
    check(&[
        ("card 8192 0", "ok\n"),
        ("format", "0\n"),
        ("lend card 4095", "ok\n"),
        ("newlist 0", "1 0\n"),
        ("lend card 4096", "ok\n"),
        ("newlist 0", "0 1\n"),
        ("lend journal 15359", "ok\n"),
        ("mount", "1 0 0\n"),
        ("lend journal 99999999999999999999", "?\n"),
        ("lend journal 18446744073709551615", "ok\n"),
        ("lend queue 0", "ok\n"),
        ("cut format 1", "1\n"),
        ("lend all", "ok\n"),
        ("newlist 0", "0 2\n"),
        ("lend queue 1", "ok\n"),
        ("card 4096 0", "ok\n"),
        ("mount", "0 0 0\n"),
        ("sum", "268435457\n"),
        ("card 0 0", "ok\n"),
        ("sum", "1\n"),
        ("list", "refused 1\n"),
    ]);
}

/// The lines of a page keep the blanks at their end.
#[test]
fn pages_are_printed() {
    check(&[
        ("page 0", "1 0\n"),
        ("card 4096 0", "ok\n"),
        ("page 0", "3 0\n"),
        ("format", "0\n"),
        ("page 0", "0 0\n"),
        ("page 0 0", "0 0\n"),
        ("page 1", "4 0\n"),
        ("page 6 0", "4 0\n"),
        ("newlist 0", "0 1\n"),
        ("newblock 0 1 0", "0 1\n"),
        ("newlist 0", "0 2\n"),
        (
            "page 0",
            "0 82\n   1   1                                \n   2                                    \n",
        ),
        ("page 0 81", "14 0\n"),
        (
            "page 0 82",
            "0 82\n   1   1                                \n   2                                    \n",
        ),
        ("page 5 81", "0 0\n"),
        ("page 18446744073709551615", "4 0\n"),
        ("page 0 1001", "?\n"),
        ("page 0 82 0", "?\n"),
        ("page", "?\n"),
        ("page -", "?\n"),
        ("begin 1", "0\n"),
        ("dellist 1 1", "0\n"),
        ("page 1 1000", "0 41\n   2                                    \n"),
        ("page 1 0", "14 0\n"),
    ]);
}

/// Without a window it is window 1.
#[test]
fn windows_are_named() {
    check(&[
        ("conflicts 0", "1 0\n"),
        ("begin 1 0", "1\n"),
        ("card 4096 0", "ok\n"),
        ("conflicts 17", "3 0\n"),
        ("begin 1 17", "3\n"),
        ("format", "0\n"),
        ("newlist 0", "0 1\n"),
        ("begin 1", "0\n"),
        ("begin 2 16", "0\n"),
        ("begin 3 1", "0\n"),
        ("begin 4 0", "5\n"),
        ("begin 4 17", "5\n"),
        ("begin 4 18446744073709551615", "5\n"),
        ("begin 4 4294967297", "5\n"),
        ("begin 5 17", "4\n"),
        ("begin 2 0", "5\n"),
        ("begin 2 15", "6\n"),
        ("dellist 1 1", "0\n"),
        ("dellist 2 1", "0\n"),
        ("dellist 3 1", "0\n"),
        ("end 3", "0\n"),
        ("end 1", "12\n"),
        ("conflicts", "0 1\n"),
        ("conflicts 1", "0 1\n"),
        ("conflicts 16", "0 0\n"),
        ("end 2", "12\n"),
        ("conflicts 00016", "0 1\n"),
        ("conflicts 15", "0 0\n"),
        ("conflicts 0", "5 0\n"),
        ("conflicts 17", "5 0\n"),
        ("conflicts 257", "5 0\n"),
        ("begin 1 1 1", "?\n"),
        ("begin 1 -", "?\n"),
        ("begin 1 +1", "?\n"),
        ("begin 1 18446744073709551616", "?\n"),
        ("conflicts 1 1", "?\n"),
        ("conflicts -1", "?\n"),
        ("conflicts x", "?\n"),
        ("conflicts 18446744073709551616", "?\n"),
        ("cut", "cut\n"),
        ("conflicts", "3 0\n"),
        ("mount", "0 0 0\n"),
        ("conflicts", "0 0\n"),
        ("conflicts 16", "0 0\n"),
    ]);
}

/// A race is printed "only where R is not 0".
#[test]
fn races_are_written_and_read() {
    check(&[
        ("write 0 1 07 256 25", "1\n"),
        ("card 4096 0", "ok\n"),
        ("write 0 1 07 256 25", "3\n"),
        ("format", "0\n"),
        ("newlist 0", "0 1\n"),
        ("newblock 0 1 0", "0 1\n"),
        ("write 6 1 07 256 25", "4\n"),
        ("write 0 2 07 256 25", "5\n"),
        ("write 0 2 07 256 24", "8\n"),
        ("write 0 1 07 256 25", "5\n"),
        ("write 0 1 07 255 24", "5\n"),
        ("write 0 1 07 256 18446744073709551615", "5\n"),
        ("write 0 1 07 256 256", "5\n"),
        ("write 0 1 07 256 4294967297", "5\n"),
        ("read 0 1", "15\n"),
        ("write 0 1 07 256 24", "0\n"),
        ("read 0 1", "0 07 race 24\n"),
        ("read 0 1 256", "0 07 race 24\n"),
        ("read 0 1 255", "5\n"),
        ("show 0", "list 1: 1\nblock 1: 07 race 24\n"),
        ("begin 1", "0\n"),
        ("write 1 1 - 256 1", "0\n"),
        ("read 1 1", "0 - race 1\n"),
        ("show 1", "list 1: 1\nblock 1: - race 1\n"),
        ("read 0 1", "0 07 race 24\n"),
        ("end 1", "0\n"),
        ("read 0 1", "0 - race 1\n"),
        ("write 0 1 08", "0\n"),
        ("read 0 1", "0 08\n"),
        ("write 0 1 09 256 00000000000000000000000012", "0\n"),
        ("read 0 1", "0 09 race 12\n"),
        ("write 0 1 09 256 0", "0\n"),
        ("show 0", "list 1: 1\nblock 1: 09\n"),
        ("flush 65535", "0 1313 drained\n"),
        ("read 5 1", "0 09\n"),
        ("list", "segments 1 used 1 entries 8\nlist 1: 1\nblock 1: 9\n"),
        ("write 0 1 07 256 x", "?\n"),
        ("write 0 1 07 256 -1", "?\n"),
        ("write 0 1 07 256 +1", "?\n"),
        ("write 0 1 07 256 18446744073709551616", "?\n"),
        ("write 0 1 07 301 1", "?\n"),
        ("write 0 1 07 - 1", "?\n"),
        ("write 0 1 07 256 1 1", "?\n"),
        ("read 0 1 256 1", "?\n"),
    ]);
}

/// "Only that unit's view has the list."
#[test]
fn lists_go_with_their_unit() {
    check(&[
        ("newlist 1", "1 0\n"),
        ("card 4096 0", "ok\n"),
        ("newlist 1", "3 0\n"),
        ("format", "0\n"),
        ("newlist 1", "4 0\n"),
        ("begin 1", "0\n"),
        ("newlist 5", "4 0\n"),
        ("newlist 1", "0 1\n"),
        ("newblock 1 1 0", "0 1\n"),
        ("newlist 0", "0 2\n"),
        ("inventory 1", "0 2 2 1\n"),
        ("show 1", "list 2:\nlist 1: 1\nblock 1: unwritten\n"),
        (
            "page 1",
            "0 82\n   1   1                                \n   2                                    \n",
        ),
        ("next 1 1 0", "0 1\n"),
        ("inventory 0", "0 1 2\n"),
        ("show 0", "list 2:\n"),
        ("next 0 1 0", "7 0\n"),
        ("newblock 0 1 0", "7 0\n"),
        ("end 1", "0\n"),
        ("show 0", "list 2:\nlist 1: 1\nblock 1: unwritten\n"),
        ("cut flush 65535 12", "cut 12\n"),
        ("list", "segments 1 used 1 entries 3\nlist 2:\n"),
        ("mount", "0 0 0\n"),
        ("inventory 5", "0 1 2\n"),
        ("newlist 0", "0 1\n"),
    ]);
}

#[test]
fn what_is_not_a_command() {
    check(&[
        ("", ""),
        ("   ", ""),
        ("# format", ""),
        (" # format", "?\n"),
        ("card 266240 255", "ok\n"),
        ("card 266241 0", "?\n"),
        ("card 4096 256", "?\n"),
        ("sum", "418589877\n"),
        ("poke 266239 7", "ok\n"),
        ("poke 266240 7", "?\n"),
        ("poke 0 256", "?\n"),
        ("card 4096 0", "ok\n"),
        ("  format  ", "0\n"),
        ("format 0", "?\n"),
        ("Format", "?\n"),
        ("begin", "?\n"),
        ("begin 18446744073709551616", "?\n"),
        ("begin 18446744073709551615", "4\n"),
        ("begin +1", "?\n"),
        ("begin -1", "?\n"),
        ("begin 0000000000000000000000001", "0\n"),
        ("newlist\t0", "?\n"),
        ("newlist 0", "0 1\n"),
        ("newblock 0 1 0", "0 1\n"),
        ("write 0 1 7", "?\n"),
        ("write 0 1 0g", "?\n"),
        ("write 0 1 - 301", "?\n"),
        ("write 0 1 - 300", "5\n"),
        ("write 0 1 ff 0", "5\n"),
        ("write 0 1 ff 256", "0\n"),
        ("write 0 1 ff 256 0 0", "?\n"),
        ("read 0 1 255", "5\n"),
        ("read 0 1 256", "0 ff\n"),
        ("cut now", "?\n"),
        ("lend nothing 0", "?\n"),
        ("lend all 0", "?\n"),
    ]);
}

#[test]
fn data_has_at_most_512_digits() {
    let mut shell = Shell::new(Vec::new());
    let mut printed = String::new();
    for line in ["card 4096 0", "format", "newlist 0", "newblock 0 1 0"] {
        shell.run_line(line.as_bytes(), &mut printed);
    }
    printed.clear();
    let full = "ab".repeat(256);
    shell.run_line(format!("write 0 1 {full}ab").as_bytes(), &mut printed);
    shell.run_line(format!("write 0 1 {full}").as_bytes(), &mut printed);
    shell.run_line(b"read 0 1", &mut printed);
    assert_eq!(printed, format!("?\n0\n0 {full}\n"));
}

#[test]
fn lines_have_a_longest_length() {
    let longest = format!("sum{}", " ".repeat(LINE_BYTES - 3));
    let script = format!("{longest}\n{longest} \n#{longest}\nsum");
    let mut lines = Lines::new(script.as_bytes());
    let mut shell = Shell::new(Vec::new());
    let mut printed = String::new();
    while let Ok(Some(line)) = lines.next_line() {
        shell.run_line(line, &mut printed);
    }
    assert_eq!(printed, "1\n?\n?\n1\n");
}
