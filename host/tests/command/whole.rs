//! The commands that compare the library with the second program.

use crate::case::vma;

/// Parts of the demonstration.
const SHOWN: [&str; 20] = [
    "SET SYSTEM MASK (SSM, 80)\n\n  (*) EC, old 04, new 07\n      \
     0 completed; 9 references; next instruction address 001004\n      storage 000600: 04 -> 07\n      \
     key of block 0 (000000-0007FF): 00 -> 06\n      key of block 2 (001000-0017FF): 00 -> 04\n      \
     key of block 4 (002000-0027FF): 00 -> 04\n\n",
    "  (*) EC, old 04, new 84, expanded installed, bit 6 one\n      \
     2 handed to the expanded assist; 8 references; next instruction address 001000\n      \
     key of block 0 (000000-0007FF): 00 -> 04\n      key of block 2 (001000-0017FF): 00 -> 04\n      \
     key of block 4 (002000-0027FF): 00 -> 04\n\n",
    "STORE CONTROL (STCTL, B6)\n",
    "STORE THEN AND SYSTEM MASK (STNSM, AC)\n",
    "STORE THEN OR SYSTEM MASK (STOSM, AD)\n",
    "SET STORAGE KEY (SSK, 08)\n",
    "bit 20 zero\n      0 completed; 8 references; next instruction address 001002\n      \
     storage 000D18: 00 00 00 -> 08 00 3E\n      key of block 0 (000000-0007FF): 00 -> 04\n      \
     key of block 1 (000800-000FFF): 00 -> 06\n      key of block 2 (001000-0017FF): 04 -> 38\n\n",
    "bit 20 one\n      0 completed; 8 references; next instruction address 001002\n      \
     storage 000D18: 00 00 00 00 -> 02 00 00 3E\n      key of block 0 (000000-0007FF): 00 -> 04\n      \
     key of block 1 (000800-000FFF): 00 -> 06\n      key of block 3 (001800-001FFF): 04 -> 38\n\n",
    // The key of block 1, 00, is 04 when it is consulted, is set to 38, and then the swap word is stored there.
    "  tables in the page's own block\n      0 completed; 8 references; next instruction address 001002\n      \
     storage 000D18: 00 00 00 00 -> 02 00 00 3E\n      key of block 0 (000000-0007FF): 00 -> 04\n      \
     key of block 1 (000800-000FFF): 00 -> 3E\n\n",
    "INSERT STORAGE KEY (ISK, 09)\n\n  EC, page valid, bit 20 zero, swap word 5AC3AD53, key 53\n      \
     0 completed; 8 references; next instruction address 001002; general register 3 ABCDEFAE\n      \
     key of block 0 (000000-0007FF): 00 -> 04\n      key of block 1 (000800-000FFF): 00 -> 04\n\n",
    "  page invalid, MICVPSW at 4000\n      3 control field or key block not in storage, place 6; 5 references; \
     next instruction address 001000; general register 3 ABCDEF3F\n",
    "RESET REFERENCE BIT (RRB, B213)\n\n  key F9, swap word 50C3F9FF, bit 20 zero\n      \
     0 completed; 10 references; next instruction address 001004; condition code 0\n",
    // The swap word goes from FFFFFE round to 000001.
    "  key FF, swap word 50C3F9FF at FFFFFE, bit 20 zero\n      \
     0 completed; 10 references; next instruction address 001004; condition code 3\n      \
     storage FFFFFE: 50 -> 5C\n",
    // The frame and the byte index of 2K pages: 5678 without its last three bits, and 345E78 modulo 2,048.
    "LOAD REAL ADDRESS (LRA, B1)\n\n  virtual pages 2K, segments 64K, real pages 4K\n      0 completed; 12 references; \
     next instruction address 001004; general register 3 00567E78; condition code 0\n",
    // Segment 34: its entry is at 123840 and four times 34 more.
    "  virtual pages 4K, segments 64K, real pages 2K, segment entry invalid\n      0 completed; 9 references; \
     next instruction address 001004; general register 3 00123910; condition code 1\n",
    "Other operation codes\n\n  first halfword B212\n      \
     13 operation code is none of the eight; 0 references; next instruction address 001000\n\n",
    // MICVPSW is in block 0, the virtual PSW in block 5.
    "  EC, old 07, AND F8, refused after two fetches, whose reference bits stay\n      \
     1 program interruption, code 2 privileged operation; 2 references; next instruction address 001000\n      \
     key of block 0 (000000-0007FF): F9 -> FD\n      key of block 5 (002800-002FFF): 02 -> 06\n\n",
    "  operand FFFFFC, two registers, 16 MiB, key zero: goes round to 000000\n      \
     0 completed; 9 references; next instruction address 001004\n      \
     storage 000000: 00 00 00 00 -> A7 B7 C7 D7\n      storage FFFFFC: 00 00 00 00 -> A6 B6 C6 D6\n      \
     key of block 0 (000000-0007FF): 00 -> 06\n      key of block 2 (001000-0017FF): 00 -> 04\n      \
     key of block 8191 (FFF800-FFFFFF): 00 -> 06\n\n",
    "  storage one block over 16 MiB\n      10 storage is not a multiple of 2,048 bytes",
    // The register is in blocks 8191 and 0, the store in block 4, all else in block 2.
    "  register 15 round the top: both blocks\n      \
     0 completed; 6 references; next instruction address 001004\n      \
     storage 002000: 00 00 00 00 -> AF BF CF DF\n      key of block 0 (000000-0007FF): 00 -> 04\n      \
     key of block 2 (001000-0017FF): 00 -> 04\n      key of block 4 (002000-0027FF): 00 -> 06\n      \
     key of block 8191 (FFF800-FFFFFF): 00 -> 04\n\n",
];

#[test]
fn demo() {
    let run = vma(&["demo"]);
    assert_eq!((run.status, run.messages.as_str()), (Some(0), ""));
    assert!(run.output.ends_with("\n280 edges; each answer is the second program's\n"));
    for expected in SHOWN {
        assert!(run.output.contains(expected), "{expected}");
    }
}

/// The numbers of calls by the endings, and those of writing calls.
fn tally(output: &str) -> (Vec<u64>, Vec<u64>) {
    let numbers = |lines: &str| -> Vec<u64> {
        let first = |line: &str| line.split_whitespace().next().expect("a number").parse().expect("a number");
        lines.lines().map(first).collect()
    };
    let (_, tally) = output.split_once(" calls, none differs\n       calls  ended with\n").expect("a tally");
    let (endings, trails) = tally.split_once("       calls  in the trails\n").expect("both");
    (numbers(endings), numbers(trails))
}

#[test]
fn fuzz() {
    for (words, calls) in [
        (&["fuzz", "7", "20000"][..], 20_000),
        (&["fuzz", "8", "20000", "--largest", "65536"], 20_000),
        (&["fuzz", "9", "5000", "--largest", "2048"], 5_000),
        (&["fuzz", "9", "100", "--largest", "18446744073709551615"], 100),
        (&["fuzz", "10", "1"], 1),
    ] {
        let run = vma(words);
        assert_eq!((run.status, run.messages.as_str()), (Some(0), ""), "{}", run.output);
        assert!(run.output.starts_with(&format!("{calls} calls, none differs\n")));
        let (endings, trails) = tally(&run.output);
        assert_eq!([endings, trails].map(|calls| calls.iter().sum::<u64>()), [calls; 2]);
        assert_eq!(vma(words).output, run.output, "the same again");
    }
    let none = "0 calls, none differs\n       calls  ended with\n       calls  in the trails\n           0  went in\n";
    assert!(vma(&["fuzz", "1", "0"]).output.starts_with(none));
}

#[test]
fn fuzz_reaches_every_ending() {
    let run = vma(&["fuzz", "1", "20000"]);
    let (endings, trails) = tally(&run.output);
    // Completed, six codes, and endings 2, 3, 9, 10, 11, 12 and 13.
    assert_eq!(endings.len(), 14, "{}", run.output);
    // Went in, turned away, refused by 20 and by 21.
    assert!(trails.len() == 4 && trails.iter().all(|&calls| calls >= 500), "{}", run.output);
}

#[test]
fn bench() {
    let run = vma(&["bench", "--quick"]);
    assert_eq!((run.status, run.messages.as_str()), (Some(0), ""));
    let rows = run.output.lines().filter(|line| line.contains("  DAT "));
    assert_eq!(rows.count(), 32);
    for title in ["trail  goes in", "trail  is full"] {
        for size in ["64 KiB", "16 MiB"] {
            assert!(run.output.contains(&format!("\n{title}  {size}  ")), "{}", run.output);
        }
    }
    assert!(run.output.contains("\nlargest ratio library / plain: "));
    assert!(run.output.contains("\nlargest ratio of the library in 16 MiB / 64 KiB: "));
}

#[test]
fn bench_that_only_compares() {
    let run = vma(&["bench", "--check"]);
    assert_eq!((run.status, run.messages.as_str()), (Some(0), ""));
    let titles: Vec<&str> = run.output.lines().collect();
    assert_eq!(titles.len(), 36, "{}", run.output);
    assert_eq!((titles[0], titles[35]), ("SSM    DAT off  64 KiB", "trail  is full  16 MiB"));
}
