//! Damaged images: whatever the header and the table hold, the program answers or refuses. It never
//! falls over, a refused edit changes nothing, and what it lists is what the table says.

mod support;

use std::fs;
use support::*;

const END: u32 = 0x4000;

/// A small master with folders, a shared text and a program.
fn master() -> Vec<u8> {
    let entries = [
        file("a", 0x800, 0x80),
        folder("d", vec![file("b", 0x900, 0x40), folder("e", vec![file("c", 0, 0)])]),
        file("a.b", 0x1000, 0x1000),
    ];
    let table = table(&entries);
    let mut image = vec![0; END as usize];
    put(&mut image, 0x1C, 0xC233_9F3D);
    put(&mut image, 0x420, 0x3000);
    put(&mut image, 0x424, 0x440);
    put(&mut image, 0x428, table.len() as u32);
    put(&mut image, 0x434, END);
    image[0x440..0x440 + table.len()].copy_from_slice(&table);
    pattern(&mut image[0x800..0xA00], 5);
    image
}

struct Random(u32);

impl Random {
    fn below(&mut self, n: u32) -> u32 {
        self.0 ^= self.0 << 13;
        self.0 ^= self.0 >> 17;
        self.0 ^= self.0 << 5;
        self.0 % n
    }
}

/// Some bytes of the header's numbers, the table or the program changed.
fn damage(image: &mut [u8], random: &mut Random) {
    for _ in 0..=random.below(3) {
        let at = match random.below(4) {
            0 => 0x420 + random.below(0x20),
            1 => 0x3000 + random.below(0xE4),
            _ => 0x440 + random.below(0x70),
        };
        let odd = [0, 1, 2, 0x7F, 0x80, 0xFF, b'/', b'.', 4, 8];
        image[at as usize] = match random.below(3) {
            0 => random.below(256) as u8,
            _ => odd[random.below(odd.len() as u32) as usize],
        };
    }
}

#[test]
fn no_image_makes_the_program_fall_over() {
    let temp = Temp::in_memory();
    let mut random = Random(0x1234_5678);
    let (mut opened, mut above, mut refused) = (0, 0, 0);
    for turn in 0..250 {
        let mut bytes = master();
        // Some state a maximum for the table, which has 98 bytes.
        if turn % 4 == 3 {
            put(&mut bytes, 0x42C, turn as u32 % 128);
        }
        damage(&mut bytes, &mut random);
        let image = temp.write("spoiled.iso", &bytes);
        let check = on("check", &image, &[]);
        assert!((0..=24).contains(&check.status), "turn {turn}: {} {}", check.status, check.err);
        let listed = on("list", &image, &[]);
        assert_eq!(listed.status, check.status, "turn {turn}");
        if check.status == 0 {
            opened += 1;
            above += usize::from(check.out.contains("\nnote: "));
            assert!(listed.out == Table::of(&image).listing(), "turn {turn}: {}", listed.out);
        }
        let out = temp.at(&format!("out{turn}"));
        let svg = temp.at(&format!("map{turn}.svg"));
        let (out, svg) = (out.to_str().unwrap(), svg.to_str().unwrap());
        let copy = temp.write("copy.iso", &bytes);
        let html = temp.at(&format!("report{turn}.html"));
        let (itself, html) = (copy.to_str().unwrap(), html.to_str().unwrap());
        let reading: [&[&str]; 11] = [
            &["info"],
            &["tree", "--json"],
            &["free"],
            &["find", "d/e"],
            &["dol"],
            &["map", svg],
            &["extract", "--all", "--number", out],
            &["compare", itself],
            &["report", itself, html],
            &["hash"],
            &["place", "0x10", "4"],
        ];
        // The last three read what the others read, and take longer.
        let count = if turn % 5 == 0 { reading.len() } else { 8 };
        for args in &reading[..count] {
            let run = on(args[0], &image, &args[1..]);
            // 25 and 26 are for edits.
            assert!(run.status <= 24 || run.status == 65, "turn {turn} {args:?}: {}", run.err);
            assert!(
                run.signal.is_none() && !run.err.contains("panicked"),
                "turn {turn}: {}",
                run.err
            );
            if args[0] == "compare" && check.status == 0 {
                assert_eq!(run.status, 0, "turn {turn}: {}", run.out);
            }
        }
        let given = temp.write("given", &clip(0x30 + turn, 1));
        let edits: [&[&str]; 5] = [
            &["move", "a", "0x2000"],
            &["resize", "d/b", "0x50"],
            &["mkdir", "d/n"],
            &["rewrite"],
            &["fill", "d/b", given.to_str().unwrap()],
        ];
        let edit = edits[turn % edits.len()];
        let run = on(edit[0], &image, &edit[1..]);
        assert!(run.status <= 26, "turn {turn} {edit:?}: {}", run.err);
        refused += usize::from(run.status == 26);
        match run.status {
            0 => assert!(done("list", &image, &[]) == Table::of(&image).listing(), "turn {turn}"),
            _ => assert!(fs::read(&image).unwrap() == bytes, "turn {turn} {edit:?}"),
        }
    }
    assert!((20..230).contains(&opened), "{opened} of 250 open");
    // There are tables above their maximum, and edits that are refused for it.
    assert!(above > 4 && refused > 4, "{above} are above their maximum, {refused} refused with 26");
}
