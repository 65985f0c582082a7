//! The tagged fields of a text: a one-byte tag, a two-byte length and a body, numbers low byte
//! first. Tag 1 is a task, 2 an arrival, 3 the slots to run.

use crate::text::Text;

pub const LONGEST_INPUT: usize = 4096;

fn put(out: &mut Vec<u8>, tag: u8, body: &[u8]) {
    out.push(tag);
    out.extend((body.len() as u16).to_le_bytes());
    out.extend(body);
}

pub fn of(text: &Text) -> Result<Vec<u8>, String> {
    let mut out = Vec::new();
    for task in &text.tasks {
        let body = [task.work, task.deadline, task.period].map(u16::to_le_bytes);
        put(&mut out, 1, &body.concat());
    }
    for arrival in &text.arrivals {
        let mut body = arrival.slot.to_le_bytes().to_vec();
        body.extend(arrival.work.to_le_bytes());
        if let Some(latest) = arrival.latest {
            body.extend(latest.to_le_bytes());
        }
        put(&mut out, 2, &body);
    }
    put(&mut out, 3, &text.slots.to_le_bytes());
    if out.len() > LONGEST_INPUT {
        let bytes = out.len();
        return Err(format!(
            "the fields take {bytes} bytes, above {LONGEST_INPUT}"
        ));
    }
    Ok(out)
}

#[cfg(test)]
mod tests {
    use super::*;
    use crate::text;

    #[test]
    fn the_example_of_the_definition() {
        let text = text::read("task 2 3 5\ntask 2 8 10\narrival 1 2\nrun 10\n").unwrap();
        let expected = [
            1, 6, 0, 2, 0, 3, 0, 5, 0, //
            1, 6, 0, 2, 0, 8, 0, 10, 0, //
            2, 6, 0, 1, 0, 0, 0, 2, 0, //
            3, 4, 0, 10, 0, 0, 0,
        ];
        assert_eq!(of(&text).unwrap(), expected);
    }

    #[test]
    fn a_latest_finish_makes_the_field_longer() {
        let text = text::read("task 1 1 1\narrival 258 772 16909060\nrun 0\n").unwrap();
        let expected = [2, 10, 0, 2, 1, 0, 0, 4, 3, 4, 3, 2, 1];
        assert_eq!(of(&text).unwrap()[9..22], expected);
    }

    #[test]
    fn every_number_at_its_greatest() {
        let text = "task 65535 65535 65535\narrival 4294967295 65535 4294967295\nrun 100000\n";
        let expected = [
            &[1, 6, 0][..],
            &[255; 6],
            &[2, 10, 0],
            &[255; 10],
            &[3, 4, 0, 0xa0, 0x86, 1, 0],
        ];
        let text = text::read(text).unwrap();
        assert_eq!(of(&text).unwrap(), expected.concat());
    }

    #[test]
    fn names_and_comments_are_no_part_of_the_fields() {
        let named = "# a\ntask 1 2 3 fan # b\n\narrival 4 5 gauge\narrival 4 5 60 led\nrun 7 # c\n";
        let bare = "task 1 2 3\narrival 4 5\narrival 4 5 60\nrun 7\n";
        let of_text = |text| of(&text::read(text).unwrap()).unwrap();
        assert_eq!(of_text(named), of_text(bare));
    }

    /// The text that the fields hold, read back in its plainest form.
    fn read_back(fields: &[u8]) -> String {
        let low_first = |bytes: &[u8]| bytes.iter().rev().fold(0, |n, &b| n * 256 + u64::from(b));
        let mut text = String::new();
        let mut rest = fields;
        while let [tag, low, high, ..] = *rest {
            let (body, after) = rest[3..].split_at(low_first(&[low, high]) as usize);
            let (item, widths): (&str, &[usize]) = match (tag, body.len()) {
                (1, 6) => ("task", &[2, 2, 2]),
                (2, 6) => ("arrival", &[4, 2]),
                (2, 10) => ("arrival", &[4, 2, 4]),
                (3, 4) => ("run", &[4]),
                _ => panic!("tag {tag}"),
            };
            text += item;
            let mut at = 0;
            for width in widths {
                text += &format!(" {}", low_first(&body[at..at + width]));
                at += width;
            }
            text += "\n";
            rest = after;
        }
        assert!(rest.is_empty());
        text
    }

    #[test]
    fn the_fields_hold_the_text() {
        let mut seed: u64 = 1;
        let mut draw = |below: u64| {
            seed = seed.wrapping_mul(6_364_136_223_846_793_005).wrapping_add(1);
            (seed >> 33) % below
        };
        for _ in 0..500 {
            let mut text = String::new();
            for _ in 0..=draw(16) {
                text += &format!("task {} {} {}\n", draw(65_536), draw(300), draw(65_536));
            }
            let mut slot = 0;
            for _ in 0..draw(30) {
                slot += draw(70_000);
                text += &format!("arrival {slot} {}", draw(65_536));
                if draw(2) == 0 {
                    text += &format!(" {}", draw(1 << 31));
                }
                text += "\n";
            }
            text += &format!("run {}\n", draw(100_001));
            let fields = of(&text::read(&text).unwrap()).unwrap();
            assert_eq!(read_back(&fields), text);
        }
    }

    #[test]
    fn too_many_bytes() {
        let of_arrivals = |short, long| {
            let arrivals = "arrival 1 1\n".repeat(short) + &"arrival 1 1 1\n".repeat(long);
            of(&text::read(&format!("task 1 1 1\n{arrivals}run 1\n")).unwrap())
        };
        assert_eq!(of_arrivals(449, 3).unwrap().len(), LONGEST_INPUT);
        let told = "the fields take 4100 bytes, above 4096";
        assert_eq!(of_arrivals(448, 4).unwrap_err(), told);
    }
}
