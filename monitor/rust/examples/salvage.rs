//! A program in Rust that gets what can be got from a damaged log. It prints what the one in C prints:
//! monitor/examples/salvage.out, worked out by hand.
use nataqvoju::salvage;

const DAMAGED: [u8; 30] = [
    0x7E, 0xB5, 3, 14, 1, //        0: wire 14 goes high
    0x7E, 0xB5, 6, //               5: a delivery step
    0x7E, 0xB4, 5, 10, 0, 0, 0, //  8: an advance, in whose mark a bit has flipped
    0x7E, 0xB5, 4, 0x2E, //        15: an end of interrupt
    0x00, 0xFF, //                 19: stray bytes
    0x7E, 0xB5, 6, //              21: a delivery step
    0x7E, 0xB5, 5, 10, 0, 0, //    24: an advance, of which the last byte is missing
];

/// The most that a log of this length can need.
const KEPT: usize = DAMAGED.len();
const LIST: usize = 2 * ((DAMAGED.len() + 3) / 4);

/// Salvages into the first bytes and numbers of the buffers, and shows what came of it.
fn show(kept_length: usize, list_length: usize) -> Vec<u8> {
    let (mut kept, mut list) = ([0xEE; KEPT], [u64::MAX; LIST]);
    println!("-- room for {kept_length} bytes and {list_length} numbers");
    let salvaged = salvage(&DAMAGED, &mut kept[..kept_length], &mut list[..list_length]);
    if let Err(refusal) = salvaged.done() {
        println!("refused {}", refusal.number());
    }
    println!("records {}, bytes {}, stretches {}", salvaged.records, salvaged.bytes, salvaged.stretches);
    let (records, kept_rest) = kept.split_at(salvaged.bytes as usize);
    let (stretches, list_rest) = list.split_at(2 * salvaged.stretches as usize);
    if !records.is_empty() {
        let bytes: Vec<String> = records.iter().map(|byte| format!("{byte:02x}")).collect();
        println!("{}", bytes.join(" "));
    }
    for stretch in stretches.chunks_exact(2) {
        println!("skipped {} at {}", stretch[1], stretch[0]);
    }
    let rest = kept_rest.iter().all(|&byte| byte == 0xEE) && list_rest.iter().all(|&number| number == u64::MAX);
    println!("the rest of the buffers: {}", if rest { "as it came" } else { "CHANGED" });
    records.to_vec()
}

fn main() {
    println!("a log of {} bytes", DAMAGED.len());
    show(KEPT, LIST);
    show(15, 5);
    show(14, 6);
    let kept = show(15, 6);
    println!("-- what was kept, salvaged again: there is nothing to list");
    let mut again = [0; KEPT];
    let salvaged = salvage(&kept, &mut again, &mut []);
    println!(
        "records {}, bytes {}, stretches {}, {}",
        salvaged.records,
        salvaged.bytes,
        salvaged.stretches,
        if again[..15] == kept[..] { "the same bytes" } else { "OTHER BYTES" }
    );
}
