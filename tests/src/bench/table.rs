//! The tables, in 80 columns, with the machine and the date.

use std::fs::read_to_string;
use std::process::Command;

use super::time::Compared;

/// The machine and the date.
pub fn machine() {
    let info = read_to_string("/proc/cpuinfo").unwrap_or_default();
    let model = info.lines().find_map(|line| {
        let (name, value) = line.split_once(':')?;
        (name.trim() == "model name").then(|| value.trim().to_string())
    });
    let kernel = read_to_string("/proc/sys/kernel/osrelease").unwrap_or_default();
    let date = Command::new("date").args(["-u", "+%Y-%m-%d"]).output();
    let date = date.map_or(Vec::new(), |output| output.stdout);
    println!("machine: {}", model.as_deref().unwrap_or("unknown"));
    println!("kernel:  {}", kernel.trim());
    println!("date:    {}\n", String::from_utf8_lossy(&date).trim());
}

/// The names of the columns, for times in this unit.
pub fn head(unit: &str) {
    println!("{unit:30}  archive  natural  copying    archive    archive");
    println!("{:57}   /natural   /copying", "");
}

/// What one job costs with the archive, the natural version and copying.
pub fn row(name: &str, [archive, natural, copying]: [f64; 3]) {
    let (by_natural, by_copying) = (archive / natural, archive / copying);
    println!("{name:30}{archive:9.3}{natural:9.3}{copying:9.4}{by_natural:11.2}{by_copying:11.1}");
}

/// The names of the columns for frames that are inverted never, half of them
/// at random, and always.
pub fn inversion_head() {
    let unit = "ns per frame, inverted";
    println!("{unit:30}    never     half   always       half     always");
    println!("{:57}     /never     /never", "");
}

/// What reading or building such frames costs.
pub fn inversion_row(name: &str, costs: Compared<3>) {
    let [never, half, always] = costs.times;
    let [_, by_half, by_always] = costs.over_first;
    println!("{name:30}{never:9.3}{half:9.3}{always:9.3}{by_half:11.2}{by_always:11.2}");
}

/// What the columns for ways to feed a line are.
pub fn ways_told() {
    println!("Below, feed is ows_feed, frames is ows_feed_frames, bytes and two are Rust");
    println!("versions that feed byte by byte and two bytes a frame.\n");
}

/// The names of these columns.
pub fn ways_head() {
    let unit = "ns per bit";
    println!("{unit:16}   feed frames  bytes    two copying   feed frames frames frames");
    println!("{:52}/frames /bytes   /two  /copy", "");
}

/// What one line costs in each way. The ratios are medians of those of the
/// rounds.
pub fn ways_row(name: &str, costs: Compared<5>) {
    let [frames, feed, bytes, two, copying] = costs.times;
    let [_, by_feed, by_bytes, by_two, by_copying] = costs.over_first;
    print!("{name:16}{feed:7.3}{frames:7.3}{bytes:7.3}{two:7.3}{copying:8.4}");
    print!("{by_feed:7.1}{:7.2}{:7.2}", 1.0 / by_bytes, 1.0 / by_two);
    println!("{:7.1}", 1.0 / by_copying);
}

/// What a short and a long line cost, by `ows_feed` and by `ows_feed_frames`.
pub fn lengths([feed, frames]: [[f64; 2]; 2]) {
    let larger = |[short, long]: [f64; 2]| (short / long).max(long / short);
    let times = |name, k: usize| {
        print!("{name:30}{:9.3}{:9.3}", feed[k], frames[k]);
        println!("{:11.3}{:11.3}", 16.0 * feed[k], 16.0 * frames[k]);
    };
    let unit = "ns, locked line";
    println!("{unit:30}     feed   frames       feed     frames");
    println!("{:30}  per bit  per bit  per frame  per frame", "");
    times("a line of 1 kB, from lock", 0);
    times("a line of 100 MB, from lock", 1);
    let name = "larger over smaller";
    println!("{name:30}{:9.2}{:9.2}", larger(feed), larger(frames));
}
