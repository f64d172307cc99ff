// kamadak-exif: parse, ask each value for a number; and write in the most significant byte first.
use std::{env, fs, hint, io::Cursor, process, time};

#[repr(C)]
struct Timespec {
    seconds: i64,
    nanoseconds: i64,
}

extern "C" {
    fn clock_gettime(clock: i32, time: *mut Timespec) -> i32;
}

/// The processor time of this process in seconds, by the C library, as in driver.h.
fn processor_time() -> f64 {
    const CLOCK_PROCESS_CPUTIME_ID: i32 = 2;
    let mut now = Timespec { seconds: 0, nanoseconds: 0 };
    unsafe { clock_gettime(CLOCK_PROCESS_CPUTIME_ID, &mut now) };
    now.seconds as f64 + 1e-9 * now.nanoseconds as f64
}

fn work(block: &[u8], writes: bool) -> Result<(), exif::Error> {
    let read = exif::Reader::new().read_raw(block.to_vec())?;
    for field in read.fields() {
        hint::black_box(field.value.get_uint(0));
    }
    if writes {
        let mut writer = exif::experimental::Writer::new();
        for field in read.fields() {
            writer.push_field(field);
        }
        let mut form = Cursor::new(Vec::new());
        writer.write(&mut form, false)?;
        hint::black_box(form.get_ref().len());
    }
    Ok(())
}

fn main() {
    let words: Vec<String> = env::args().collect();
    let (writes, seconds) = (words[1] == "write", words[2].parse::<f64>().expect("seconds"));
    let block = fs::read(&words[3]).expect("a block");
    let (start, mut least, mut times) = (time::Instant::now(), f64::MAX, 1);
    while start.elapsed().as_secs_f64() < seconds {
        let began = processor_time();
        for _ in 0..times {
            if work(&block, writes).is_err() {
                process::exit(1);
            }
        }
        let spent = processor_time() - began;
        least = least.min(spent / times as f64);
        // as in driver.h
        times *= if spent < 100e-6 { 2 } else { 1 };
    }
    println!("{:.4}", 1e6 * least);
}
