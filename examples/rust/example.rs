// Reads and drafts again a recorded group key message through the C interface of the library, from plain Rust without packages. Run it
// by examples/run-rust.sh. Each unsafe call is in a safe function that takes slices and numbers, so that what the header asks of a
// caller holds: no slice is null, and what is written overlaps nothing else.

use std::process::ExitCode;

const KEY: u64 = 0x0123_4567_89ab_cdef;

// The one signer whom the station trusts: a length byte, and the bytes.
const TRUSTED: &[u8] = b"\x15sip:gms@line4.example";

const GMK: u32 = 3;

const ROWS: usize = 24;

const ROW_BYTES: usize = 6;

// As include/mikey.h declares them.
extern "C" {
    fn mikey_walk(
        message: *const u8,
        message_length: usize,
        rows: *mut u8,
        rows_length: usize,
        count: *mut u32,
        header: *mut u32,
        span: *mut u32,
        place: *mut u32,
        detail: *mut u32,
    ) -> u32;

    fn mikey_read_fixed(
        message: *const u8,
        message_length: usize,
        rows: *mut u8,
        rows_length: usize,
        profile: u32,
        key: u64,
        trusted: *const u8,
        trusted_length: usize,
        count: *mut u32,
        header: *mut u32,
        span: *mut u32,
        place: *mut u32,
        detail: *mut u32,
    ) -> u32;

    fn mikey_redraft_fixed(
        message: *const u8,
        message_length: usize,
        profile: u32,
        key: u64,
        trusted: *const u8,
        trusted_length: usize,
        buffer: *mut u8,
        buffer_length: usize,
        length: *mut u32,
        place: *mut u32,
        detail: *mut u32,
    ) -> u32;

    fn mikey_time(
        payload: *const u8,
        payload_length: usize,
        seconds: *mut u64,
        place: *mut u32,
        detail: *mut u32,
    ) -> u32;
}

// What a call tells that does not return 0.
struct Refusal {
    code: u32,
    place: u32,
    detail: u32,
}

impl std::fmt::Display for Refusal {
    fn fmt(&self, f: &mut std::fmt::Formatter<'_>) -> std::fmt::Result {
        write!(f, "refused {} {} {}", self.code, self.place, self.detail)
    }
}

struct Row {
    code: u8,
    slot: u8,
    start: usize,
    length: usize,
}

struct Told {
    rows: Vec<Row>,
    header: u32,
    span: u32,
}

// The numbers and the rows that a call hands out.
#[derive(Default)]
struct Numbers {
    count: u32,
    header: u32,
    span: u32,
    place: u32,
    detail: u32,
}

impl Numbers {
    fn told(self, code: u32, rows: &[u8]) -> Result<Told, Refusal> {
        if code != 0 {
            return Err(Refusal {
                code,
                place: self.place,
                detail: self.detail,
            });
        }
        let rows = rows
            .chunks(ROW_BYTES)
            .take(self.count as usize)
            .map(|row| Row {
                code: row[0],
                slot: row[1],
                start: u16::from_be_bytes([row[2], row[3]]).into(),
                length: u16::from_be_bytes([row[4], row[5]]).into(),
            })
            .collect();
        Ok(Told {
            rows,
            header: self.header,
            span: self.span,
        })
    }
}

fn walk(message: &[u8]) -> Result<Told, Refusal> {
    let mut rows = [0; ROWS * ROW_BYTES];
    let mut n = Numbers::default();
    let code = unsafe {
        mikey_walk(
            message.as_ptr(),
            message.len(),
            rows.as_mut_ptr(),
            rows.len(),
            &mut n.count,
            &mut n.header,
            &mut n.span,
            &mut n.place,
            &mut n.detail,
        )
    };
    n.told(code, &rows)
}

fn read(message: &[u8], profile: u32, key: u64, trusted: &[u8]) -> Result<Told, Refusal> {
    let mut rows = [0; ROWS * ROW_BYTES];
    let mut n = Numbers::default();
    let code = unsafe {
        mikey_read_fixed(
            message.as_ptr(),
            message.len(),
            rows.as_mut_ptr(),
            rows.len(),
            profile,
            key,
            trusted.as_ptr(),
            trusted.len(),
            &mut n.count,
            &mut n.header,
            &mut n.span,
            &mut n.place,
            &mut n.detail,
        )
    };
    n.told(code, &rows)
}

fn time(payload: &[u8]) -> Result<u64, Refusal> {
    let mut seconds = 0;
    let (mut place, mut detail) = (0, 0);
    let code = unsafe {
        mikey_time(
            payload.as_ptr(),
            payload.len(),
            &mut seconds,
            &mut place,
            &mut detail,
        )
    };
    if code != 0 {
        return Err(Refusal {
            code,
            place,
            detail,
        });
    }
    Ok(seconds)
}

// The message again, at the front of the buffer.
fn redraft<'a>(
    message: &[u8],
    profile: u32,
    key: u64,
    trusted: &[u8],
    buffer: &'a mut [u8],
) -> Result<&'a [u8], Refusal> {
    let (mut length, mut place, mut detail) = (0, 0, 0);
    let code = unsafe {
        mikey_redraft_fixed(
            message.as_ptr(),
            message.len(),
            profile,
            key,
            trusted.as_ptr(),
            trusted.len(),
            buffer.as_mut_ptr(),
            buffer.len(),
            &mut length,
            &mut place,
            &mut detail,
        )
    };
    if code != 0 {
        return Err(Refusal {
            code,
            place,
            detail,
        });
    }
    Ok(&buffer[..length as usize])
}

fn tell(what: &str, told: Result<Told, Refusal>) {
    match told {
        Ok(told) => println!("{what}: ok {} {} {}", told.rows.len(), told.header, told.span),
        Err(refusal) => println!("{what}: {refusal}"),
    }
}

fn show(sample: &[u8], message: &[u8]) -> Result<(), Refusal> {
    let told = walk(sample)?;
    println!(
        "{} payloads, a header of {} bytes, a span of {}",
        told.rows.len(),
        told.header,
        told.span
    );
    println!("code slot start length");
    for row in &told.rows {
        println!("{} {} {} {}", row.code, row.slot, row.start, row.length);
    }
    if let Some(row) = told.rows.first() {
        println!("time {}", time(&sample[row.start..row.start + row.length])?);
    }
    // its signature is no tag of this key
    tell("sample", read(sample, GMK, KEY, TRUSTED));
    // without its last byte
    tell("cut", read(&message[..message.len() - 1], GMK, KEY, TRUSTED));
    tell("message", read(message, GMK, KEY, TRUSTED));
    let mut buffer = [0; 8192];
    let again = redraft(message, GMK, KEY, TRUSTED, &mut buffer)?;
    let same = if again == message { "the same" } else { "other" };
    println!("redraft: ok {}, {same} bytes", again.len());
    Ok(())
}

fn main() -> ExitCode {
    let words: Vec<String> = std::env::args().skip(1).collect();
    let [sample, message] = words.as_slice() else {
        eprintln!("usage: example-rust SAMPLE GROUP-MESSAGE");
        return ExitCode::from(2);
    };
    let (Ok(sample), Ok(message)) = (std::fs::read(sample), std::fs::read(message)) else {
        eprintln!("a message is unreadable");
        return ExitCode::from(2);
    };
    match show(&sample, &message) {
        Ok(()) => ExitCode::SUCCESS,
        Err(refusal) => {
            println!("{refusal}");
            ExitCode::FAILURE
        }
    }
}
