//! How cases go to a driver and its answers come back. Numbers are big-endian,
//! a slice is its length in four bytes and its bytes, and one byte ends them.

use std::io::{self, BufReader, BufWriter, ErrorKind, Read, StdinLock, StdoutLock, Write};

use crate::commands::Tally;

pub const END: u8 = 0;

pub fn put(out: &mut impl Write, slice: &[u8]) -> io::Result<()> {
    out.write_all(&(slice.len() as u32).to_be_bytes())?;
    out.write_all(slice)
}

pub fn bytes<const N: usize>(from: &mut impl Read) -> io::Result<[u8; N]> {
    let mut bytes = [0; N];
    from.read_exact(&mut bytes)?;
    Ok(bytes)
}

pub fn slice(from: &mut impl Read) -> io::Result<Vec<u8>> {
    let len = u32::from_be_bytes(bytes(from)?);
    let mut bytes = Vec::new();
    let read = from.take(u64::from(len)).read_to_end(&mut bytes)?;
    if read < len as usize {
        return Err(ErrorKind::UnexpectedEof.into());
    }
    Ok(bytes)
}

/// An answer begins with the kind of its case.
pub fn begin(from: &mut impl Read, kind: u8) -> io::Result<()> {
    let [told] = bytes(from)?;
    if told != kind {
        return Err(io::Error::other(format!("kind {told} instead of {kind}")));
    }
    Ok(())
}

/// Whether something was touched that is none of an answer.
pub fn stray(from: &mut impl Read) -> io::Result<bool> {
    Ok(bytes(from)? != [0])
}

pub type Out = BufWriter<StdoutLock<'static>>;

/// Cases to standard output, each as `put_case` writes it.
pub fn make<C>(
    cases: impl Iterator<Item = C>,
    put_case: impl Fn(&mut Out, &C) -> io::Result<()>,
) -> io::Result<()> {
    let mut out = BufWriter::with_capacity(1 << 16, io::stdout().lock());
    for case in cases {
        put_case(&mut out, &case)?;
    }
    out.write_all(&[END])?;
    out.flush()
}

pub type In = BufReader<StdinLock<'static>>;

/// The answers to cases from standard input, each as `get` reads it, counted by
/// `judged`. Nothing may follow the last one.
pub fn judge<C, A>(
    cases: impl Iterator<Item = C>,
    get: impl Fn(&mut In, &C) -> io::Result<A>,
    judged: impl Fn(&mut Tally, &C, A),
) -> io::Result<Tally> {
    let mut from = BufReader::with_capacity(1 << 16, io::stdin().lock());
    let mut tally = Tally::new();
    for case in cases {
        let answer = get(&mut from, &case)?;
        judged(&mut tally, &case, answer);
    }
    if bytes(&mut from)? != [END] || from.read(&mut [0])? != 0 {
        return Err(io::Error::other("more answers than cases"));
    }
    Ok(tally)
}
