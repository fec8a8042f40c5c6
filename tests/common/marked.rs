// A lent buffer that stands between marks.
const MARKS: [u8; 19] = [0xa5; 19];

// What `call` leaves of a buffer that holds l. It fails where the marks before and after it are not left as they were.
pub fn left(l: &[u8], call: impl FnOnce(&mut [u8])) -> Result<Vec<u8>, String> {
    let mut room = [&MARKS, l, &MARKS].concat();
    call(&mut room[19..19 + l.len()]);
    if room[..19] != MARKS || room[19 + l.len()..] != MARKS {
        return Err(format!("written beyond {} bytes", l.len()));
    }
    Ok(room[19..19 + l.len()].to_vec())
}
