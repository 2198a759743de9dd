//! The rules spelled out slowly, one file a layer, to judge the reference: names as lists of units, addresses bit by
//! bit, records compared by pairs.

pub mod a6;
pub mod address;
pub mod collapse;
pub mod draft;
pub mod forward;
pub mod line;
pub mod names;
pub mod plan;
pub mod reverse;

/// What a call leaves: its number, every octet of its output, its figures.
pub type Answer = (u32, Vec<u8>, Vec<u32>);

/// The answer of a call that gives these octets and figures, or this number, for an output and figures of these lengths.
fn answer(given: Result<(Vec<u8>, [u32; 2]), u32>, out: usize, figures: usize) -> Answer {
    match given {
        Ok((mut octets, counted)) => {
            octets.resize(out, 0);
            (0, octets, counted.to_vec())
        }
        Err(number) => (number, vec![0; out], vec![0; figures]),
    }
}

/// The answer of an operation on a table: where that is in order, the one of a call that gives this, with the place of
/// the table's fault after the two figures if there are four (T-04).
fn table_answer(
    table: &[u8],
    given: impl FnOnce() -> Result<(Vec<u8>, [u32; 2]), u32>,
    out: usize,
    figures: usize,
) -> Answer {
    let (number, place) = plan::check(table);
    let (number, octets, counted) = answer(demand(number, number == 0).and_then(|_| given()), out, 2);
    let all = [&counted[..], &place].concat();
    (number, octets, if figures == 4 { all } else { vec![0; figures] })
}

/// Refuses with the number unless the test passes.
fn demand(number: u32, test: bool) -> Result<(), u32> {
    if test {
        Ok(())
    } else {
        Err(number)
    }
}
