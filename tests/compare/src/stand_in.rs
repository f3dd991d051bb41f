//! Speaks as the program `probe`, by a stand-in, with a fault where one is named. So a comparison
//! can be tried where there is no other program.

use crate::protocol::{Request, HEAD_WORDS};
use crate::stand_ins::{Faults, StandIn};
use std::io::{self, BufReader, BufWriter, ErrorKind, Read, Write};

/// Answers requests to the end of the input. Without a name, lists the faults.
pub fn speak(name: Option<&str>) -> Result<bool, String> {
    let faults = Faults::of_passes().chain(Faults::of_mups16());
    let Some(name) = name else {
        faults.for_each(|faults| println!("{}", faults.name()));
        return Ok(true);
    };
    let mut all = [Faults::NONE].into_iter().chain(faults);
    let named = all.find(|faults| faults.name() == name);
    let faults = named.ok_or(format!("{name} is no fault"))?;
    answer_all(StandIn::new(faults)).map_err(|error| error.to_string())?;
    Ok(true)
}

fn answer_all(mut stand_in: StandIn) -> io::Result<()> {
    let mut input = BufReader::new(io::stdin().lock());
    let mut output = BufWriter::new(io::stdout().lock());
    while let Some(request) = next_request(&mut input)? {
        output.write_all(&stand_in.answer(&request).to_bytes())?;
    }
    output.flush()
}

/// None at the end of the input.
fn next_request(input: &mut impl Read) -> io::Result<Option<Request>> {
    let mut head = [0; 4 * HEAD_WORDS];
    match input.read_exact(&mut head) {
        Err(error) if error.kind() == ErrorKind::UnexpectedEof => return Ok(None),
        read => read?,
    }
    let mut rest = vec![0; Request::rest_length(&head)];
    input.read_exact(&mut rest)?;
    match Request::from_bytes(&head, &rest) {
        Some(request) => Ok(Some(request)),
        None => Err(io::Error::other("there is no such call")),
    }
}
