//! Calls on one file: the library's answers and buffers against the plain machine's.

use std::fmt::Debug;

use crate::hexadecimal;
use crate::summary::Summary;
use reference::file::Refusal;
use reference::machine::{self, Answer, PartAnswer};
use reference::pegs;

pub fn refusal(refusal: voardusk::Refusal) -> Refusal {
    Refusal {
        number: i128::from(refusal.number()),
        place: i128::from(refusal.place()),
    }
}

/// The buffers of both sides; each call gets its own as the last one left it.
pub struct Run<'f> {
    file: &'f [u8],
    pub library_buffer: Vec<u8>,
    machine_buffer: Vec<u8>,
}

impl<'f> Run<'f> {
    pub fn new(file: &'f [u8], buffer: Vec<u8>) -> Run<'f> {
        Run {
            file,
            library_buffer: buffer.clone(),
            machine_buffer: buffer,
        }
    }

    /// Compares a call for one row; the line where it was not refused.
    pub fn row(&mut self, station: u64, summary: &mut Summary) -> Result<Option<Vec<u8>>, String> {
        summary.row_calls += 1;
        let (library, line) = match voardusk::row(self.file, station, &mut self.library_buffer) {
            Ok(line) => (Answer::Line(line.len()), Some(line.to_vec())),
            Err(refused) => (Answer::Refused(refusal(refused)), None),
        };
        let machine = machine::row(self.file, station, &mut self.machine_buffer);
        if let Answer::Refused(refused) = &machine {
            summary.count_refused_call(refused.number);
        }
        let length = line.as_ref().map_or(0, Vec::len);
        let same_line = line
            .as_ref()
            .is_none_or(|line| self.library_buffer.get(..length) == Some(line));
        if library != machine || self.library_buffer != self.machine_buffer || !same_line {
            let call = format!("row {station}");
            return Err(self.difference(&call, &library, &machine));
        }
        Ok(line)
    }

    /// Compares a call for the next station; the machine's answer.
    pub fn next_station(&mut self, station: u64, summary: &mut Summary) -> Result<Answer, String> {
        summary.next_calls += 1;
        let library = match voardusk::next_station(self.file, station) {
            Ok(Some(next)) => Answer::Station(i128::from(next)),
            Ok(None) => Answer::NoStation,
            Err(refused) => Answer::Refused(refusal(refused)),
        };
        let machine = machine::next_station(self.file, station);
        if let Answer::Refused(refused) = &machine {
            summary.count_refused_call(refused.number);
        }
        if library != machine || self.library_buffer != self.machine_buffer {
            let call = format!("next station {station}");
            return Err(self.difference(&call, &library, &machine));
        }
        Ok(machine)
    }

    /// Compares a call for a part of the list; the machine's answer.
    pub fn list(&mut self, station: u64, summary: &mut Summary) -> Result<PartAnswer, String> {
        summary.list_calls += 1;
        let (library, rows) = match voardusk::list(self.file, station, &mut self.library_buffer) {
            Ok(part) => {
                let next = part.next.map(i128::from);
                let answer = PartAnswer::Rows(part.rows.len(), next);
                (answer, part.rows.to_vec())
            }
            Err(refused) => (PartAnswer::Refused(refusal(refused)), Vec::new()),
        };
        let machine = machine::list(self.file, station, &mut self.machine_buffer);
        if let PartAnswer::Refused(refused) = &machine {
            summary.count_refused_call(refused.number);
        }
        let same_rows = self.library_buffer.get(..rows.len()) == Some(&rows);
        if library != machine || self.library_buffer != self.machine_buffer || !same_rows {
            let call = format!("list from {station}");
            return Err(self.difference(&call, &library, &machine));
        }
        Ok(machine)
    }

    /// Compares a call for the rows of pegs; the reference's answer.
    pub fn pegs(
        &mut self,
        stations: &[u64],
        summary: &mut Summary,
    ) -> Result<Result<usize, Refusal>, String> {
        let lent = stations.to_vec();
        let (library, rows) = match voardusk::pegs(self.file, &lent, &mut self.library_buffer) {
            Ok(rows) => (Ok(rows.len()), rows.to_vec()),
            Err(refused) => (Err(refusal(refused)), Vec::new()),
        };
        let reference = pegs::pegs(self.file, stations, &mut self.machine_buffer);
        if let Err(refused) = &reference {
            summary.count_refused_call(refused.number);
        }
        let same_rows = self.library_buffer.get(..rows.len()) == Some(&rows);
        if library != reference || self.library_buffer != self.machine_buffer || !same_rows {
            let call = format!("pegs {stations:?} in {} bytes", self.library_buffer.len());
            return Err(self.difference(&call, &library, &reference));
        }
        match lent == stations {
            true => Ok(reference),
            false => Err(format!("the list {stations:?} was changed to {lent:?}")),
        }
    }

    /// Says what differs after a call.
    fn difference(&self, call: &str, library: &dyn Debug, machine: &dyn Debug) -> String {
        format!(
            "call: {call}\nthe library's answer: {library:?}\nthe machine's answer: {machine:?}\n\
             the library's buffer: {}\nthe machine's buffer: {}",
            hexadecimal::write(&self.library_buffer),
            hexadecimal::write(&self.machine_buffer)
        )
    }
}
