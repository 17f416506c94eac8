//! What is read of the data of an answer in a selection, as a line (02, R-12).

use rules::choosing::{read_application, read_directory, read_directory_file, Candidate};
use rules::hex;

const FAULT: &str = "fault";

/// An application as `NAME:87`, with `-` where 87 is absent.
fn candidate_text(found: &Candidate) -> String {
    let indicator = found.indicator.map_or("-".to_string(), |byte| format!("{byte:02X}"));
    format!("{}:{indicator}", hex::text(&found.name))
}

/// The file of the directory.
pub fn directory_file_line(data: &[u8]) -> String {
    read_directory_file(data).map_or(FAULT.to_string(), |file| file.to_string())
}

/// The applications that a record of the directory names.
pub fn directory_line(data: &[u8]) -> String {
    match read_directory(data) {
        Some(entries) if entries.is_empty() => "-".to_string(),
        Some(entries) => entries.iter().map(candidate_text).collect::<Vec<_>>().join(" "),
        None => FAULT.to_string(),
    }
}

/// An application and its 9F38.
pub fn application_line(data: &[u8]) -> String {
    read_application(data).map_or(FAULT.to_string(), |application| {
        let list = hex::text_or_dash(&application.list);
        format!("{} {list}", candidate_text(&application.found))
    })
}
