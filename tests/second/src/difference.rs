//! The first line in which two outputs of a program differ.

/// How the columns are called by which a line names its place.
const PLACES: [&str; 4] = ["stream", "event", "vector", "file"];
const NO_LINE: &str = "(no line)";

/// Tells the place and both lines, if the outputs differ. The names say whose each is.
pub fn first_difference(ours: (&str, &str), theirs: (&str, &str)) -> Option<String> {
    let ((our_name, our_text), (their_name, their_text)) = (ours, theirs);
    let mut our_lines = our_text.split_inclusive('\n');
    let mut their_lines = their_text.split_inclusive('\n');
    for number in 1.. {
        let (ours, theirs) = (our_lines.next(), their_lines.next());
        if ours == theirs {
            ours?;
            continue;
        }
        let heading = our_text.lines().next().unwrap_or_default();
        let place = place_of(heading, ours.or(theirs).unwrap_or_default());
        let [ours, theirs] = [ours, theirs].map(|line| line.map_or(NO_LINE, str::trim_end));
        return Some(format!(
            "{place}line {number}\n    {our_name}: {ours}\n    {their_name}: {theirs}"
        ));
    }
    None
}

/// `stream 3, event 7, ` if the line has these columns.
fn place_of(heading: &str, line: &str) -> String {
    let fields = heading.split(' ').zip(line.split(' '));
    let places = fields
        .take_while(|(column, field)| PLACES.contains(column) && field.parse::<usize>().is_ok());
    places
        .map(|(column, field)| format!("{column} {field}, "))
        .collect()
}
