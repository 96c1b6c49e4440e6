//! The main job's display: a small table of times, and of refusals by name, asked of the library through the wrapper.

mod rows;

use rows::Row;

fn main() {
    let rows = rows::all();
    let width = rows
        .iter()
        .map(|row| row.asked.chars().count())
        .max()
        .unwrap_or(0);
    let line = |asked: &str, answer: &str| println!("{asked:<width$}  {answer}");
    line("asked", "answer");
    for Row { asked, answer } in rows {
        match answer {
            Ok(text) => line(&asked, &text),
            Err(refusal) => line(&asked, &format!("{refusal} ({})", refusal.number())),
        }
    }
}
