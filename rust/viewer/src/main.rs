//! The command `spacetime`: takes a machine in the standard format, steps it, and draws it by the library.

mod answers;
mod arguments;
mod comparing;
mod drawing;
mod failure;
mod image;
mod machine;
mod numbers;
mod options;
mod output;
mod preview;
mod progress;
mod report;
mod sizing;
mod stepper;
mod stored;
mod tape;
mod terminal;
mod texts;
mod words;

use std::env;
use std::io::{self, Write};
use std::process::ExitCode;

use serde_json::json;
use spacetime::{Palette, Picture};

use answers::Answers;
use arguments::{Asked, Compared, Comparing, Drawing, Locating};
use drawing::Drawn;
use failure::{DONE, Failure, NO};
use output::{Output, say};
use progress::Bar;

fn main() -> ExitCode {
    let status = arguments::read(env::args_os()).and_then(|asked| match asked {
        Asked::Text(text) => say(io::stdout(), text.as_bytes()).map(|()| DONE),
        Asked::Draw(drawing) => draw(&drawing),
        Asked::Locate(locating) => locate(&locating),
        Asked::Equal(comparing) => equal(&comparing),
    });
    ExitCode::from(status.unwrap_or_else(|failure| {
        // Where standard error is closed too, the status alone is left to say it.
        let _ = writeln!(io::stderr(), "spacetime: {}", failure.sentence());
        failure.status()
    }))
}

/// Draws, writes the file, and says what was asked.
fn draw(drawing: &Drawing) -> Result<u8, Failure> {
    if let Some(answers) = known(drawing) {
        return say(io::stdout(), answers.words().as_bytes()).map(|()| answers.status());
    }
    if let Some(output) = &drawing.output {
        output.check()?;
    }
    let mut bar = Bar::new();
    let drawn = drawing::draw(&drawing.machine, &drawing.order, &mut |done, of| bar.at(done, of))?;
    drop(bar);
    let answers = Answers::of(&drawn.picture, &drawing.questions)?;
    if let Some(output) = &drawing.output {
        let png = image::encode(&drawn.picture, &palette(drawing), texts::of(drawing, &drawn));
        output.write(&png.expect("memory takes all"))?;
    }
    let said = if drawing.json {
        report::json(drawing, &drawn, &answers).to_string() + "\n"
    } else {
        say_notes(&drawn.notes);
        words(drawing, &drawn, &answers)
    };
    match drawing.output {
        Some(Output::Standard) => say(io::stderr(), said.as_bytes())?,
        _ => say(io::stdout(), said.as_bytes())?,
    }
    Ok(answers.status())
}

/// The answers that need no run. A program that reads JSON wants the picture's numbers with them.
fn known(drawing: &Drawing) -> Option<Answers> {
    let needs_picture = drawing.output.is_some() || drawing.json || drawing.page;
    if needs_picture { None } else { Answers::before_the_run(&drawing.questions, drawing.order.size.largest()) }
}

fn say_notes(notes: &[String]) {
    for note in notes {
        // A note that nobody can read changes nothing.
        let _ = writeln!(io::stderr(), "spacetime: {note}");
    }
}

/// The page, the answers, the preview and the line about the file.
fn words(drawing: &Drawing, drawn: &Drawn, answers: &Answers) -> String {
    let mut text = String::new();
    if drawing.page {
        text += &drawn.picture.page().expect("a picture is ordered that a page has room for");
    }
    text += &answers.words();
    if let Some(output) = &drawing.output {
        if drawing.preview && *output != Output::Standard {
            text += &terminal::preview(&drawn.picture, &palette(drawing));
        }
        text += &report::words(output, drawn);
    }
    text
}

fn palette(drawing: &Drawing) -> Palette {
    if drawing.dark { Palette::DARK } else { Palette::LIGHT }
}

/// Answers from a file.
fn locate(locating: &Locating) -> Result<u8, Failure> {
    let answers = Answers::of(&stored::read(&locating.file)?, &locating.questions)?;
    let said = if locating.json {
        let [located, ..] = answers.json();
        json!({ "file": locating.file.to_string_lossy(), "locate": located }).to_string() + "\n"
    } else {
        answers.words()
    };
    say(io::stdout(), said.as_bytes())?;
    Ok(answers.status())
}

/// Compares two pictures.
fn equal(comparing: &Comparing) -> Result<u8, Failure> {
    let [a, b] = &comparing.pictures;
    let difference = comparing::difference(&picture(a)?, &picture(b)?);
    let said = if comparing.json {
        let differ = difference.as_ref().map(comparing::Difference::json);
        json!({ "a": a.name(), "b": b.name(), "equal": difference.is_none(), "differ": differ }).to_string() + "\n"
    } else {
        difference.as_ref().map_or("Equal.\n".to_string(), |differ| format!("Different: {}.\n", differ.words()))
    };
    say(io::stdout(), said.as_bytes())?;
    Ok(if difference.is_none() { DONE } else { NO })
}

/// The picture in a file, or that of a machine as it is drawn without options.
fn picture(compared: &Compared) -> Result<Picture, Failure> {
    match compared {
        Compared::File(file) => Ok(stored::read(file)?),
        Compared::Machine { machine, order, .. } => {
            let mut bar = Bar::new();
            let drawn = drawing::draw(machine, order, &mut |done, of| bar.at(done, of))?;
            drop(bar);
            say_notes(&drawn.notes);
            Ok(drawn.picture)
        }
    }
}
