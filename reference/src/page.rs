//! The printed close on 36 columns.

use crate::book::{Book, Stage};
use crate::number::Number;

/// 02 "A1": the consumers of every page but the last, which has 1 to 50.
const ON_A_PAGE: usize = 50;

/// 02 "A1": the pages of a closed book, each with its heading line first; a book not closed meets 4.
pub fn page(book: &Book) -> Result<String, Number> {
    if book.stage != Stage::Closed {
        return Err(Number::Stage);
    }
    let consumers = lines(book);
    let mut text = String::new();
    for (number, on_this_page) in (1..).zip(consumers.chunks(ON_A_PAGE)) {
        text += &heading(number);
        text += &on_this_page.concat();
    }
    Ok(text)
}

/// 02 "A1": PAGE, a blank, the page number in 4 columns right-aligned, then blanks to column 36.
fn heading(number: u32) -> String {
    format!("{:<36}\n", format!("PAGE {number:>4}"))
}

/// 02 "A1": a line per declared consumer, ascending: consumer, firm demand, adjustment and cents, right-aligned.
fn lines(book: &Book) -> Vec<String> {
    let mut lines = Vec::new();
    for (place, consumer) in book.consumers.iter().enumerate() {
        if let Some(consumer) = consumer {
            let (adjustment, cents) = (book.settlement.adjustments[place], book.settlement.cents[place]);
            lines.push(format!("{:>3} {:>7} {:>8} {:>15}\n", place + 1, consumer.firm, adjustment, cents));
        }
    }
    lines
}
