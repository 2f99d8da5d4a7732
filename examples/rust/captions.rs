//! Three captions on their way from the film to the screen, as examples/c/captions.c tells it, from Rust.
mod counterfrost;

use counterfrost::{Hurt, Kind, Line, Record, Refused, Tile};

/// A new tile of size 11: 10 rows of 10 bytes, of which 8 are text.
const SIZE: usize = 11;
const ROWS: usize = SIZE - 1;
const COLUMNS: usize = SIZE - 1;
const TEXT_COLUMNS: usize = SIZE - 3;
const TILE: usize = ROWS * COLUMNS;
const TEXT: usize = ROWS * TEXT_COLUMNS;

/// Room for four records, with headers of 14 bytes at most.
const REEL: usize = 4 * (14 + TILE);

const CAPTIONS: [&str; 3] = ["- Who let the boat go?", "- The ferryman, at noom.", "- Then who is that on the far shore?"];

/// Writes a caption to a tile. The rest of its text is spaces.
fn write_caption(slope: usize, caption: &str, tile: &mut [u8]) -> Result<(), Refused> {
    let mut text = [b' '; TEXT];
    text[..caption.len()].copy_from_slice(caption.as_bytes());
    counterfrost::write(Kind::New, SIZE, slope, &text, tile)
}

/// Prints the caption that a text holds, without the spaces behind it.
fn print_caption(text: &[u8]) {
    println!("{}", String::from_utf8_lossy(text).trim_end_matches(' '));
}

/// What a splice does to a row.
fn splice(tile: &mut [u8], row: usize) {
    tile[row * COLUMNS..][..COLUMNS].fill(0);
}

/// What a scratch does to a column.
fn scratch(tile: &mut [u8], column: usize) {
    for row in 0..ROWS {
        tile[row * COLUMNS + column] ^= 0x55 + row as u8;
    }
}

/// What a grain of dust does to a cell.
fn dust(tile: &mut [u8], row: usize, column: usize) {
    tile[row * COLUMNS + column] ^= 0x20;
}

/// Says what was hurt.
fn hurt_in_words(hurt: Option<Hurt>) -> String {
    match hurt {
        Some(Hurt::Line(Line::Column(column))) => format!("column {column}"),
        Some(Hurt::Line(Line::Row(row))) => format!("row {row}"),
        Some(Hurt::Cell { row, column }) => format!("cell {row} {column}"),
        None => "clean".to_string(),
    }
}

/// Fills the lines that the flags name, or repairs the tile where there is no flag, and says what came of it.
fn restore(found: &Tile, tile: &mut [u8]) -> Result<String, Refused> {
    match found.lost() {
        Some((first, second)) => {
            counterfrost::fill(found.kind, found.p, found.l, tile, first, second)?;
            Ok("filled".to_string())
        }
        None => counterfrost::repair(found.kind, found.p, found.l, tile).map(hurt_in_words),
    }
}

/// Restores a copy of a tile on the reel, says what came of it, and prints its caption.
fn show(found: &Tile, scan: &[u8]) -> Result<(), Refused> {
    let mut tile = scan.to_vec();
    match restore(found, &mut tile) {
        Ok(said) => {
            let mut text = vec![0; counterfrost::text_len(found.p)];
            counterfrost::read(found.kind, found.p, found.l, &tile, &mut text)?;
            println!("tile {}: {said}", found.number);
            print_caption(&text);
        }
        Err(no) => println!("tile {}: refused {}", found.number, no.number),
    }
    Ok(())
}

/// Judges a tile that was restored from a scan of which row 1 and column 5 were lost.
fn judge(slope: usize, scan: &[u8], restored: &[u8]) {
    match counterfrost::judge(SIZE, slope, scan, restored, Line::Row(1), Line::Column(5)) {
        Ok(()) => println!("judged: accepted"),
        Err(no) => println!("judged: refused {}", no.number),
    }
}

/// Puts the wrong letter of the second caption right, on its tile, which is scratched there.
fn correct_letter(slope: usize, tile: &mut [u8]) -> Result<(), Refused> {
    let letter = CAPTIONS[1].find("noom").unwrap() + 3;
    let (row, column) = (letter / TEXT_COLUMNS, letter % TEXT_COLUMNS);
    scratch(tile, column);
    let sheet = [0xC3, 0x3C, 0, row as u8, 0, column as u8, b'm', b'n'];
    let records = counterfrost::correct(Kind::New, SIZE, slope, tile, &sheet)?;
    println!("corrected: {records} letter");
    Ok(())
}

fn main() -> Result<(), Refused> {
    let slope = counterfrost::house_slope(SIZE)?;
    let mut tiles = [[0; TILE]; CAPTIONS.len()];
    for (caption, tile) in CAPTIONS.iter().zip(&mut tiles) {
        write_caption(slope, caption, tile)?;
    }
    println!("written: {} tiles, size {SIZE}, slope {slope}", tiles.len());

    let mut scans = tiles;
    dust(&mut scans[0], 1, 3);
    splice(&mut scans[1], 1);
    scratch(&mut scans[1], 5);
    splice(&mut scans[2], 2);

    let two_flags = Record::Flagged(Some(Line::Row(1)), Some(Line::Column(5)));
    let lone_flag = Record::Flagged(None, Some(Line::Row(2)));
    let mut reel = [0; REEL];
    let mut laid = 0;
    laid += counterfrost::lay(Record::New, SIZE, slope, 1, &scans[0], &mut reel[laid..])?;
    laid += counterfrost::lay(Record::New, SIZE, slope, 2, &scans[1], &mut reel[laid..])?;
    laid += counterfrost::lay(two_flags, SIZE, slope, 2, &scans[1], &mut reel[laid..])?;
    laid += counterfrost::lay(lone_flag, SIZE, slope, 3, &scans[2], &mut reel[laid..])?;
    println!("laid: 4 records, {laid} bytes");

    let reel = &reel[..laid];
    let mut at = 0;
    while let Some(found) = counterfrost::next(reel, at)? {
        at = found.offset + counterfrost::tile_len(found.p);
        show(&found, &reel[found.offset..at])?;
    }

    judge(slope, &scans[1], &tiles[1]);
    let mut by_hand = tiles[1];
    dust(&mut by_hand, 1, 2);
    judge(slope, &scans[1], &by_hand);

    // The lab's tile is not ours to change: it is only looked at.
    println!("inspected: {}", hurt_in_words(counterfrost::inspect(Kind::New, SIZE, slope, &by_hand)?));

    // Here the text is all that is wanted: one call repairs and reads, and leaves the tile with its scratch.
    correct_letter(slope, &mut tiles[1])?;
    let mut text = [0; TEXT];
    println!("recovered: {}", hurt_in_words(counterfrost::recover(Kind::New, SIZE, slope, &tiles[1], &mut text)?));
    print_caption(&text);
    Ok(())
}
