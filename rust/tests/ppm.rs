//! PPM files: each refusal and their order, files cut and damaged at every byte, and that a file gives the table of its
//! bare triples.
use seluvava::{Grid, Refused, Table, ppm};

mod common;

fn grid() -> Grid {
    Grid::new(4, 2, 8).unwrap()
}

/// A table with some colours in it.
fn table() -> Table {
    let mut table = Table::new(grid());
    table.load(&common::pixels(5)).unwrap();
    table
}

/// A table in which so many colours have room.
fn room(colours: u32) -> Table {
    let mut table = Table::new(grid());
    table
        .load_weighted(&[[9, 9, 9]], &[u32::MAX - colours])
        .unwrap();
    table
}

/// A table whose first bin has squares and no colour.
fn unsound() -> Table {
    let mut numbers = vec![0; grid().numbers()];
    numbers[4] = 1;
    Table::from_numbers(grid(), numbers).unwrap()
}

/// A header with so many pixels behind it.
fn file(header: &[u8], pixels: usize) -> Vec<u8> {
    [header, common::pixels(pixels).as_flattened()].concat()
}

/// Holds the load of a file to its refusal, and the table to what it was.
fn refuses(refused: Refused, table: &Table, file: &[u8]) {
    let mut later = table.clone();
    assert_eq!(
        later.load_ppm(file),
        Err(refused),
        "{}",
        file.escape_ascii()
    );
    assert_eq!(&later, table);
}

/// Holds a header, with no byte behind it, to its refusal, and so the loads of files with it.
fn malformed(refused: Refused, header: &[u8]) {
    assert_eq!(
        ppm::header(header),
        Err(refused),
        "{}",
        header.escape_ascii()
    );
    for table in [table(), unsound(), room(0)] {
        refuses(refused, &table, header);
        refuses(refused, &table, &file(header, 6));
    }
}

/// A size of a header that is whole, and where its pixels start.
fn tells(header: &[u8], width: usize, height: usize) {
    let told = ppm::header(header).expect("a header");
    assert_eq!(
        (told.width(), told.height(), told.pixels()),
        (width, height, header.len()),
        "{}",
        header.escape_ascii()
    );
    // What follows is not looked at, be it a digit, whitespace or a comment.
    for next in *b"0 \n#P" {
        assert_eq!(ppm::header(&[header, &[next]].concat()), Ok(told));
    }
}

#[test]
fn headers() {
    for header in [
        b"P6 3 2 255 ".as_slice(),
        b"P6\n3 2\n255\n",
        b"P6\r\n3\t2\r255\t",
        b"P6\r3 \t\r\n 2\n\n255\r",
        b"P6 003 00000000000000000000000000000000002 0255\n",
        b"P6#\n 3 2 255\n",
        b"P6 #\n3 2 255\n",
        b"P6 # 9 9 255 \n3# a comment\n 2 # of # two\r255\n",
        b"P6 #1\n#2\r#3\r\n3 2 # P6 \n255 ",
        b"P6# ends at CR\r\n3 2 255\n",
        b"P6 #\x00\xff\n3 2 255\n",
    ] {
        tells(header, 3, 2);
    }
    for side in [1, 9, 10, 65_534, 65_535] {
        tells(format!("P6\n{side} 1\n255\n").as_bytes(), side, 1);
        tells(format!("P6\n7 {side}\n255\n").as_bytes(), 7, side);
    }
}

#[test]
fn malformed_headers() {
    for header in [
        b"".as_slice(),
        b"P",
        b"P6",
        b"P6 ",
        b"P6 3",
        b"P6 3 2 ",
        b"P6 3 2 255",
        b"p6 3 2 255\n",
        b" P6 3 2 255\n",
        b"P5 3 2 255\n",
        b"P3 3 2 255\n",
        b"P63 2 255\n",
        b"P6-3 2 255\n",
        b"P6 +3 2 255\n",
        b"P6 3,2 255\n",
        b"P6 3. 2 255\n",
        b"P6 0x3 2 255\n",
        b"P6\x0b3 2 255\n",
        b"P6\x0c3 2 255\n",
        b"P6\x003 2 255\n",
        b"P6\xa03 2 255\n",
        // A gap of comments alone, which can be read in two ways.
        b"P6# a comment\n3 2 255\n",
        b"P6 3# a comment\n2 255\n",
        b"P6 3 2# a comment\r255\n",
        // A comment without its end, or after the maximum.
        b"P6 # 3 2 255 ",
        b"P6 3 2 255#\n",
        b"P6 3 2 255# a comment\n\n",
        b"P6 3 2 2#\n55\n",
        // Sides that are none.
        b"P6 0 2 255\n",
        b"P6 3 0 255\n",
        b"P6 3 65536 255\n",
        b"P6 65536 2 255\n",
        b"P6 4294967299 2 255\n",
        b"P6 18446744073709551619 2 255\n",
        b"P6 3 340282366920938463463374607431768211458 255\n",
    ] {
        malformed(Refused::PpmHeader, header);
    }
}

#[test]
fn maxima() {
    let large = "1".repeat(100);
    for maximum in [
        "0",
        "1",
        "254",
        "256",
        "511",
        "2550",
        "65535",
        "65536",
        "65791",
        "4294967551",
        "18446744073709551871",
        &large,
    ] {
        malformed(
            Refused::PpmMaximum,
            format!("P6 3 2 {maximum}\n").as_bytes(),
        );
        // It is looked at where the whole header is well formed.
        for header in [
            format!("P6 0 2 {maximum}\n"),
            format!("P6 3 65536 {maximum}\n"),
            format!("P6 3 2 {maximum}"),
            format!("P6 3 2 {maximum}#"),
        ] {
            malformed(Refused::PpmHeader, header.as_bytes());
        }
    }
}

#[test]
fn lengths() {
    for (header, right) in [
        ("P6 3 2 255\n", 18),
        ("P6 1 1 255\n", 3),
        ("P6 5 7 255\n", 105),
    ] {
        for bytes in 0..200 {
            let file = [header.as_bytes(), &vec![7; bytes]].concat();
            let told = ppm::header(&file).unwrap();
            if bytes == right {
                table().load_ppm(&file).unwrap();
                assert_eq!(told.pixel_bytes(&file), Ok([7].repeat(right).as_slice()));
            } else {
                refuses(Refused::PpmLength, &table(), &file);
                assert_eq!(told.pixel_bytes(&file), Err(Refused::PpmLength));
            }
        }
    }
    // Sizes whose products are those of a small image in 32 and in 16 bits.
    for header in [
        "P6 65535 65535 255\n",
        "P6 32768 2 255\n",
        "P6 65535 1 255\n",
    ] {
        for pixels in 0..4 {
            refuses(
                Refused::PpmLength,
                &table(),
                &file(header.as_bytes(), pixels),
            );
        }
    }
    // Two images in one file.
    let one = file(b"P6 3 2 255\n", 6);
    refuses(Refused::PpmLength, &table(), &[one.clone(), one].concat());
}

#[test]
fn order() {
    let good = file(b"P6 3 2 255\n", 6);
    let long = file(b"P6 3 2 255\n", 7);
    refuses(Refused::Unsound, &unsound(), &good);
    refuses(Refused::Total, &room(5), &good);
    room(6).load_ppm(&good).unwrap();
    for table in [unsound(), room(5)] {
        refuses(Refused::PpmLength, &table, &long);
        refuses(Refused::PpmMaximum, &table, &file(b"P6 3 2 254\n", 7));
        refuses(Refused::PpmHeader, &table, &file(b"P6 3 0 254\n", 7));
    }
}

/// Every beginning of a file is refused: of a header as malformed, and from there on for its length.
#[test]
fn cut_at_every_byte() {
    let header = b"P6 # 16 16\r\n003 #\n\t2\n# of 255\n 255\n";
    let whole = file(header, 6);
    for end in 0..whole.len() {
        let cut = &whole[..end];
        if end < header.len() {
            malformed(Refused::PpmHeader, cut);
        } else {
            assert_eq!(ppm::header(cut), ppm::header(&whole));
            refuses(Refused::PpmLength, &table(), cut);
        }
    }
    table().load_ppm(&whole).unwrap();
}

/// Every byte of a header in turn is each other byte. Whatever that makes of it, a refused file changes nothing, and an
/// accepted one loads the pixels that its header tells.
#[test]
fn damaged_at_every_byte() {
    let header = b"P6 # 16 16\r\n3 #\n\t2\n# of 255\n255\n";
    let (mut accepted, mut refused) = (0, [0; 3]);
    for place in 0..header.len() {
        for byte in 0..=u8::MAX {
            let mut damaged = file(header, 6);
            damaged[place] = byte;
            let (before, mut later) = (table(), table());
            match later.load_ppm(&damaged) {
                Ok(()) => {
                    let told = ppm::header(&damaged).unwrap();
                    let mut bare = before.clone();
                    bare.load_bytes(&damaged[told.pixels()..]).unwrap();
                    assert_eq!((later, told.width() * told.height()), (bare, 6));
                    accepted += 1;
                }
                Err(number) => {
                    assert_eq!(later, before);
                    refused[usize::from(number.number()) - 10] += 1;
                }
            }
        }
    }
    assert!(accepted > 0 && refused.iter().all(|&files| files > 0));
}

/// A file gives the table of its bare triples, into whatever table it is loaded.
#[test]
fn as_its_bare_triples() {
    for sizes in [[16, 32, 16], [2, 2, 2], [128, 2, 64], [4, 64, 8]] {
        let [b1, b2, b3] = sizes;
        let grid = Grid::new(b1, b2, b3).unwrap();
        let mut files = Table::new(grid);
        let mut triples = Table::new(grid);
        for (width, height) in [(1, 1), (1, 7), (33, 4), (2, 500), (65_535, 1)] {
            let pixels = common::pixels(width * height);
            let file = file(
                format!("P6 # a frame\n{width} {height}\n255\n").as_bytes(),
                width * height,
            );
            files.load_ppm(&file).unwrap();
            triples.load(&pixels).unwrap();
            assert_eq!(files, triples);
            let told = ppm::header(&file).unwrap();
            assert_eq!(told.pixel_bytes(&file), Ok(pixels.as_flattened()));
        }
    }
}

/// The pixels of a file begin after one whitespace, whatever they look like.
#[test]
fn pixels_that_look_like_a_header() {
    for pixels in [*b"   ", *b"\n\n\n", *b"# 1", *b"255", *b"P6 "] {
        let file = [b"P6 1 1 255\n".as_slice(), &pixels].concat();
        let mut loaded = Table::new(grid());
        loaded.load_ppm(&file).unwrap();
        let mut bare = Table::new(grid());
        bare.load(&[pixels]).unwrap();
        assert_eq!(loaded, bare);
    }
}
