//! Frames mapped and painted in bands, and as bytes, come out as whole ones do; nothing outside a band is written.
use seluvava::{ColourMap, Grid, Refused, Table};
use std::ops::Range;

mod common;

const PIXELS: usize = 1_000;
const BANDS: [Range<usize>; 5] = [600..1_000, 0..1, 1..1, 1..599, 599..600];

fn frame_and_map() -> Result<(Vec<[u8; 3]>, ColourMap), Refused> {
    let frame = common::pixels(PIXELS);
    let mut table = Table::new(Grid::rgb());
    table.load(&frame)?;
    Ok((frame, table.cut(50)?.into_colour_map()))
}

#[test]
fn map() -> Result<(), Refused> {
    let (frame, map) = frame_and_map()?;
    let whole = map.map(&frame)?;
    let mut typed = vec![255; PIXELS];
    let mut bytes = typed.clone();
    for band in BANDS {
        let mut expected = typed.clone();
        expected[band.clone()].copy_from_slice(&whole[band.clone()]);
        map.map_band(&frame, &mut typed, band.clone())?;
        assert_eq!(typed, expected);
        map.map_bytes(frame.as_flattened(), &mut bytes, band)?;
        assert_eq!(bytes, expected);
    }
    assert_eq!(typed, whole);
    Ok(())
}

#[test]
fn paint() -> Result<(), Refused> {
    let (frame, map) = frame_and_map()?;
    let indices = map.map(&frame)?;
    let painted: Vec<[u8; 3]> = indices
        .iter()
        .map(|&i| map.palette()[usize::from(i)])
        .collect();
    assert_ne!(painted, frame);
    let mut whole = frame.clone();
    map.paint(&mut whole)?;
    assert_eq!(whole, painted);

    let mut typed = frame.clone();
    let mut bytes = frame.clone();
    for band in BANDS {
        let mut expected = typed.clone();
        expected[band.clone()].copy_from_slice(&painted[band.clone()]);
        map.paint_band(&mut typed, band.clone())?;
        assert_eq!(typed, expected);
        map.paint_bytes(bytes.as_flattened_mut(), band)?;
        assert_eq!(bytes, expected);
    }
    assert_eq!(typed, painted);
    assert_eq!(map.palette(), map.clone().into_palette());
    Ok(())
}

#[test]
fn what_is_only_read_may_overlap() -> Result<(), Refused> {
    let (_, map) = frame_and_map()?;
    let pixels = map.entries().len() / 3;
    let frame = &map.entries()[..3 * pixels];
    let apart = frame.to_vec();
    let (mut indices, mut expected) = (vec![255; pixels], vec![255; pixels]);
    map.map_bytes(frame, &mut indices, 0..pixels)?;
    map.map_bytes(&apart, &mut expected, 0..pixels)?;
    assert_eq!(indices, expected);
    Ok(())
}
