//! What is told of generated files, compared with what they were built from.

use cgx_harness::generate::drawing::*;
use cgx_harness::generate::{self, Rng};
use cgx_harness::reference::*;

/// Offset, type, flags, cell, layer, first and count of the run.
type Told = (
    usize,
    u8,
    u8,
    Option<usize>,
    Option<usize>,
    Option<usize>,
    usize,
);

/// What views of the known records must tell, found by following the records.
fn expected(drawing: &Drawing) -> Vec<Told> {
    let (mut cell, mut layer) = (None, None);
    let mut run: Vec<usize> = Vec::new();
    let mut told = Vec::new();
    for (at, record) in drawing.offsets().into_iter().zip(&drawing.records) {
        match record.type_byte {
            STRUCT => (cell, layer) = (Some(at), None),
            LAYER => layer = Some(at),
            PROPERTY => run.push(at),
            UNKNOWN.. => continue,
            _ => {}
        }
        let its_run = if is_object(record.type_byte) {
            std::mem::take(&mut run)
        } else {
            Vec::new()
        };
        told.push((
            at,
            record.type_byte,
            record.flags,
            cell,
            layer,
            its_run.first().copied(),
            its_run.len(),
        ));
    }
    told
}

fn views(file: &[u8]) -> Vec<View> {
    let mut place = start(file).expect("a good beginning");
    let mut views = Vec::new();
    while let Step::Record(view, next) = step(file, place) {
        views.push(view);
        place = next;
    }
    assert_eq!(step(file, place), Step::Done);
    views
}

#[test]
fn views_tell_the_context() {
    let mut rng = Rng::new(53);
    for _ in 0..3_000 {
        let drawing = generate::valid(&mut rng);
        let told: Vec<Told> = views(&drawing.bytes())
            .iter()
            .map(|v| {
                let kind = v.kind as u8;
                (
                    v.offset,
                    kind,
                    v.flags,
                    v.cell,
                    v.layer,
                    v.run_first,
                    v.run_count,
                )
            })
            .collect();
        assert_eq!(told, expected(&drawing));
    }
}

/// The text at the end of a body, up to its first zero byte.
fn text_at(body: &[u8], at: usize) -> &[u8] {
    let field = &body[at..];
    let length = field.iter().position(|&byte| byte == 0).expect("a zero");
    &field[..length]
}

fn long_at(body: &[u8], at: usize) -> i32 {
    body[at..at + 4]
        .iter()
        .fold(0, |n, &byte| n << 8 | i32::from(byte))
}

fn real_at(body: &[u8], at: usize) -> Real {
    let eight: [u8; 8] = body[at..at + 8].try_into().expect("eight bytes");
    StoredReal::from_bytes(eight).answer()
}

#[test]
fn views_tell_the_fields() {
    let mut rng = Rng::new(59);
    for _ in 0..2_000 {
        let drawing = generate::valid(&mut rng);
        let file = drawing.bytes();
        let known = drawing.records.iter().filter(|r| !r.is_unknown());
        for (view, record) in views(&file).iter().zip(known) {
            tells(&file, view, &record.body);
        }
    }
}

fn tells(file: &[u8], view: &View, body: &[u8]) {
    let begins = view.offset + 4;
    let says = |text: Text, at: usize| {
        assert_eq!(text.offset, begins + at);
        assert_eq!(text.in_file(file), text_at(body, at));
    };
    let lists = |list: List, at: usize, each: usize| {
        assert_eq!(list.first, begins + at);
        assert_eq!(list.count * each, body.len() - at);
    };
    let dated = |date: Date, at: usize| {
        assert_eq!(date.to_bytes(), body[at..at + 8]);
    };
    match view.fields {
        Fields::Library {
            munit,
            uunit,
            created,
            modified,
            name,
        } => {
            assert_eq!((munit, uunit), (real_at(body, 0), real_at(body, 8)));
            dated(created, 16);
            dated(modified, 24);
            says(name, 32);
        }
        Fields::Struct {
            created,
            modified,
            name,
        } => {
            dated(created, 0);
            dated(modified, 8);
            says(name, 16);
        }
        Fields::Cprpty { number, string } | Fields::Property { number, string } => {
            assert_eq!(number, long_at(body, 0));
            says(string, 4);
        }
        Fields::Layer {
            number,
            data_type,
            name,
        } => {
            let both = i32::from(number.0) << 16 | i32::from(data_type.0) & 0xffff;
            assert_eq!(both, long_at(body, 0));
            assert_eq!(name.is_some(), body.len() > 4);
            if let Some(name) = name {
                says(name, 4);
            }
        }
        Fields::Box { boxes } => lists(boxes, 0, 16),
        Fields::Poly { points } => lists(points, 0, 8),
        Fields::Wire { width, points } => {
            assert_eq!(width, long_at(body, 0));
            lists(points, 4, 8);
        }
        Fields::Text { x, y, width, label } => {
            let numbers = [long_at(body, 0), long_at(body, 4), long_at(body, 8)];
            assert_eq!([x, y, width], numbers);
            says(label, 12);
        }
        Fields::Sref {
            x,
            y,
            angle,
            magnif,
            array,
            name,
        } => {
            assert_eq!((x, y), (long_at(body, 0), long_at(body, 4)));
            let mut at = 8;
            let mut real = |present: bool| {
                present.then(|| {
                    at += 8;
                    real_at(body, at - 8)
                })
            };
            assert_eq!(angle, real(view.flags & 1 != 0));
            assert_eq!(magnif, real(view.flags & 2 != 0));
            assert_eq!(array.is_some(), view.flags & 8 != 0);
            if let Some(array) = array {
                let [cols, rows, points @ ..]: [i32; 6] =
                    std::array::from_fn(|i| long_at(body, at + 4 * i));
                assert_eq!((array.cols, array.rows), (cols, rows));
                assert_eq!(array.points, points);
                at += 24;
            }
            says(name, at);
        }
        Fields::Endlib => assert!(body.is_empty()),
    }
}

/// Left, bottom, right and top of each cell, from the loose records.
fn expected_extents(drawing: &Drawing) -> Vec<Option<Rect>> {
    let mut extents: Vec<Vec<(i32, i32)>> = Vec::new();
    for record in &drawing.records {
        let points = match record.type_byte {
            STRUCT => {
                extents.push(Vec::new());
                continue;
            }
            BOX | POLY => 0..record.body.len() / 8,
            WIRE => 0..(record.body.len() - 4) / 8,
            _ => continue,
        };
        let first = record.body.len() % 8;
        let cell = extents.last_mut().expect("an open cell");
        cell.extend(points.map(|i| {
            let at = first + 8 * i;
            (long_at(&record.body, at), long_at(&record.body, at + 4))
        }));
    }
    extents
        .iter()
        .map(|points| {
            Some(Rect {
                left: points.iter().map(|p| p.0).min()?,
                bottom: points.iter().map(|p| p.1).min()?,
                right: points.iter().map(|p| p.0).max()?,
                top: points.iter().map(|p| p.1).max()?,
            })
        })
        .collect()
}

#[test]
fn extents_are_the_least() {
    let mut rng = Rng::new(61);
    for _ in 0..2_000 {
        let drawing = generate::valid(&mut rng);
        let file = drawing.bytes();
        let expected = expected_extents(&drawing);
        for (k, rect) in expected.iter().enumerate() {
            assert_eq!(extent(&file, k), Ok(*rect));
        }
        let no_cell = Err(Refusal {
            number: 16,
            at: None,
        });
        assert_eq!(extent(&file, expected.len()), no_cell);
        assert_eq!(extent(&file, usize::MAX), no_cell);
    }
}

/// The name of the good LAYER at an offset, told the long way round; none
/// where there is no good LAYER.
fn expected_name(file: &[u8], offset: usize) -> Option<&[u8]> {
    if offset < 4 || offset % 2 == 1 || offset + 8 > file.len() || file[offset + 2] != LAYER {
        return None;
    }
    let size = usize::from(file[offset]) * 256 + usize::from(file[offset + 1]);
    if size < 8 || size % 2 == 1 || offset + size > file.len() {
        return None;
    }
    let field = &file[offset + 8..offset + size];
    if field.is_empty() {
        return Some(field);
    }
    let text = field.iter().position(|&byte| byte == 0)?;
    let zeros = if text % 2 == 0 { 2 } else { 1 };
    let good = field[text..] == [0, 0][..zeros];
    good.then_some(&field[..text])
}

#[test]
fn layer_names_at_every_offset() {
    let mut rng = Rng::new(67);
    let mut shown_from_file = 0;
    for _ in 0..500 {
        let mut file = generate::valid(&mut rng).bytes();
        if rng.one_in(2) {
            file = generate::mutated(&mut rng, &file);
        }
        for offset in 0..file.len() + 4 {
            let shown = layer_name(&file, offset, b"substitute");
            let good = good_layer(&file, offset).is_ok();
            match expected_name(&file, offset) {
                None => {
                    assert!(!good);
                    assert_eq!(shown.source, Source::Substitute);
                    assert_eq!((shown.start, shown.length), (0, 0));
                }
                Some([]) => {
                    assert!(good);
                    assert_eq!(shown.source, Source::Substitute);
                    assert_eq!((shown.start, shown.length), (0, 10));
                }
                Some(name) => {
                    assert!(good);
                    assert_eq!(shown.source, Source::File);
                    assert_eq!((shown.start, shown.length), (offset + 8, name.len()));
                    shown_from_file += 1;
                }
            }
        }
    }
    assert!(shown_from_file > 200);
}

#[test]
fn layers_are_good_at_even_offsets_only() {
    let mut rng = Rng::new(73);
    for _ in 0..5_000 {
        let question = generate::layer_question(&mut rng);
        let good = good_layer(&question.bytes, question.offset).is_ok();
        assert_eq!(good, question.good, "{question:?}");
        assert_eq!(
            expected_name(&question.bytes, question.offset).is_some(),
            good
        );
    }
}

#[test]
fn lister_lines() {
    let mut rng = Rng::new(71);
    for _ in 0..500 {
        let drawing = generate::valid(&mut rng);
        let file = drawing.bytes();
        if file.len() > LARGEST_INPUT {
            assert_eq!(lister(&file), "too large\n");
            continue;
        }
        let names = [
            "LIBRARY", "STRUCT", "CPRPTY", "PROPERTY", "LAYER", "BOX", "POLY", "WIRE", "TEXT",
            "SREF", "ENDLIB",
        ];
        let mut lines: String = drawing
            .offsets()
            .iter()
            .zip(&drawing.records)
            .filter(|(_, record)| !record.is_unknown())
            .map(|(at, record)| format!("{at} {}\n", names[usize::from(record.type_byte)]))
            .collect();
        lines += "ok\n";
        assert_eq!(lister(&file), lines);
    }
}
