//! Generated files: accepted, refused as aimed at, and their normal forms.

use cgx_harness::generate::{self, Rng};
use cgx_harness::reference::*;

fn verdict(refusal: Option<(u8, usize)>) -> Verdict {
    match refusal {
        None => Verdict::Accepted,
        Some((number, at)) => Verdict::Refused { number, at },
    }
}

/// What a walk to the end of the file comes to, and the kinds it met.
fn walk(file: &[u8]) -> (Verdict, Vec<(usize, Kind)>) {
    let mut seen = Vec::new();
    let mut place = match start(file) {
        Ok(place) => place,
        Err(refusal) => return (Err(refusal).into(), seen),
    };
    loop {
        match step(file, place) {
            Step::Record(view, next) => {
                assert!(next.offset > view.offset && view.offset >= place.offset);
                seen.push((view.offset, view.kind));
                place = next;
            }
            Step::Done => return (Verdict::Accepted, seen),
            Step::Refused {
                number,
                at,
                place: old,
            } => {
                assert_eq!(old, place);
                return (Err(Refusal { number, at }).into(), seen);
            }
        }
    }
}

fn normal(file: &[u8]) -> Result<Vec<u8>, Refusal> {
    let mut out = vec![0xee; file.len() + 3];
    let length = normal_form(file, &mut out)?;
    assert!(out[length..].iter().all(|&byte| byte == 0xee));
    out.truncate(length);
    Ok(out)
}

/// What must hold of any bytes whatever.
fn holds_together(file: &[u8]) {
    let verdict = check(file);
    let (walked, seen) = walk(file);
    assert_eq!(verdict, walked);
    match verdict {
        Verdict::Accepted => {
            let form = normal(file).expect("accepted");
            assert_eq!(check(&form), Verdict::Accepted);
            assert_eq!(normal(&form).as_ref(), Ok(&form));
            assert_eq!(same_meaning(file, &form), Ok(true));
            let kinds =
                |seen: Vec<(usize, Kind)>| seen.into_iter().map(|s| s.1).collect::<Vec<_>>();
            assert_eq!(kinds(walk(&form).1), kinds(seen));
            exact_room(file, &form);
        }
        Verdict::Refused { number, at } => {
            let refusal = Refusal {
                number,
                at: Some(at),
            };
            assert!(at <= file.len() && (1..=13).contains(&number));
            assert_eq!(normal(file), Err(refusal));
            assert_eq!(same_meaning(file, file), Err(refusal));
            assert_eq!(extent(file, 0), Err(refusal));
        }
    }
}

/// The normal form fits its own length and refuses one byte less.
fn exact_room(file: &[u8], form: &[u8]) {
    let mut out = vec![0x11; form.len()];
    assert_eq!(normal_form(file, &mut out), Ok(form.len()));
    assert_eq!(out, form);
    let mut short = vec![0x11; form.len() - 1];
    let refusal = Refusal {
        number: 14,
        at: None,
    };
    assert_eq!(normal_form(file, &mut short), Err(refusal));
    assert!(short.iter().all(|&byte| byte == 0x11));
}

#[test]
fn showcase_is_accepted() {
    for (what, drawing) in generate::showcase() {
        let file = drawing.bytes();
        assert_eq!(check(&file), Verdict::Accepted, "{what}");
        holds_together(&file);
    }
}

#[test]
fn valid_files_are_accepted_and_seen_as_built() {
    let mut rng = Rng::new(7);
    for _ in 0..3_000 {
        let drawing = generate::valid(&mut rng);
        let file = drawing.bytes();
        assert_eq!(check(&file), Verdict::Accepted);
        holds_together(&file);
        let known: Vec<_> = drawing
            .offsets()
            .into_iter()
            .zip(&drawing.records)
            .filter_map(|(at, record)| Some((at, Kind::of(record.type_byte)?)))
            .collect();
        assert_eq!(walk(&file).1, known);
    }
}

#[test]
fn boundary_cases_are_judged_as_aimed_at() {
    let cases = generate::boundary_cases();
    for case in &cases {
        assert_eq!(check(&case.bytes), verdict(case.refusal), "{}", case.what);
        holds_together(&case.bytes);
    }
    for number in 1..=13 {
        let aimed = cases
            .iter()
            .any(|c| matches!(c.refusal, Some((n, _)) if n == number));
        assert!(aimed, "no case for {number}");
    }
}

#[test]
fn damage_is_refused_as_aimed_at() {
    let mut rng = Rng::new(11);
    for _ in 0..5_000 {
        let case = generate::damaged(&mut rng);
        assert_eq!(check(&case.bytes), verdict(case.refusal), "{}", case.what);
        holds_together(&case.bytes);
    }
}

#[test]
fn mutations_hold_together() {
    let mut rng = Rng::new(13);
    for _ in 0..5_000 {
        let file = generate::valid(&mut rng).bytes();
        holds_together(&generate::mutated(&mut rng, &file));
    }
}

/// A cut file is refused with 3 between records and with 4 inside one.
#[test]
fn truncations_are_refused() {
    let mut rng = Rng::new(17);
    for _ in 0..40 {
        let drawing = generate::valid(&mut rng);
        let file = drawing.bytes();
        let offsets = drawing.offsets();
        for cut in generate::truncations(&file) {
            let aimed = match cut.len() {
                0..4 => (1, 0),
                length if offsets.contains(&length) => (3, length),
                length => (
                    4,
                    *offsets
                        .iter()
                        .rfind(|&&at| at < length)
                        .expect("4 is below"),
                ),
            };
            assert_eq!(check(cut), verdict(Some(aimed)));
            holds_together(cut);
        }
    }
}

#[test]
fn same_meaning_iff_same_normal_form() {
    let mut rng = Rng::new(19);
    for _ in 0..3_000 {
        let drawing = generate::valid(&mut rng);
        let file = drawing.bytes();
        let form = normal(&file).expect("accepted");

        let same = generate::same_meaning_variant(&mut rng, &drawing).bytes();
        assert_eq!(same_meaning(&file, &same), Ok(true));
        assert_eq!(normal(&same).as_ref(), Ok(&form));

        let other = generate::different_meaning_variant(&mut rng, &drawing);
        let other = generate::same_meaning_variant(&mut rng, &other).bytes();
        assert_eq!(check(&other), Verdict::Accepted);
        assert_eq!(same_meaning(&file, &other), Ok(false));
        assert_ne!(normal(&other).as_ref(), Ok(&form));
    }
}

#[test]
fn forged_places_are_answered_16() {
    let mut rng = Rng::new(23);
    for _ in 0..20 {
        let file = generate::valid(&mut rng).bytes();
        for made_up in generate::forged_places(file.len()) {
            let forged = matches!(step(&file, made_up.place), Step::Refused { number: 16, at: None, place } if place == made_up.place);
            assert_eq!(
                forged, made_up.forged,
                "{}: {:?}",
                made_up.what, made_up.place
            );
        }
    }
    for length in 0..6 {
        let file = vec![0; length];
        for made_up in generate::forged_places(length) {
            let forged = matches!(step(&file, made_up.place), Step::Refused { number: 16, .. });
            assert_eq!(
                forged, made_up.forged,
                "{}: {:?}",
                made_up.what, made_up.place
            );
        }
    }
}

#[test]
fn passing_places_are_never_answered_16() {
    let mut rng = Rng::new(29);
    for _ in 0..5_000 {
        let drawing = generate::valid(&mut rng);
        let file = drawing.bytes();
        let place = generate::passing_place(&mut rng, file.len(), &drawing.offsets());
        match step(&file, place) {
            Step::Record(view, next) => {
                assert!(!next.is_forged(file.len()));
                assert!(view.run_count == 0 || view.run_first.is_some());
            }
            Step::Done => assert!(place.ended && place.offset == file.len()),
            Step::Refused { number, at, .. } => {
                assert!((3..=13).contains(&number));
                assert!(at.is_some());
            }
        }
    }
}

/// A made-up context is taken at its word.
#[test]
fn made_up_context_is_believed() {
    use cgx_harness::generate::drawing::*;
    let drawing = Drawing::of(vec![plain(BOX), plain(CPRPTY), plain(99), plain(SREF)]);
    let file = drawing.bytes();
    let bare = Place {
        library_seen: true,
        ..Place::START
    };
    let refused_6 = |place| {
        matches!(
            step(&file, place),
            Step::Refused {
                number: 6,
                at: Some(4),
                ..
            }
        )
    };
    assert!(refused_6(Place::START));
    assert!(refused_6(bare));
    assert!(refused_6(Place {
        cell: Some(0),
        ..bare
    }));

    // The choices of CHOICES.md: a layer, or the room after STRUCT, is not
    // enough without a cell.
    assert!(refused_6(Place {
        layer: Some(2),
        ..bare
    }));

    let with_layer = Place {
        cell: Some(0),
        layer: Some(2),
        run: Some(Run { first: 1, count: 3 }),
        ..bare
    };
    let Step::Record(view, next) = step(&file, with_layer) else {
        panic!("a cell and a layer are all a BOX needs");
    };
    assert_eq!((view.cell, view.layer), (Some(0), Some(2)));
    assert_eq!((view.run_first, view.run_count), (Some(1), 3));
    assert_eq!(next.run, None);

    let no_cell = Place {
        offset: drawing.offset_of(1),
        after_struct: true,
        ..bare
    };
    let zone = Place {
        cell: Some(3),
        ..no_cell
    };
    assert!(matches!(step(&file, zone), Step::Record(view, _) if view.kind == Kind::Cprpty));
    assert!(matches!(
        step(&file, no_cell),
        Step::Refused { number: 6, .. }
    ));
    let ended = Place {
        ended: true,
        ..bare
    };
    let ended_at_once = Place {
        ended: true,
        ..Place::START
    };
    for place in [ended, ended_at_once] {
        let answer = step(&file, place);
        assert!(matches!(
            answer,
            Step::Refused {
                number: 13,
                at: Some(4),
                ..
            }
        ));
    }
    let end = Place {
        offset: file.len(),
        ..ended
    };
    assert_eq!(step(&file, end), Step::Done);
}

/// The third choice of CHOICES.md: LIBRARY clears what a made-up place kept.
#[test]
fn library_clears_cell_and_layer() {
    use cgx_harness::generate::drawing::*;
    let file = Drawing::of(vec![plain(LIBRARY), plain(ENDLIB)]).bytes();
    let made_up = Place {
        cell: Some(0),
        layer: Some(4),
        ..Place::START
    };
    let Step::Record(view, next) = step(&file, made_up) else {
        panic!("LIBRARY is allowed here");
    };
    assert_eq!((view.cell, view.layer), (None, None));
    assert_eq!((next.cell, next.layer), (None, None));
}
