// SPDX-License-Identifier: Apache-2.0
//! The workshop's screen as a picture: the board of an image, drawn as SVG, 16 by 16 ECUs. An image
//! that is refused gives the line that `look` prints of it instead.
//!
//!     cargo run --example screen -- IMAGE > FILE
//!
//! A field has its ECU's number, how many locks cover it, and the number and colour of the subject
//! whose lock has the lowest id. It is hatched where the vehicle lock covers it. Locks on one ECU
//! have one subject, the vehicle lock's aside: so there are at most two, and the second has a
//! corner.

use std::{
    collections::BTreeSet,
    env,
    error::Error,
    fmt::{self, Write as _},
    fs,
};

use cablegorse::{Active, Coverage, LockId, OnEcu, Refusal, Replica, Scope};

fn main() -> Result<(), Box<dyn Error>> {
    let [image] = &env::args().skip(1).collect::<Vec<_>>()[..] else {
        return Err("usage: screen IMAGE".into());
    };
    print!("{}", shown(&fs::read(image)?));
    Ok(())
}

/// The picture of an image, or why it is refused.
fn shown(image: &[u8]) -> String {
    match Replica::from_image(image) {
        Ok(mut replica) => {
            replica.watch();
            Screen::of(&replica).to_string()
        }
        Err(refusal) => refused(&refusal),
    }
}

/// The line of `look`.
fn refused(refusal: &Refusal) -> String {
    let (number, name) = (refusal.number(), refusal.name());
    match refusal {
        Refusal::Torn { offset }
        | Refusal::BadKind { offset }
        | Refusal::BadField { offset }
        | Refusal::BadOrder { offset } => format!("refused {number} {name} at {offset}\n"),
        Refusal::UnsoundState { rule } => format!("refused {number} {name} rule {rule}\n"),
        _ => format!("refused {number} {name}\n"),
    }
}

/// What the screen shows of an ECU that is covered.
#[derive(Debug, PartialEq, Eq)]
struct Covered {
    locks: u8,
    lowest: LockId,
    /// Whose the lock with the lowest id is.
    subject: u16,
    /// Who else has a lock on it.
    other: Option<u16>,
    /// Whether the vehicle lock covers it.
    vehicle: bool,
}

struct Screen {
    revision: u64,
    expected: u32,
    locks: usize,
    /// By ECU.
    fields: Vec<Option<Covered>>,
}

impl Screen {
    /// The board of a replica that keeps one; its locks tell the subjects.
    fn of(replica: &Replica) -> Self {
        let held: Vec<Active> = replica.actives().collect();
        let field = |ecu| {
            let OnEcu { locks, lowest } = replica.on_ecu(ecu).expect("it is watched");
            let lowest = lowest?;
            let subject = replica.active_by_id(lowest)?.lock.subject;
            let here = held.iter().filter(|a| covers(a, ecu)).map(|a| a.lock);
            let vehicle = here.clone().any(|lock| lock.scope == Scope::Vehicle);
            Some(Covered {
                locks,
                lowest,
                subject,
                other: here.map(|lock| lock.subject).find(|s| *s != subject),
                vehicle,
            })
        };
        Self {
            revision: replica.revision(),
            expected: replica.expected(),
            locks: held.len(),
            fields: (0..=255).map(field).collect(),
        }
    }

    fn subjects(&self) -> BTreeSet<u16> {
        let covered = self.fields.iter().flatten();
        covered
            .flat_map(|field| [Some(field.subject), field.other])
            .flatten()
            .collect()
    }
}

fn covers(held: &Active, ecu: u8) -> bool {
    match held.lock.coverage {
        Coverage::Vehicle => true,
        Coverage::Set(set) => set.contains(ecu),
    }
}

/// A subject's colour, the same in every picture: hues far apart for neighbours, in three shades,
/// all light enough for dark text.
fn colour(subject: u16) -> String {
    // The golden angle, in hundredths of a degree.
    let hue = f64::from(u32::from(subject) * 13_751 % 36_000) / 100.0;
    let (saturation, lightness) =
        [(0.70, 0.74), (0.80, 0.85), (0.75, 0.66)][usize::from(subject % 3)];
    let spread = saturation * f64::min(lightness, 1.0 - lightness);
    let [r, g, b] = [0.0, 8.0, 4.0].map(|turn: f64| {
        let k = (turn + hue / 30.0) % 12.0;
        let part = lightness - spread * f64::min(k - 3.0, 9.0 - k).clamp(-1.0, 1.0);
        (part * 255.0).round() as u8
    });
    format!("#{r:02x}{g:02x}{b:02x}")
}

const WIDTH: usize = 800;
const HEIGHT: usize = 900;
/// Left edge, top of the fields, a field's size.
const LEFT: usize = 16;
const TOP: usize = 40;
const FIELD: (usize, usize) = (48, 43);
/// Top of the legend, its columns, a place's size.
const LEGEND: usize = 764;
const COLUMNS: usize = 8;
const PLACE: (usize, usize) = (96, 16);

const STYLE: &str = "text{font-family:sans-serif;font-size:11px;fill:#111}.none{fill:#777}.title{font-size:17px;font-weight:bold}.end{text-anchor:end}.ecu{font-weight:bold}.locks{font-size:9px;text-anchor:end}.subject{font-size:10px}.other{font-size:9px;text-anchor:end}";

impl fmt::Display for Screen {
    fn fmt(&self, f: &mut fmt::Formatter<'_>) -> fmt::Result {
        writeln!(
            f,
            r##"<svg xmlns="http://www.w3.org/2000/svg" width="{WIDTH}" height="{HEIGHT}" viewBox="0 0 {WIDTH} {HEIGHT}">
<style>{STYLE}</style>
<defs><pattern id="vehicle" width="7" height="7" patternUnits="userSpaceOnUse" patternTransform="rotate(45)"><path d="M0 0V7" stroke="#000" stroke-opacity="0.28" stroke-width="3"/></pattern></defs>
<rect width="{WIDTH}" height="{HEIGHT}" fill="#fff"/>"##
        )?;
        let covered = self.fields.iter().flatten().count();
        let right = LEFT + 16 * FIELD.0;
        writeln!(
            f,
            r#"<text class="title" x="{LEFT}" y="27">{covered} of 256 ECUs are covered</text>
<text class="end" x="{right}" y="27">{} active locks, revision {}, record {} is due</text>"#,
            self.locks, self.revision, self.expected
        )?;
        for (ecu, field) in self.fields.iter().enumerate() {
            f.write_str(&drawn(ecu, field.as_ref()))?;
        }
        self.legend(f)?;
        f.write_str("</svg>\n")
    }
}

/// What a field says under the pointer.
fn title(ecu: usize, field: &Covered) -> String {
    let (locks, lowest, subject) = (field.locks, field.lowest, field.subject);
    let other = field
        .other
        .map_or(String::new(), |other| format!(", also subject {other}"));
    let vehicle = if field.vehicle {
        ", the vehicle lock too"
    } else {
        ""
    };
    format!(
        "<title>ECU {ecu}: {locks} locks, the lowest {lowest} of subject {subject}{other}{vehicle}</title>"
    )
}

fn drawn(ecu: usize, field: Option<&Covered>) -> String {
    let (width, height) = FIELD;
    let (x, y) = (LEFT + ecu % 16 * width, TOP + ecu / 16 * height);
    let box_of = |fill: &str, stroke: &str| {
        format!(
            r#"<rect x="{x}" y="{y}" width="{width}" height="{height}" fill="{fill}"{stroke}/>"#
        )
    };
    let text = |class: &str, x: usize, down: usize, text: &dyn fmt::Display| {
        format!(
            r#"<text class="{class}" x="{x}" y="{}">{text}</text>"#,
            y + down
        )
    };
    let stroke = r##" stroke="#fff""##;
    let Some(field) = field else {
        return format!(
            "<g><title>ECU {ecu}: no lock</title>{}{}</g>\n",
            box_of("#f4f4f1", stroke),
            text("none", x + 4, 13, &ecu)
        );
    };
    let Covered {
        locks,
        subject,
        other,
        vehicle,
        ..
    } = field;
    let mut svg = format!(
        "<g>{}{}",
        title(ecu, field),
        box_of(&colour(*subject), stroke)
    );
    let (right, bottom) = (x + width, y + height);
    if let Some(other) = other {
        let corner = format!("M{right} {}V{bottom}H{}Z", y + 15, x + 10);
        let _ = write!(
            svg,
            r##"<path d="{corner}" fill="{}" stroke="#fff"/>"##,
            colour(*other)
        );
    }
    if *vehicle {
        svg.push_str(&box_of("url(#vehicle)", ""));
    }
    svg.push_str(&text("ecu", x + 4, 13, &ecu));
    svg.push_str(&text("locks", right - 3, 12, &format_args!("×{locks}")));
    svg.push_str(&text("subject", x + 4, 26, &format_args!("s{subject}")));
    if let Some(other) = other {
        svg.push_str(&text(
            "other",
            right - 3,
            height - 4,
            &format_args!("s{other}"),
        ));
    }
    svg + "</g>\n"
}

impl Screen {
    fn legend(&self, f: &mut fmt::Formatter<'_>) -> fmt::Result {
        let y = LEGEND - 18;
        writeln!(
            f,
            r#"<text x="{LEFT}" y="{y}">ECU, ×locks on it, subject of the lowest id. Hatched: the vehicle lock covers it. Corner: a second subject.</text>"#
        )?;
        for (place, subject) in self.subjects().into_iter().enumerate() {
            let (x, y) = (
                LEFT + place % COLUMNS * PLACE.0,
                LEGEND + place / COLUMNS * PLACE.1,
            );
            writeln!(
                f,
                r#"<rect class="key" x="{x}" y="{}" width="22" height="13" fill="{}"/><text x="{}" y="{y}">s{subject}</text>"#,
                y - 11,
                colour(subject),
                x + 28
            )?;
        }
        Ok(())
    }
}

#[cfg(test)]
mod tests {
    use super::*;
    use cablegorse::{Lock, Operation};

    const RICH: &[u8] = include_bytes!("../../crates/look/data/rich");

    fn count(svg: &str, part: &str) -> usize {
        svg.matches(part).count()
    }

    fn watched(image: &[u8]) -> Replica {
        let mut replica = Replica::from_image(image).expect("an image");
        replica.watch();
        replica
    }

    #[test]
    fn an_empty_board_is_pale() {
        let svg = shown(Replica::empty().image());
        assert_eq!(count(&svg, ": no lock</title>"), 256);
        assert_eq!(
            (count(&svg, "#f4f4f1"), count(&svg, "class=\"key\"")),
            (256, 0)
        );
        assert!(svg.starts_with("<svg ") && svg.ends_with("</svg>\n"));
    }

    /// A vehicle lock of subject 4 over everything, its child on four ECUs, and a lock of subject
    /// 65535 on three.
    #[test]
    fn two_subjects_on_a_field() {
        let screen = Screen::of(&watched(RICH));
        assert_eq!(screen.subjects(), BTreeSet::from([4, 65_535]));
        for (ecu, locks, other) in [(0, 2, Some(65_535)), (5, 2, None), (200, 1, None)] {
            let due = Covered {
                locks,
                lowest: "0a6f3c52-8d1e-4b77-9c40-5e21d7f0b3a1".parse().unwrap(),
                subject: 4,
                other,
                vehicle: true,
            };
            assert_eq!(screen.fields[ecu], Some(due));
        }
        let svg = screen.to_string();
        assert_eq!(count(&svg, "url(#vehicle)"), 256);
        // Three corners with the second subject's number, which the legend has too.
        assert_eq!((count(&svg, "Z\" fill"), count(&svg, ">s65535<")), (3, 4));
        assert_eq!(count(&svg, "class=\"key\""), 2);
        for (open, close) in [
            ("<g>", "</g>"),
            ("<text ", "</text>"),
            ("<title>", "</title>"),
        ] {
            assert_eq!(count(&svg, open), count(&svg, close));
        }
    }

    /// 64 subjects are told apart, and all fits.
    #[test]
    fn sixty_four_subjects() {
        let mut replica = Replica::empty();
        for n in 0..64 {
            let lock = Lock {
                id: LockId::from_u128(n + 1),
                scope: Scope::Ecu(n as u8),
                exclusive: false,
                coverage: Coverage::of(&[n as u8, n as u8 + 128]),
                subject: n as u16,
                principal: 0,
                metadata: 0,
            };
            let lock = Active {
                lock,
                expires: 100,
                parent: None,
            };
            replica.perform(&Operation::InsertActive { lock }).unwrap();
        }
        let screen = Screen::of(&watched(replica.image()));
        assert_eq!(screen.subjects().len(), 64);
        let colours: BTreeSet<String> = (0..64).map(colour).collect();
        assert_eq!(colours.len(), 64);
        let svg = screen.to_string();
        assert_eq!(count(&svg, "class=\"key\""), 64);
        for (at, _) in svg.match_indices(" y=\"") {
            let y: usize = svg[at + 4..].split('"').next().unwrap().parse().unwrap();
            assert!(y < HEIGHT, "{y}");
        }
    }

    /// What `look` prints of the same images.
    #[test]
    fn refused_images_are_told_as_look_tells_them() {
        let looked = include_str!("../../crates/look/stdout");
        for (name, image) in [
            (
                "damaged",
                &include_bytes!("../../crates/look/data/damaged")[..],
            ),
            ("unsound", include_bytes!("../../crates/look/data/unsound")),
        ] {
            let lines: Vec<&str> = looked.lines().collect();
            let at = lines.iter().position(|line| *line == format!("{name}:"));
            assert_eq!(shown(image), format!("{}\n", lines[at.unwrap() + 1]));
        }
    }
}
