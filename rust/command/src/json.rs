//! The answers for programs: just as much JSON as they need.

use crate::body;
use crate::lamps::{Lamp, Side, Tied};
use crate::recording::{Group, Groups, Moment, Recording, Seen, Why};
use kerb::{LorryCell, Mounting, SlideTicks, UnitCell};
use std::fmt;

#[derive(Debug)]
pub enum Json {
    Null,
    Yes(bool),
    Number(u64),
    /// A text of the program's own: nothing in it needs an escape.
    Text(&'static str),
    List(Vec<Json>),
    Object(Fields),
}

type Fields = Vec<(&'static str, Json)>;

impl<N: Into<u64>> From<N> for Json {
    fn from(number: N) -> Json {
        Json::Number(number.into())
    }
}

impl Json {
    fn or_null(number: Option<impl Into<u64>>) -> Json {
        number.map_or(Json::Null, Json::from)
    }

    fn list(of: impl Iterator<Item = Json>) -> Json {
        Json::List(of.collect())
    }

    /// As a line of text.
    pub fn line(&self) -> String {
        format!("{self}\n")
    }
}

impl fmt::Display for Json {
    fn fmt(&self, f: &mut fmt::Formatter) -> fmt::Result {
        match self {
            Json::Null => write!(f, "null"),
            Json::Yes(yes) => write!(f, "{yes}"),
            Json::Number(number) => write!(f, "{number}"),
            Json::Text(text) => write!(f, "\"{text}\""),
            Json::List(items) => {
                let parts: Vec<String> = items.iter().map(Json::to_string).collect();
                write!(f, "[{}]", parts.join(","))
            }
            Json::Object(fields) => {
                let part = |(name, value): &(&str, Json)| format!("\"{name}\":{value}");
                let parts: Vec<String> = fields.iter().map(part).collect();
                write!(f, "{{{}}}", parts.join(","))
            }
        }
    }
}

pub fn list(recording: &Recording, groups: &Groups) -> String {
    let settings = recording.settings;
    let group = |group: &Group| {
        Json::Object(vec![
            (
                "first",
                Json::or_null(group.cells.first().map(|cell| cell.0)),
            ),
            ("size", Json::Number(group.cells.len() as u64)),
            ("hold", Json::from(group.hold)),
        ])
    };
    let answer = Json::Object(vec![
        ("n", Json::from(settings.n)),
        ("b", Json::from(settings.b)),
        ("mounting", Json::from(settings.mounting.number())),
        ("slide", Json::from(recording.now().slide)),
        ("groups", Json::list(groups.groups.iter().map(group))),
        ("links", Json::from(groups.links)),
    ]);
    answer.line()
}

pub fn why(
    recording: &Recording,
    (one, other): (LorryCell, LorryCell),
    why: Option<&Why>,
) -> String {
    let mut fields = vec![
        ("joined", Json::Yes(why.is_some())),
        ("one", Json::from(one.0)),
        ("other", Json::from(other.0)),
    ];
    fields.extend(moment(recording.now()));
    fields.extend(why.map(chain).unwrap_or_default());
    Json::Object(fields).line()
}

fn chain(why: &Why) -> Fields {
    let link = |link: &Seen| {
        let mut fields = vec![
            ("one", Json::from(link.one.0)),
            ("other", Json::from(link.other.0)),
        ];
        fields.extend(moment(link.last));
        Json::Object(fields)
    };
    let cells = why.chain.iter().map(|&cell| Json::Object(place(cell)));
    vec![
        ("chain", Json::list(cells)),
        ("links", Json::list(why.links.iter().map(link))),
        ("newest", ticks_of(why.newest, why.newest_ticks)),
        ("hold", Json::from(why.hold)),
        ("until", Json::or_null(why.until.map(|at| at.tick))),
        ("until_total", Json::or_null(why.until.map(|at| at.total))),
    ]
}

pub fn groups(recording: &Recording, groups: &Groups) -> String {
    let group = |group: &Group| {
        Json::Object(vec![
            ("cells", numbers(group.cells.iter().copied())),
            ("hold", Json::from(group.hold)),
            ("until", Json::from(group.until.tick)),
            ("until_total", Json::from(group.until.total)),
        ])
    };
    let mut fields = moment(recording.now());
    fields.push(("groups", Json::list(groups.groups.iter().map(group))));
    fields.push(("links", Json::from(groups.links)));
    Json::Object(fields).line()
}

pub fn lamps(recording: &Recording, body: &[u8], lamps: &[Lamp; 2]) -> String {
    let mut fields = moment(recording.now());
    fields.push(("body", numbers(body::cells(body))));
    for (side, lamp) in Side::BOTH.iter().zip(lamps) {
        fields.push((side.name(), state(lamp)));
    }
    Json::Object(fields).line()
}

fn state(lamp: &Lamp) -> Json {
    let mut fields = vec![("lit", Json::Yes(matches!(lamp, Lamp::Lit(_))))];
    match lamp {
        Lamp::Lit(cell) => fields.extend(place(*cell)),
        Lamp::Dark { bodywork, tied } => {
            let reason = match tied {
                Some(_) => "tied",
                None if bodywork.is_empty() => "unlinked",
                None => "bodywork",
            };
            fields.push(("reason", Json::Text(reason)));
            fields.push(("bodywork", numbers(bodywork.iter().copied())));
            fields.extend(tied.as_deref().map(keeps_dark).unwrap_or_default());
        }
    }
    Json::Object(fields)
}

fn keeps_dark(tied: &Tied) -> Fields {
    let mut fields = vec![("tied", numbers(tied.cells.iter().copied()))];
    fields.extend(chain(&tied.why));
    let lights = tied.lights.map_or(Json::Null, |(at, cell)| {
        Json::Object([moment(at), place(cell)].into_iter().flatten().collect())
    });
    fields.push(("lights", lights));
    fields
}

pub fn cell(number: u16, mountings: &[Mounting]) -> String {
    let as_fitted = |&mounting: &Mounting| {
        Json::Object(vec![
            ("mounting", Json::from(mounting.number())),
            (
                "lorry",
                Json::Object(place(UnitCell(number).to_lorry(mounting))),
            ),
            ("unit", Json::from(LorryCell(number).to_unit(mounting).0)),
        ])
    };
    let mut fields = place(LorryCell(number));
    fields.push(("mountings", Json::list(mountings.iter().map(as_fitted))));
    Json::Object(fields).line()
}

pub fn mirror_table(cells: &[(UnitCell, LorryCell)]) -> String {
    let pair = |&(unit, lorry): &(UnitCell, LorryCell)| {
        let of_unit = numbered(unit.0, unit.ring(), unit.sector());
        Json::Object(vec![
            ("unit", Json::Object(of_unit)),
            ("lorry", Json::Object(place(lorry))),
        ])
    };
    let fields = vec![
        ("mounting", Json::from(Mounting::Mirrored.number())),
        ("cells", Json::list(cells.iter().map(pair))),
    ];
    Json::Object(fields).line()
}

fn numbers(cells: impl Iterator<Item = LorryCell>) -> Json {
    Json::list(cells.map(|cell| Json::from(cell.0)))
}

fn place(cell: LorryCell) -> Fields {
    numbered(cell.0, cell.ring(), cell.sector())
}

fn numbered(cell: u16, ring: u16, sector: u16) -> Fields {
    vec![
        ("cell", Json::from(cell)),
        ("ring", Json::from(ring)),
        ("sector", Json::from(sector)),
    ]
}

fn moment(at: Moment) -> Fields {
    vec![
        ("tick", Json::from(at.tick)),
        ("total", Json::from(at.total)),
        ("slide", Json::from(at.slide)),
    ]
}

fn ticks_of(slide: u64, ticks: SlideTicks) -> Json {
    Json::Object(vec![
        ("slide", Json::from(slide)),
        ("first", Json::from(ticks.first)),
        ("last", Json::from(ticks.last)),
        ("first_total", Json::from(ticks.first_total)),
        ("last_total", Json::from(ticks.last_total)),
    ])
}
