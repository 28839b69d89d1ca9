//! Reads iCalendar text by RFC 5545, as a crew's phone would, and holds what was read to a sheet. Nothing here writes such
//! text, and dates are numbered by a formula.

use oracle::text::board_after;

/// Octets of a line, its CR LF not counted.
const LINE: usize = 75;

/// A property: its name in capitals, its parameters as they stand, and its value as it stands.
#[derive(Clone, PartialEq, Eq, Debug)]
pub struct Property {
    pub name: String,
    pub parameters: Vec<String>,
    pub value: String,
}

/// A component: its properties and the components in it, in order.
#[derive(Clone, Default, PartialEq, Eq, Debug)]
pub struct Component {
    pub name: String,
    pub properties: Vec<Property>,
    pub inside: Vec<Component>,
}

/// The lines of a text: CR LF after each, neither of them anywhere else, none too long.
fn lines(text: &[u8]) -> Result<Vec<String>, String> {
    let text = std::str::from_utf8(text).map_err(|_| "not in UTF-8".to_string())?;
    let Some(text) = text.strip_suffix("\r\n") else {
        return Err("the last line has no CR LF".to_string());
    };
    let mut lines = Vec::new();
    for line in text.split("\r\n") {
        if line.len() > LINE {
            return Err(format!("a line of {} octets", line.len()));
        }
        if line.contains(|c: char| c.is_ascii_control() && c != '\t') {
            return Err(format!("a control character in {line:?}"));
        }
        lines.push(line.to_string());
    }
    Ok(lines)
}

/// Long lines put together again: one that starts with a space or a tab goes on with the line before.
fn unfolded(lines: Vec<String>) -> Result<Vec<String>, String> {
    let mut whole: Vec<String> = Vec::new();
    for line in lines {
        match line.strip_prefix([' ', '\t']) {
            Some(rest) => whole.last_mut().ok_or("it starts folded")?.push_str(rest),
            None => whole.push(line),
        }
    }
    Ok(whole)
}

/// NAME *(";" PARAMETER) ":" VALUE, where a parameter's value may be quoted.
fn property(line: &str) -> Result<Property, String> {
    let (mut quoted, mut cuts, mut colon) = (false, Vec::new(), None);
    for (at, letter) in line.char_indices() {
        match letter {
            '"' => quoted = !quoted,
            ';' if !quoted => cuts.push(at),
            ':' if !quoted => {
                colon = Some(at);
                break;
            }
            _ => {}
        }
    }
    let colon = colon.ok_or(format!("no colon in {line:?}"))?;
    cuts.push(colon);
    let name = &line[..cuts[0]];
    let is_name = |name: &str| {
        let letter = |c: char| c.is_ascii_alphanumeric() || c == '-';
        !name.is_empty() && name.chars().all(letter)
    };
    let parameters: Vec<String> = cuts
        .windows(2)
        .map(|two| line[two[0] + 1..two[1]].to_string())
        .collect();
    let named = |parameter: &String| parameter.split_once('=').is_some_and(|(n, _)| is_name(n));
    if !is_name(name) || !parameters.iter().all(named) {
        return Err(format!("no property: {line:?}"));
    }
    Ok(Property {
        name: name.to_ascii_uppercase(),
        parameters,
        value: line[colon + 1..].to_string(),
    })
}

/// The one component that a text holds.
pub fn read(text: &[u8]) -> Result<Component, String> {
    let mut open: Vec<Component> = Vec::new();
    let mut whole = None;
    for line in unfolded(lines(text)?)? {
        let property = property(&line)?;
        if whole.is_some() {
            return Err(format!("{line:?} after the end"));
        }
        match property.name.as_str() {
            "BEGIN" => open.push(Component {
                name: property.value.to_ascii_uppercase(),
                ..Component::default()
            }),
            "END" => {
                let ended = open.pop().ok_or("END without BEGIN")?;
                if ended.name != property.value.to_ascii_uppercase() {
                    return Err(format!("{line:?} ends {}", ended.name));
                }
                match open.last_mut() {
                    Some(around) => around.inside.push(ended),
                    None => whole = Some(ended),
                }
            }
            _ => {
                let around = open.last_mut().ok_or("a property outside")?;
                if !around.inside.is_empty() {
                    return Err(format!("{line:?} after a component"));
                }
                around.properties.push(property);
            }
        }
    }
    whole.ok_or("it does not end".to_string())
}

/// A value of type TEXT: a comma, a semicolon and a backslash have a backslash before them.
fn text_value(value: &str) -> Result<String, String> {
    let mut text = String::new();
    let mut letters = value.chars();
    while let Some(letter) = letters.next() {
        let letter = match letter {
            '\\' => match letters.next() {
                Some('n' | 'N') => '\n',
                Some(other @ ('\\' | ';' | ',')) => other,
                _ => return Err(format!("a backslash in {value:?}")),
            },
            ',' | ';' => return Err(format!("{letter:?} in {value:?}")),
            other => other,
        };
        text.push(letter);
    }
    Ok(text)
}

/// The number of a day, 1970-01-01 being 0; none if it is no day of the Gregorian calendar.
pub fn day_number(year: i64, month: i64, day: i64) -> Option<i64> {
    // Years start in March here, so that a leap day is the last of its year.
    let number = |year: i64, month: i64| {
        let year = year - i64::from(month <= 2);
        let of_year = (153 * ((month + 9) % 12) + 2) / 5;
        365 * year + year.div_euclid(4) - year.div_euclid(100) + year.div_euclid(400) + of_year
            - 719_468
    };
    if !(1..=12).contains(&month) {
        return None;
    }
    let next = match month {
        12 => number(year + 1, 1),
        _ => number(year, month + 1),
    };
    let this = number(year, month);
    (1 <= day && day <= next - this).then_some(this + day - 1)
}

/// The year, month and day of a day's number.
pub fn day_of(number: i64) -> (i64, i64, i64) {
    let mut year = 1970 + number.div_euclid(366);
    while day_number(year + 1, 1, 1).is_some_and(|next| next <= number) {
        year += 1;
    }
    let first = |month: i64| day_number(year, month, 1).unwrap_or(i64::MAX);
    let month = (1..=12).rev().find(|&month| first(month) <= number);
    let month = month.unwrap_or(1);
    (year, month, number - first(month) + 1)
}

/// The minute of a date, hour and minute, 1970-01-01 00:00 being 0; none if they are none.
pub fn minute_number([year, month, day, hour, minute]: [i64; 5]) -> Option<i64> {
    let day = day_number(year, month, day)?;
    let of_day = (0..24).contains(&hour) && (0..60).contains(&minute);
    of_day.then_some((24 * day + hour) * 60 + minute)
}

/// A value of type DATE-TIME in the UTC form, with seconds 00: its minute.
fn date_time(value: &str) -> Result<i64, String> {
    let wrong = || format!("no minute in the UTC form: {value:?}");
    let form = |c: char| if c.is_ascii_digit() { '0' } else { c };
    if value.chars().map(form).collect::<String>() != "00000000T000000Z" {
        return Err(wrong());
    }
    let number = |from: usize, to: usize| value[from..to].parse::<i64>().map_err(|_| wrong());
    if number(13, 15)? != 0 {
        return Err(wrong());
    }
    let parts = [
        number(0, 4)?,
        number(4, 6)?,
        number(6, 8)?,
        number(9, 11)?,
        number(11, 13)?,
    ];
    minute_number(parts).ok_or_else(wrong)
}

/// An event of a calendar.
#[derive(Clone, PartialEq, Eq, Debug)]
pub struct Event {
    pub uid: String,
    pub stamp: i64,
    /// DTSTART as it stands, and its minute.
    pub start: (String, i64),
    pub summary: String,
}

/// The values of exactly these properties in this order, without parameters.
fn values<'a, const N: usize>(
    of: &'a Component,
    names: [&str; N],
) -> Result<[&'a Property; N], String> {
    let have: Vec<&str> = of.properties.iter().map(|one| one.name.as_str()).collect();
    if have != names {
        return Err(format!("{} has {have:?}", of.name));
    }
    if let Some(one) = of.properties.iter().find(|one| !one.parameters.is_empty()) {
        return Err(format!("{} has parameters", one.name));
    }
    let all: Vec<&Property> = of.properties.iter().collect();
    all.try_into().map_err(|_| "another count".to_string())
}

/// The events of a calendar as document 02 wants it.
pub fn events(text: &[u8]) -> Result<Vec<Event>, String> {
    let calendar = read(text)?;
    if calendar.name != "VCALENDAR" {
        return Err(format!("it is a {}", calendar.name));
    }
    let [version, product] = values(&calendar, ["VERSION", "PRODID"])?;
    if version.value != "2.0" || text_value(&product.value)? != "-//Ponds//Sheets//EN" {
        return Err("another VERSION or PRODID".to_string());
    }
    let mut events: Vec<Event> = Vec::new();
    for one in &calendar.inside {
        if one.name != "VEVENT" || !one.inside.is_empty() {
            return Err(format!("a {} in it", one.name));
        }
        let [uid, stamp, start, summary] = values(one, ["UID", "DTSTAMP", "DTSTART", "SUMMARY"])?;
        let uid = text_value(&uid.value)?;
        if events.iter().any(|event| event.uid == uid) {
            return Err(format!("UID {uid} twice"));
        }
        events.push(Event {
            uid,
            stamp: date_time(&stamp.value)?,
            start: (start.value.clone(), date_time(&start.value)?),
            summary: text_value(&summary.value)?,
        });
    }
    Ok(events)
}

/// What is wrong with a text as the calendar of a sheet, which is what `sheet` reads, and of an origin.
pub fn fault(sheet: &[u8], origin: [i64; 5], text: &[u8]) -> Option<String> {
    let events = match events(text) {
        Ok(events) => events,
        Err(why) => return Some(why),
    };
    let Ok(Ok((plan, board))) = board_after(sheet) else {
        return Some("a calendar of a refused plan".to_string());
    };
    let in_years = (1970..=2099).contains(&origin[0]);
    let Some(first) = minute_number(origin).filter(|_| in_years) else {
        return Some("a calendar from an origin that is no date".to_string());
    };
    if events.len() != plan.points() || board.count() as usize != plan.points() {
        return Some("not an event for each point, each done".to_string());
    }
    for (point, event) in events.iter().enumerate() {
        let (start, minute) = &event.start;
        if minute - first != board.minute(point) || event.stamp != *minute {
            return Some(format!("another minute of point {point}"));
        }
        let pond = plan.ponds[point];
        if event.uid != format!("{point}-{start}")
            || event.summary != format!("Point {point} {pond}")
        {
            return Some(format!("another UID or SUMMARY of point {point}"));
        }
    }
    let same = |a: &Event, b: &Event| (a.start.1 == b.start.1) == (a.start.0 == b.start.0);
    let told = events.iter().all(|a| events.iter().all(|b| same(a, b)));
    (!told).then(|| "two minutes that look the same".to_string())
}
