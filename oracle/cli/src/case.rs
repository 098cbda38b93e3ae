//! The fields of a case.

/// The fields that are lists; every other is one number.
const LISTS: [&str; 7] = [
    "counts", "list", "seats", "stakes", "weights", "words", "words2",
];

/// The largest committee or number of bins that is run, for memory's sake.
const MOST_SEATS: u64 = 1 << 20;

/// Each field's name and its numbers.
pub struct Case<'a>(Vec<(&'a str, Vec<u64>)>);

impl<'a> Case<'a> {
    /// Reads fields that must have these names, in this order.
    pub fn parse(text: &'a str, names: &[&str]) -> Result<Self, String> {
        let fields = text.split(' ').map(parse_field);
        let case = Self(fields.collect::<Result<_, String>>()?);
        if !case.0.iter().map(|(name, _)| name).eq(names) {
            return Err(format!("the fields are not {}", names.join(" ")));
        }
        Ok(case)
    }

    /// A list; one that the case does not have is empty.
    pub fn list(&self, name: &str) -> &[u64] {
        let field = self.0.iter().find(|field| field.0 == name);
        field.map_or(&[], |field| &field.1)
    }

    pub fn number(&self, name: &str) -> u64 {
        self.list(name)[0]
    }

    pub fn index(&self, name: &str) -> usize {
        self.number(name) as usize
    }

    /// A number of seats or bins.
    pub fn seats(&self, name: &str) -> usize {
        let seats = self.number(name);
        assert!(seats <= MOST_SEATS, "not run: {name} above {MOST_SEATS}");
        seats as usize
    }
}

fn parse_field(field: &str) -> Result<(&str, Vec<u64>), String> {
    let (name, value) = field.split_once('=').ok_or(format!("no = in {field:?}"))?;
    let numbers: Result<Vec<u64>, _> = match LISTS.contains(&name) {
        true if value == "-" => Ok(Vec::new()),
        true => value.split(',').map(str::parse).collect(),
        false => value.parse().map(|number| vec![number]),
    };
    let numbers = numbers.map_err(|error| format!("{name}: {error}"))?;
    Ok((name, numbers))
}
