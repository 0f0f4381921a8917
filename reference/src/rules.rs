//! Quorum rules: which sets of replicas end a wait, and which keep a figure.

/// A set of replicas; bit k stands for replica k.
pub type ReplicaSet = u32;

/// No rule has more replicas.
pub const MOST_REPLICAS: u32 = 24;

/// Why a rule or a draft is not made.
#[derive(Clone, Copy, Debug, PartialEq, Eq)]
pub enum Refusal {
    OutOfLimits,
    TooManyFaults,
}

fn first_replicas(size: u32) -> ReplicaSet {
    (1 << size) - 1
}

/// The size of a product of two sizes, if it is within the limits.
fn product(left: u32, right: u32) -> Result<u32, Refusal> {
    match left.checked_mul(right) {
        Some(size) if (1..=MOST_REPLICAS).contains(&size) => Ok(size),
        _ => Err(Refusal::OutOfLimits),
    }
}

/// Any so many of the replicas.
#[derive(Clone, Copy, Debug, PartialEq, Eq)]
pub struct Count {
    size: u32,
    faults: u32,
}

impl Count {
    pub fn new(size: u32, faults: u32) -> Result<Self, Refusal> {
        if !(1..=MOST_REPLICAS).contains(&size) {
            return Err(Refusal::OutOfLimits);
        }
        if faults >= size.div_ceil(2) {
            return Err(Refusal::TooManyFaults);
        }
        Ok(Count { size, faults })
    }

    fn members(&self, set: ReplicaSet) -> u32 {
        (set & first_replicas(self.size)).count_ones()
    }

    fn is_round(&self, set: ReplicaSet) -> bool {
        self.members(set) >= self.size - self.faults
    }

    fn is_hold(&self, set: ReplicaSet) -> bool {
        self.members(set) > self.faults
    }
}

/// Replicas in rows and columns.
#[derive(Clone, Copy, Debug, PartialEq, Eq)]
pub struct Grid {
    rows: u32,
    columns: u32,
}

impl Grid {
    pub fn new(rows: u32, columns: u32) -> Result<Self, Refusal> {
        product(rows, columns)?;
        Ok(Grid { rows, columns })
    }

    /// Each row's part of a set, as a set of columns.
    fn rows_of(&self, set: ReplicaSet) -> impl Iterator<Item = u32> {
        let (rows, columns) = (self.rows, self.columns);
        (0..rows).map(move |row| (set >> (row * columns)) & first_replicas(columns))
    }

    fn full_columns(&self, set: ReplicaSet) -> u32 {
        self.rows_of(set).fold(u32::MAX, |full, row| full & row)
    }

    fn touched_columns(&self, set: ReplicaSet) -> u32 {
        self.rows_of(set).fold(0, |touched, row| touched | row)
    }

    fn is_round(&self, set: ReplicaSet) -> bool {
        self.is_hold(set) && self.touched_columns(set) == first_replicas(self.columns)
    }

    fn is_hold(&self, set: ReplicaSet) -> bool {
        self.full_columns(set) != 0
    }
}

/// A count one of whose replicas takes part in every round.
#[derive(Clone, Copy, Debug, PartialEq, Eq)]
pub struct Lead {
    lead: u32,
    below: Count,
}

impl Lead {
    pub fn new(lead: u32, below: Count) -> Result<Self, Refusal> {
        if lead >= below.size {
            return Err(Refusal::OutOfLimits);
        }
        Ok(Lead { lead, below })
    }

    fn has_lead(&self, set: ReplicaSet) -> bool {
        set & (1 << self.lead) != 0
    }

    fn is_round(&self, set: ReplicaSet) -> bool {
        self.has_lead(set) && self.below.is_round(set)
    }

    fn is_hold(&self, set: ReplicaSet) -> bool {
        self.has_lead(set) || self.below.is_hold(set)
    }
}

/// A count of groups, over a count of the places in each.
#[derive(Clone, Copy, Debug, PartialEq, Eq)]
pub struct Groups {
    outer: Count,
    inner: Count,
}

impl Groups {
    pub fn new(outer: Count, inner: Count) -> Result<Self, Refusal> {
        product(outer.size, inner.size)?;
        Ok(Groups { outer, inner })
    }

    /// The groups whose part of the set satisfies the test.
    fn groups_where(&self, set: ReplicaSet, test: impl Fn(&Count, ReplicaSet) -> bool) -> u32 {
        (0..self.outer.size)
            .filter(|group| test(&self.inner, set >> (group * self.inner.size)))
            .fold(0, |groups, group| groups | 1 << group)
    }

    fn is_round(&self, set: ReplicaSet) -> bool {
        self.outer.is_round(self.groups_where(set, Count::is_round))
    }

    fn is_hold(&self, set: ReplicaSet) -> bool {
        self.outer.is_hold(self.groups_where(set, Count::is_hold))
    }
}

/// The rules that a script can name.
#[derive(Clone, Copy, Debug, PartialEq, Eq)]
pub enum Rule {
    Count(Count),
    Grid(Grid),
    Lead(Lead),
    Groups(Groups),
}

impl Rule {
    pub fn size(&self) -> u32 {
        match self {
            Rule::Count(count) => count.size,
            Rule::Grid(grid) => grid.rows * grid.columns,
            Rule::Lead(lead) => lead.below.size,
            Rule::Groups(groups) => groups.outer.size * groups.inner.size,
        }
    }

    /// Whether the replies of this set end a wait.
    pub fn is_round(&self, set: ReplicaSet) -> bool {
        match self {
            Rule::Count(count) => count.is_round(set),
            Rule::Grid(grid) => grid.is_round(set),
            Rule::Lead(lead) => lead.is_round(set),
            Rule::Groups(groups) => groups.is_round(set),
        }
    }

    /// Whether a figure that this set has counts as kept.
    pub fn is_hold(&self, set: ReplicaSet) -> bool {
        match self {
            Rule::Count(count) => count.is_hold(set),
            Rule::Grid(grid) => grid.is_hold(set),
            Rule::Lead(lead) => lead.is_hold(set),
            Rule::Groups(groups) => groups.is_hold(set),
        }
    }
}

#[cfg(test)]
mod tests {
    use super::*;

    fn set(members: &[u32]) -> ReplicaSet {
        members.iter().fold(0, |set, member| set | 1 << member)
    }

    /// (round, hold)
    fn verdict(rule: Rule, members: &[u32]) -> (bool, bool) {
        (rule.is_round(set(members)), rule.is_hold(set(members)))
    }

    fn count(size: u32, faults: u32) -> Count {
        Count::new(size, faults).unwrap()
    }

    #[test]
    fn grid_of_two_rows_and_three_columns() {
        let rule = Rule::Grid(Grid::new(2, 3).unwrap());
        assert_eq!(rule.size(), 6);
        assert_eq!(verdict(rule, &[0, 1, 2, 3]), (true, true));
        assert_eq!(verdict(rule, &[0, 3]), (false, true));
        assert_eq!(verdict(rule, &[0, 1, 2]), (false, false));
    }

    #[test]
    fn lead_over_three_replicas() {
        let rule = Rule::Lead(Lead::new(0, count(3, 1)).unwrap());
        assert_eq!(rule.size(), 3);
        assert_eq!(verdict(rule, &[0]), (false, true));
        assert_eq!(verdict(rule, &[1, 2]), (false, true));
        assert_eq!(verdict(rule, &[0, 1]), (true, true));
        assert_eq!(verdict(rule, &[2]), (false, false));
    }

    #[test]
    fn three_groups_of_two() {
        let rule = Rule::Groups(Groups::new(count(3, 1), count(2, 0)).unwrap());
        assert_eq!(rule.size(), 6);
        assert_eq!(verdict(rule, &[0, 1, 2, 3]), (true, true));
        assert_eq!(verdict(rule, &[0, 2, 4]), (false, true));
        assert_eq!(verdict(rule, &[0, 1]), (false, false));
    }

    #[test]
    fn refusals_in_their_order() {
        assert_eq!(Count::new(4, 2), Err(Refusal::TooManyFaults));
        assert_eq!(Count::new(0, 0), Err(Refusal::OutOfLimits));
        assert_eq!(Count::new(25, 999_999), Err(Refusal::OutOfLimits));
        assert_eq!(Count::new(1, 999_999), Err(Refusal::TooManyFaults));
        assert!(Count::new(24, 11).is_ok() && Count::new(24, 12).is_err());
        assert!(Count::new(23, 11).is_ok() && Count::new(23, 12).is_err());
        assert!(Grid::new(1, 24).is_ok() && Grid::new(24, 1).is_ok());
        for (rows, columns) in [(0, 3), (3, 0), (5, 5), (999_999, 999_999)] {
            assert_eq!(Grid::new(rows, columns), Err(Refusal::OutOfLimits));
        }
        assert_eq!(Lead::new(3, count(3, 1)), Err(Refusal::OutOfLimits));
        let wide = Groups::new(count(5, 2), count(5, 2));
        assert_eq!(wide, Err(Refusal::OutOfLimits));
    }

    /// The laws of every rule that can be made, for every set of up to ten replicas.
    #[test]
    fn rules_are_lawful() {
        let counts =
            (1..=10).flat_map(|size| (0..size).filter_map(move |f| Count::new(size, f).ok()));
        let counts: Vec<Count> = counts.collect();
        let mut rules: Vec<Rule> = counts.iter().copied().map(Rule::Count).collect();
        for &below in &counts {
            rules.extend((0..below.size).map(|k| Rule::Lead(Lead::new(k, below).unwrap())));
            let small = counts.iter().filter(|inner| inner.size * below.size <= 10);
            rules.extend(small.map(|&inner| Rule::Groups(Groups::new(below, inner).unwrap())));
        }
        for rows in 1..=10 {
            rules.extend((1..=10 / rows).map(|c| Rule::Grid(Grid::new(rows, c).unwrap())));
        }
        rules.iter().for_each(check_laws);
    }

    fn check_laws(rule: &Rule) {
        let all = first_replicas(rule.size());
        assert!(rule.is_round(all));
        for set in 0..=all {
            assert!(!rule.is_round(set) || rule.is_hold(set));
            // A round set meets every hold set if no set that misses it is a hold set.
            assert!(!rule.is_round(set) || !rule.is_hold(all & !set));
            assert_eq!(rule.is_round(set), rule.is_round(set | 0xFF00_0000));
            assert_eq!(rule.is_hold(set), rule.is_hold(set | 0xFF00_0000));
        }
    }
}
