// Put into the mapper's module by build.rs: composing and simplifying stored cones by the Rust's own functions.

struct Words<'a>(std::str::SplitAsciiWhitespace<'a>);

impl Words<'_> {
    fn word(&mut self) -> &str {
        self.0.next().expect("a case stopped early")
    }

    fn number<T: std::str::FromStr>(&mut self) -> T {
        self.word().parse().ok().expect("a number")
    }

    fn bits(&mut self, count: usize) -> Vec<u8> {
        let bits: Vec<u8> = self.word().bytes().map(|byte| byte - b'0').collect();
        assert_eq!(bits.len(), count);
        bits
    }

    fn cone(&mut self) -> Cone {
        let count: usize = self.number();
        let support = (0..count).map(|_| self.number()).collect();
        let coefficients: Vec<i64> = (0..count).map(|_| self.number()).collect();
        let truth_table = self.bits(1 << count);
        stored(support, coefficients, truth_table)
    }
}

fn stored(support: Vec<usize>, coefficients: Vec<i64>, truth_table: Vec<u8>) -> Cone {
    let multivalue_table = linear_table(&coefficients);
    Cone {
        support,
        coefficients,
        truth_table,
        multivalue_table,
    }
}

/// At most 11 sources, all different nodes of a store, a span of at most 32, and one truth at each value.
fn is_stored_cone(cone: &Cone) -> bool {
    let mut sources = cone.support.clone();
    sources.sort();
    sources.dedup();
    let mut truths = std::collections::BTreeMap::new();
    let one_truth = cone
        .multivalue_table
        .iter()
        .zip(&cone.truth_table)
        .all(|(value, truth)| truths.entry(*value).or_insert(*truth) == truth);
    sources.len() == cone.support.len()
        && sources.len() <= 11
        && sources.iter().all(|&node| node < 672)
        && cone.span() <= 32
        && one_truth
}

fn digits(bits: &[u8]) -> String {
    bits.iter().map(|bit| char::from(b'0' + bit)).collect()
}

/// A value within -31..31 as a letter: P for 0.
fn letters(values: impl Iterator<Item = i64>) -> String {
    values
        .map(|value| char::from(u8::try_from(i64::from(b'P') + value).unwrap()))
        .collect()
}

/// Span, norm and divisor.
fn measures(cone: &Cone) -> String {
    format!(
        "{} {} {}",
        cone.span(),
        cone.norm2(),
        coefficient_normalization_divisor(&cone.coefficients)
    )
}

/// The cone without unused sources, and what validate_cone says of it.
fn simplified(mapper: &Mapper, cone: Cone) -> String {
    if !is_stored_cone(&cone) {
        return "no cone".to_owned();
    }
    let cone = simplify_cone(cone).unwrap();
    assert_eq!(cone.multivalue_table, linear_table(&cone.coefficients));
    let mut text = format!("{}", cone.support.len());
    for (node, coefficient) in cone.support.iter().zip(&cone.coefficients) {
        text.push_str(&format!(" {node} {coefficient}"));
    }
    let number = match mapper.validate_cone(&cone) {
        Ok(()) => 0,
        Err(reason) if reason.starts_with("invalid cone") => 10,
        Err(reason) if reason.starts_with("cone norm") => 8,
        Err(reason) => panic!("{reason}"),
    };
    format!("{text} {} {number}", digits(&cone.truth_table))
}

/// The answers to a case, in one line.
pub fn replay(line: &str) -> String {
    let mut words = Words(line.split_ascii_whitespace());
    let mut config = MapConfig::default();
    config.fbs_size = words.number();
    config.max_fbs_size = words.number();
    let norm: u128 = words.number();
    config.max_norm2 = (norm != 0).then_some(norm);
    let mapper = Mapper { config };
    let (left, right) = (words.cone(), words.cone());
    let gate = words.bits(4);
    let support = union_support(&left.support, &right.support);
    assert_eq!(
        support.len(),
        union_support_size(&left.support, &right.support)
    );
    if !is_stored_cone(&left) || !is_stored_cone(&right) || support.len() > 11 {
        return "no cone".to_owned();
    }
    let basis = CandidateWorkspace::new(&left, &right).coefficient_basis;
    let (xy, truth) = cone_composition_tables(&left, &right, &gate).unwrap();
    let mut text = format!("{} {} {}", measures(&left), measures(&right), support.len());
    for (node, (l, r)) in support.iter().zip(&basis) {
        text.push_str(&format!(" {node} {l} {r}"));
    }
    let merged = |scale: i64| {
        let coefficients = basis.iter().map(|pair| scale * pair.0 + pair.1).collect();
        stored(support.clone(), coefficients, truth.clone())
    };
    let sum = merged(1);
    let naive = merged(i64::try_from(right.span()).unwrap());
    format!(
        "{text} {} {} {} {} {} {} {}",
        letters(xy.iter().map(|row| row.0)),
        letters(xy.iter().map(|row| row.1)),
        digits(&truth),
        simplified(&mapper, left),
        simplified(&mapper, right),
        simplified(&mapper, sum),
        simplified(&mapper, naive),
    )
}
