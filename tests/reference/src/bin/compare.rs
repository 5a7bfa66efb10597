//! Compares the reference with the C library on random inputs: `compare SEED
//! COUNT`, or `compare SEED COUNT trace`, which prints each input before its
//! call, in case the library does not come back. `compare --large SEED COUNT`
//! compares validating alone, on populations of up to some 4,700 members or rows.
//!
//! Build, with the archive `libcapi.a` in the folder DIR (touching the file
//! makes a changed archive be linked anew):
//!
//! touch src/foreign.rs
//! RUSTFLAGS="-L native=DIR" cargo build --release --features compare --bin compare
//!
//! If the archive brings a panic handler of its own, which then stands twice,
//! add `-C link-arg=-Wl,--allow-multiple-definition` to RUSTFLAGS.
//!
//! An input is one call with its lent space, or a sequence of single limits from
//! the start to the end. The answers and every lent number or byte afterwards
//! must agree. Input i depends on the seed and i alone. Each seventh input is a
//! population of sets about the edge of the table of common multiples, of the rest
//! each sixth is of an average use, of the others each fifth of a prescribed size,
//! and of those left each fourth of the calls for single limits.

use reference::foreign::{self, Answer};
use reference::large;
use reference::random::{self, Random};
use reference::{check, floors, form, found, limits, settle, starting};
use reference::{Average, Diagram, Lowered, Refusal, Settled, Survey, Verdict};
use std::cmp::Ordering;
use std::collections::{BTreeMap, BTreeSet};
use std::fmt::Debug;
use std::time::Instant;

/// The cases of each outcome, the places of the table of common multiples that
/// pairings ask for, and the name of the input at work.
struct Compare {
    outcomes: BTreeMap<(&'static str, String), usize>,
    places: [BTreeSet<(usize, usize)>; 3],
    place: String,
    trace: bool,
}

/// "number (0 accepted, or the refusal), place, round, length".
fn refused(r: Refusal) -> Answer {
    [u64::from(r.number), r.place, r.round, 0]
}

fn length(result: Result<usize, Refusal>) -> Answer {
    result.map_or_else(refused, |length| [0, 0, 0, length as u64])
}

fn settled(result: Result<Settled, Refusal>) -> Answer {
    result.map_or_else(refused, |s| [0, 0, s.rounds, s.length as u64])
}

fn verdict(result: Result<Verdict, Refusal>) -> Answer {
    let answer = |v: Verdict| [0, 0, u64::from(v.constraint), u64::from(v.number)];
    result.map_or_else(refused, answer)
}

/// "1 if it lowered the bound", "the number of sets".
fn lowered(result: Result<Lowered, Refusal>) -> Answer {
    let answer = |step: Lowered| [0, 0, u64::from(step.lowered), step.sets as u64];
    result.map_or_else(refused, answer)
}

/// "1 if some limit lowers a bound", "the number of limits".
fn surveyed(result: Result<Survey, Refusal>) -> Answer {
    let answer = |said: Survey| [0, 0, u64::from(said.lowers), said.limits as u64];
    result.map_or_else(refused, answer)
}

/// "0 if the quotient is a whole number, 1 if it is not and stands in *quotient";
/// "the whole number". The quotient is lent as its 64 bits.
fn averaged(result: Result<Average, Refusal>, quotient: &mut [u64]) -> Answer {
    match result {
        Ok(Average::Whole(number)) => [0, 0, 0, u64::from(number)],
        Ok(Average::Float(float)) => {
            quotient[0] = float.to_bits();
            [0, 0, 1, 0]
        }
        Err(refusal) => refused(refusal),
    }
}

/// Text where it is text, numbers elsewhere.
trait Shown: Debug + PartialEq + Clone {
    fn show(items: &[Self]) -> String {
        format!("{items:?}")
    }
}

impl Shown for u32 {}
impl Shown for u64 {}

impl Shown for u8 {
    fn show(items: &[u8]) -> String {
        format!("\"{}\"", items.escape_ascii())
    }
}

/// The length of the result, 0 if refused for other reasons than space.
fn needed(answer: Answer) -> usize {
    match answer[0] {
        8 => answer[1] as usize,
        _ => answer[3] as usize,
    }
}

impl Compare {
    /// One call with lent space on both sides; the reference's answer and the
    /// lent space afterwards.
    fn lent_call<I: Shown, L: Shown>(
        &mut self,
        name: &'static str,
        input: &[I],
        lent: Vec<L>,
        ours: impl Fn(&[I], &mut [L]) -> Answer,
        theirs: impl Fn(&[I], &mut [L]) -> Answer,
    ) -> (Answer, Vec<L>) {
        if self.trace {
            println!(
                "{name}, {}: {}, lent {}",
                self.place,
                I::show(input),
                lent.len()
            );
        }
        let (mut our, mut their) = (lent.clone(), lent.clone());
        let answers = (ours(input, &mut our), theirs(input, &mut their));
        if answers.0 != answers.1 || our != their {
            println!("difference in {name}, {}", self.place);
            println!("input     {}", I::show(input));
            println!("lent      {} of {}", lent.len(), L::show(&lent));
            println!("reference {:?} {}", answers.0, L::show(&our));
            println!("library   {:?} {}", answers.1, L::show(&their));
            if let Some(at) = (0..lent.len()).find(|i| our[*i] != their[*i]) {
                println!("first at  {at}");
            }
            std::process::exit(1);
        }
        let outcome = match answers.0[0] {
            0 => "accepted".to_string(),
            number => format!("refused {number}"),
        };
        *self.outcomes.entry((name, outcome)).or_default() += 1;
        (answers.0, our)
    }

    /// The library's own round trip gives back what it began with.
    fn round_trip<T: Shown>(&self, name: &str, before: &[T], after: &[T]) {
        if before != after {
            println!("difference in {name}, {}", self.place);
            println!("before    {}", T::show(before));
            println!("after     {}", T::show(after));
            std::process::exit(1);
        }
    }

    fn read(&mut self, random: &mut Random) {
        let text = random::text(random);
        let ours = |text: &[u8], table: &mut [u32]| length(reference::read(text, table));
        let wanted = needed(ours(&text, &mut []));
        let lent = random::lent(random, wanted);
        let lent = random::pattern(random, lent, |bits| bits as u32);
        let (answer, table) = self.lent_call("read", &text, lent, ours, foreign::read);
        if answer[0] == 0 {
            let mut again = vec![0; text.len()];
            foreign::write(&table[..wanted], &mut again);
            self.round_trip("read then write", &text, &again);
        }
    }

    fn write(&mut self, random: &mut Random) {
        let table = self.table(random, 70);
        let ours = |table: &[u32], text: &mut [u8]| length(reference::write(table, text));
        let wanted = needed(ours(&table, &mut []));
        let lent = random::lent(random, wanted);
        let lent = random::pattern(random, lent, |bits| bits as u8);
        let (answer, text) = self.lent_call("write", &table, lent, ours, foreign::write);
        if answer[0] == 0 {
            let mut again = vec![0; table.len()];
            foreign::read(&text[..wanted], &mut again);
            self.round_trip("write then read", &table, &again);
        }
    }

    fn check(&mut self, random: &mut Random) {
        let table = self.table(random, 80);
        let ours = |table: &[u32], sizes: &mut [u32]| settled(reference::check(table, sizes));
        // The number of sets, also where one of them is emptied.
        let wanted = form(&table).map_or(0, |d| d.count_sets());
        let lent = random::lent(random, wanted);
        let lent = random::pattern(random, lent, |bits| bits as u32);
        self.lent_call("check", &table, lent, ours, foreign::check);
    }

    fn populate(&mut self, random: &mut Random) {
        let table = self.table(random, 90);
        self.populate_of("populate", random, &table, random::lent);
    }

    /// A population with a buffer of a length for the one that is needed; whether
    /// it is accepted.
    fn populate_of(
        &mut self,
        name: &'static str,
        random: &mut Random,
        table: &[u32],
        lent: impl Fn(&mut Random, usize) -> usize,
    ) -> bool {
        let ours = |table: &[u32], cells: &mut [u32]| settled(reference::populate(table, cells));
        let wanted = needed(ours(table, &mut []));
        let lent = lent(random, wanted);
        let lent = random::pattern(random, lent, |bits| bits as u32);
        let (answer, _) = self.lent_call(name, table, lent, ours, foreign::populate);
        answer[0] == 0
    }

    fn validate(&mut self, random: &mut Random) {
        let mut d = random::diagram(random);
        let mut table = d.table();
        let filled = match reference::populate(&table, &mut []) {
            Err(refusal) if refusal.number == 8 => {
                let mut filled = vec![0; refusal.place as usize];
                reference::populate(&table, &mut filled).map_or(Vec::new(), |_| filled)
            }
            _ => Vec::new(),
        };
        let mut limited = Vec::new();
        if d.version == 2 && !filled.is_empty() && random.chance(40) {
            limited = random::limit_beside(random, &mut d, &filled);
            table = d.table();
        }
        let cells = match !limited.is_empty() && random.chance(50) {
            true => limited,
            false => random::cells(random, &d, &filled),
        };
        if random.chance(5) {
            table = random::damaged_table(random);
        }
        self.validate_of("validate", &table, &cells);
    }

    /// A population of many members or rows.
    fn large(&mut self, random: &mut Random) {
        let (table, cells) = large::input(random);
        let answer = self.validate_of("large", &table, &cells);
        if let [0, _, constraint, 2..=32] = answer {
            let outcome = format!("broken K{constraint}, not the first");
            self.count("large", &outcome);
        }
    }

    /// The verdict on cells, on which both agree.
    fn validate_of(&mut self, name: &'static str, table: &[u32], cells: &[u32]) -> Answer {
        if self.trace {
            let (table, cells) = (u32::show(table), u32::show(cells));
            println!("{name}, {}: {table} {cells}", self.place);
        }
        let ours = verdict(reference::validate(table, cells));
        let theirs = foreign::validate(table, cells);
        if ours != theirs {
            println!("difference in {name}, {}", self.place);
            println!("table     {}", u32::show(table));
            println!("cells     {}", u32::show(cells));
            println!("reference {ours:?}");
            println!("library   {theirs:?}");
            std::process::exit(1);
        }
        let outcome = match ours {
            [0, 0, 0, 0] => "valid".to_string(),
            [0, _, constraint, _] => format!("broken K{constraint}"),
            [number, ..] => format!("refused {number}"),
        };
        self.count(name, &outcome);
        ours
    }

    fn start(&mut self, random: &mut Random) {
        let table = self.table(random, 80);
        let ours = |table: &[u32], sizes: &mut [u32]| length(reference::start(table, sizes));
        let wanted = needed(ours(&table, &mut []));
        let lent = random::lent(random, wanted);
        let lent = random::pattern(random, lent, |bits| bits as u32);
        self.lent_call("start", &table, lent, ours, foreign::start);
    }

    /// A table and lent space with ceilings of its sets, if it is valid, with any
    /// numbers else; and the number of a limit, often of one that lowers.
    fn kept(&mut self, random: &mut Random) -> (Vec<u32>, Vec<u32>, u32) {
        let table = self.table(random, 90);
        let Ok(d) = form(&table) else {
            let length = random.below(30);
            let any = random::pattern(random, length, |bits| bits as u32);
            return (table, any, random::limit_number(random, 12));
        };
        let (all, mut ceilings) = (limits(&d), random::ceilings(random, &d));
        if random.chance(15) {
            if let Some(number) = random::widen(random, &all, &mut ceilings) {
                return (table, random::lent_with(random, ceilings), number);
            }
        }
        let lowers = |number: &usize| all[*number].lowers(&ceilings);
        let lowering: Vec<usize> = (0..all.len()).filter(lowers).collect();
        let number = match !lowering.is_empty() && random.chance(40) {
            true => random.pick(&lowering) as u32,
            false => random::limit_number(random, all.len()),
        };
        (table, random::lent_with(random, ceilings), number)
    }

    fn lower(&mut self, random: &mut Random) {
        let (table, lent, number) = self.kept(random);
        self.place += &format!(", limit {number}");
        let ours =
            |table: &[u32], sizes: &mut [u32]| lowered(reference::lower(table, number, sizes));
        let theirs = |table: &[u32], sizes: &mut [u32]| foreign::lower(table, number, sizes);
        let (answer, _) = self.lent_call("lower", &table, lent, ours, theirs);
        if answer[2] == 1 {
            self.count("lower", "accepted, lowered");
        }
    }

    fn survey(&mut self, random: &mut Random) {
        let (table, lent, _) = self.kept(random);
        let ours = |table: &[u32], sizes: &mut [u32]| surveyed(reference::survey(table, sizes));
        let theirs = |table: &[u32], sizes: &mut [u32]| foreign::survey(table, sizes);
        let (answer, _) = self.lent_call("survey", &table, lent, ours, theirs);
        if answer[2] == 1 {
            self.count("survey", "accepted, some lower");
        }
    }

    /// A sequence by the library, from the start until its survey says that no
    /// limit lowers any. Each step must agree, and the end must be that of the
    /// rounds: the settled sizes, or below a floor where the check refuses.
    fn sequence(&mut self, random: &mut Random) {
        let (d, end) = random::ending_diagram(random, 4000);
        let (table, all) = (d.table(), limits(&d));
        let behind = random.below(4);
        let lent = random::pattern(random, d.count_sets() + behind, |bits| bits as u32);
        let mut their = lent.clone();
        let answer = foreign::start(&table, &mut their);
        let mut our = [starting(&d), lent[end.len()..].to_vec()].concat();
        self.step(
            "start",
            &table,
            (&length(Ok(end.len())), &our),
            (&answer, &their),
        );
        let mut order: Vec<usize> = (0..all.len()).collect();
        let how = random.below(4);
        loop {
            let lowers = all.iter().any(|limit| limit.lowers(&our));
            let (ours, answer) = (
                [0, 0, u64::from(lowers), all.len() as u64],
                foreign::survey(&table, &their),
            );
            self.step("survey", &table, (&ours, &our), (&answer, &their));
            if answer[2] == 0 {
                break;
            }
            match how {
                0 => random.shuffle(&mut order),
                1 => order.fill_with(|| random.below(all.len())),
                2 => order.rotate_left(1),
                _ => order.reverse(),
            }
            for number in &order {
                let lowered = all[*number].lower(&mut our);
                let ours = [0, 0, u64::from(lowered), end.len() as u64];
                let answer = foreign::lower(&table, *number as u32, &mut their);
                let name = format!("lower by limit {number}");
                self.step(&name, &table, (&ours, &our), (&answer, &their));
            }
        }
        let mut sizes = vec![0; end.len()];
        let outcome = match check(&table, &mut sizes) {
            Ok(_) => "settled",
            Err(_) => "below a floor",
        };
        let below = floors(&d).iter().zip(&their).any(|(floor, c)| c < floor);
        let agrees = match outcome {
            "settled" => sizes == their[..end.len()] && !below,
            _ => below,
        };
        self.round_trip("the end of a sequence", &end, &their[..end.len()]);
        if !agrees {
            println!("difference in what the check says, {}", self.place);
            println!("input     {}", u32::show(&table));
            std::process::exit(1);
        }
        self.count("sequence", outcome);
    }

    /// One step of a sequence: the answers and all numbers agree.
    fn step(&self, name: &str, table: &[u32], ours: (&Answer, &[u32]), theirs: (&Answer, &[u32])) {
        if self.trace {
            println!("{name} in a sequence, {}: {}", self.place, u32::show(table));
        }
        if ours != theirs {
            println!("difference in {name} in a sequence, {}", self.place);
            println!("input     {}", u32::show(table));
            println!("reference {:?} {}", ours.0, u32::show(ours.1));
            println!("library   {:?} {}", theirs.0, u32::show(theirs.1));
            std::process::exit(1);
        }
    }

    fn count(&mut self, name: &'static str, outcome: &str) {
        *self
            .outcomes
            .entry((name, outcome.to_string()))
            .or_default() += 1;
    }

    /// A table, the number of a set and a wanted size.
    fn prescription(&mut self, random: &mut Random) -> (Vec<u32>, u32, u32) {
        let table = match random.chance(92) {
            true => random::settling_diagram(random).table(),
            false => random::damaged_table(random),
        };
        let Ok(d) = form(&table) else {
            let (set, wanted) = (random.between(0, 9), random.between(0, 9));
            return (table, set, wanted);
        };
        let set = random::set_number(random, &d);
        let index = (set as usize).wrapping_sub(1) % d.count_sets();
        let wanted = random::wanted(random, &d, index);
        (table, set, wanted)
    }

    fn prescribe(&mut self, random: &mut Random) {
        let (table, set, wanted) = self.prescription(random);
        let lent = random::lent;
        self.prescribe_of("prescribe", random, &table, (set, wanted), lent);
    }

    /// A prescription with a buffer of a length for the one that is needed; the
    /// cells where it is accepted.
    fn prescribe_of(
        &mut self,
        name: &'static str,
        random: &mut Random,
        table: &[u32],
        (set, wanted): (u32, u32),
        lent: impl Fn(&mut Random, usize) -> usize,
    ) -> Option<Vec<u32>> {
        self.place += &format!(", set {set}, wanted {wanted}");
        let ours = |table: &[u32], cells: &mut [u32]| {
            settled(reference::prescribe(table, set, wanted, cells))
        };
        let theirs =
            |table: &[u32], cells: &mut [u32]| foreign::prescribe(table, set, wanted, cells);
        let needed = needed(ours(table, &mut []));
        let lent = lent(random, needed);
        let lent = random::pattern(random, lent, |bits| bits as u32);
        let (answer, mut cells) = self.lent_call(name, table, lent, ours, theirs);
        match answer[0] {
            0 => self.prescribed(name, table, (set, wanted), &cells[..needed]),
            11 => self.impossible(name, table, (set, wanted), answer),
            _ => (),
        }
        cells.truncate(needed);
        (answer[0] == 0).then_some(cells)
    }

    /// How a wanted size lies to the one that the set settles at without it.
    fn beside(&self, table: &[u32], set: u32, wanted: u32) -> (&'static str, Vec<u32>) {
        let Ok(Ok((_, sizes))) = form(table).map(|d| settle(&d)) else {
            return ("emptied without it", Vec::new());
        };
        let beside = match (wanted, wanted.cmp(&sizes[set as usize - 1])) {
            (0, _) => "wanted 0",
            (65_536.., _) => "wanted past 16 bits",
            (_, Ordering::Less) => "below the settled size",
            (_, Ordering::Equal) => "the settled size",
            (_, Ordering::Greater) => "above the settled size",
        };
        (beside, sizes)
    }

    /// The cells of an accepted answer are a population in which the set has just
    /// the wanted size; where it is the settled one, the library's own population.
    fn prescribed(
        &mut self,
        name: &'static str,
        table: &[u32],
        (set, wanted): (u32, u32),
        cells: &[u32],
    ) {
        let said = verdict(reference::validate(table, cells));
        self.round_trip("the verdict on prescribed cells", &[0; 4], &said);
        let d = form(table).expect("an accepted table");
        let sizes = found(&d, cells).expect("cells of an accepted table");
        let sizes: Vec<u32> = sizes.iter().map(|size| *size as u32).collect();
        let size = sizes[set as usize - 1];
        self.round_trip("the size of a prescribed set", &[wanted], &[size]);
        let (beside, plain) = self.beside(table, set, wanted);
        let kind = kind_of(&d, set);
        self.count(name, &format!("accepted, {beside}, a {kind}"));
        let moved = |(size, plain): &(&u32, &u32)| size != plain;
        if sizes.iter().zip(&plain).filter(moved).count() > 1 {
            self.count(name, "accepted, other sets smaller too");
        }
        if beside == "the settled size" {
            let mut own = vec![0; cells.len()];
            foreign::populate(table, &mut own);
            self.round_trip("the settled size prescribed", &own, cells);
        }
    }

    /// What a refusal with 11 says.
    fn impossible(
        &mut self,
        name: &'static str,
        table: &[u32],
        (set, wanted): (u32, u32),
        answer: Answer,
    ) {
        let (beside, _) = self.beside(table, set, wanted);
        let round = match answer[2] {
            0 => "round 0",
            _ => "later",
        };
        let named = match answer[1] == u64::from(set) {
            true => "the set",
            false => "another set",
        };
        let outcome = format!("refused 11, {beside}, {round}, {named}");
        self.count(name, &outcome);
    }

    /// A population of sets about the edge of the table of common multiples, with a
    /// prescribed size or without, mostly with a buffer that is long enough.
    fn edge(&mut self, random: &mut Random) {
        let d = random::edge_diagram(random);
        let table = d.table();
        let lent = |random: &mut Random, needed| match random.chance(85) {
            true => needed + random.below(3),
            false => random::lent(random, needed),
        };
        if random.chance(60) {
            let name = "edge, populate";
            if self.populate_of(name, random, &table, lent) {
                let (_, sizes) = settle(&d).expect("sizes of a population");
                let sizes: Vec<usize> = sizes.iter().map(|size| *size as usize).collect();
                self.paired(name, &pairings(&d, &sizes));
            }
            return;
        }
        let set = random.between(1, d.count_sets() as u32);
        let wanted = random::edge_wanted(random, &d, set as usize - 1);
        let name = "edge, prescribe";
        if let Some(cells) = self.prescribe_of(name, random, &table, (set, wanted), lent) {
            let sizes = found(&d, &cells).expect("cells of an accepted table");
            self.paired(name, &pairings(&d, &sizes));
        }
    }

    /// How the sizes of an input's pairings lie to the table's edge.
    fn paired(&mut self, name: &'static str, pairings: &[[usize; 4]]) {
        let mut some = |what: &str, has: &dyn Fn(&[usize; 4]) -> bool| {
            if pairings.iter().any(has) {
                self.count(name, &format!("with {what}"));
            }
        };
        let within = |[s, t, ..]: &[usize; 4]| *s <= 64 && *t <= 64;
        let shifted = |[s, t, pairs, _]: &[usize; 4]| {
            reference::multiple(*s, *t).is_some_and(|multiple| *pairs > multiple)
        };
        let whole = |[s, t, pairs, _]: &[usize; 4]| *pairs == s * t;
        some("both 1 to 64", &within);
        some("both 1 to 64, shifted", &shifted);
        some("both 1 to 64, all pairs", &|p| within(p) && whole(p));
        some("both past 64", &|p| p[0] > 64 && p[1] > 64);
        some("up to 64 with past 64", &|p| p[0] <= 64 && p[1] > 64);
        some("past 64 with up to 64", &|p| p[0] > 64 && p[1] <= 64);
        some("three sets or more", &|p| p[3] > 1);
        some("two sets or more that make 64", &|p| p[3] > 1 && p[0] == 64);
        some("two sets or more that make 65", &|p| p[3] > 1 && p[0] == 65);
        some("two sets or more past 64", &|p| p[3] > 1 && p[0] > 64);
        for size in [1, 63, 64, 65] {
            some(&format!("a size of {size}"), &|p| p[..2].contains(&size));
        }
        for (s, t) in [(63, 64), (64, 63), (64, 64), (64, 65), (65, 64), (65, 65)] {
            some(&format!("{s} with {t}"), &|p| p[..2] == [s, t]);
        }
        for pairing in pairings.iter().filter(|pairing| within(pairing)) {
            let met = [true, shifted(pairing), whole(pairing)];
            for (places, met) in self.places.iter_mut().zip(met) {
                if met {
                    places.insert((pairing[0], pairing[1]));
                }
            }
        }
    }

    /// A table and the number of a set, mostly of a group.
    fn asked(&mut self, random: &mut Random) -> (Vec<u32>, u32) {
        let table = match random.chance(92) {
            true => random::used_diagram(random).table(),
            false => random::damaged_table(random),
        };
        let set = match form(&table) {
            Ok(d) => random::group_number(random, &d),
            Err(_) => random.between(0, 30),
        };
        (table, set)
    }

    /// Any 64 bits stand in the quotient before the call but those of a NaN, which
    /// need not stay the same where a float is handed on.
    fn average(&mut self, random: &mut Random) {
        let (table, set) = self.asked(random);
        self.place += &format!(", set {set}");
        let mut before = random.bits();
        while f64::from_bits(before).is_nan() {
            before = random.bits();
        }
        let ours = |table: &[u32], lent: &mut [u64]| averaged(reference::average(table, set), lent);
        let theirs = |table: &[u32], lent: &mut [u64]| {
            let mut quotient = f64::from_bits(lent[0]);
            let answer = foreign::average(table, set, &mut quotient);
            lent[0] = quotient.to_bits();
            answer
        };
        let (answer, lent) = self.lent_call("average", &table, vec![before], ours, theirs);
        match answer {
            [0, _, 0, 1] => self.count("average", "accepted, whole, 1"),
            [0, _, 0, _] => self.count("average", "accepted, whole, above 1"),
            [0, ..] => {
                let float = f64::from_bits(lent[0]);
                let single = f64::from(float as f32) == float;
                let bits = if single { "24 bits" } else { "53 bits" };
                self.count("average", &format!("accepted, fraction, {bits}"));
            }
            [10, ..] => self.no_group(&table, set),
            _ => (),
        }
    }

    /// What a number is that no group has, and whether a set is emptied too.
    fn no_group(&mut self, table: &[u32], set: u32) {
        let d = form(table).expect("a table without fault");
        let sets = d.count_sets() as u32;
        let what = match set {
            0 => "0",
            u32::MAX => "the largest number",
            _ if set == sets + 1 => "just past the last set",
            _ if set > sets => "past the last set",
            _ => kind_of(&d, set),
        };
        self.count("average", &format!("refused 10, {what}"));
        if settle(&d).is_err() {
            self.count("average", "refused 10, with an emptied set");
        }
    }

    /// One of the calls for single limits.
    fn limit_input(&mut self, random: &mut Random) {
        match random.below(20) {
            0..2 => self.start(random),
            2..12 => self.lower(random),
            12..18 => self.survey(random),
            _ => self.sequence(random),
        }
    }

    /// One of the other calls.
    fn input(&mut self, random: &mut Random) {
        match random.below(10) {
            0..2 => self.read(random),
            2 => self.write(random),
            3..5 => self.check(random),
            5..7 => self.populate(random),
            _ => self.validate(random),
        }
    }

    /// A valid table in so many of a hundred cases, else a damaged one.
    fn table(&mut self, random: &mut Random, percent: usize) -> Vec<u32> {
        match random.chance(percent) {
            true => random::diagram(random).table(),
            false => random::damaged_table(random),
        }
    }
}

/// The kind of the set with this number.
fn kind_of(d: &Diagram, set: u32) -> &'static str {
    let roles = d.types.len() + d.preds.len();
    match set as usize - 1 {
        i if i < d.types.len() => "type",
        i if i < roles => "predicate",
        i if i < roles + d.count_roles() => "role",
        _ => "group",
    }
}

/// The sizes of the two sets of each pairing, how many pairs it makes, and of how
/// many sets the first is made.
fn pairings(d: &Diagram, sizes: &[usize]) -> Vec<[usize; 4]> {
    let mut pairings = Vec::new();
    let mut from_left = |sets: &[usize], wanted: usize| {
        let mut left = sets[0];
        for (made, size) in (1..).zip(&sets[1..]) {
            let pairs = wanted.min(left * size);
            pairings.push([left, *size, pairs, made]);
            left = pairs;
        }
    };
    let r = d.types.len();
    let (mut p, mut q) = (r + d.preds.len(), d.count_sets() - d.count_groups());
    for (pred, rows) in d.preds.iter().zip(&sizes[r..]) {
        let of = |group: u32| -> Vec<usize> {
            let roles = pred.roles.iter().zip(&sizes[p..]);
            let own = roles.filter(|(role, _)| role.group == group);
            own.map(|(_, size)| *size).collect()
        };
        let mut sets = sizes[q..q + pred.groups.len()].to_vec();
        for (group, size) in (1..).zip(&sets) {
            from_left(&of(group), *size);
        }
        sets.extend(of(0));
        from_left(&sets, *rows);
        (p, q) = (p + pred.roles.len(), q + pred.groups.len());
    }
    pairings
}

/// The generator for the input with this number.
fn nth(seed: u64, i: u64) -> Random {
    Random::new(Random::new(seed).bits() ^ Random::new(i).bits())
}

/// The input with this number, of any call.
fn mixed(compare: &mut Compare, seed: u64, i: u64) {
    // Each seventh is about the table's edge, of the others each sixth of an
    // average use, of the rest each fifth of a prescribed size, of those left
    // each fourth of single limits; each kind counts its own alone.
    let other = i / 7 * 6 + i % 7;
    let rest = other / 6 * 5 + other % 6;
    let left = rest / 5 * 4 + rest % 5;
    match (i % 7, other % 6, rest % 5, left % 4) {
        (6, ..) => compare.edge(&mut nth(seed ^ 1 << 61, i / 7)),
        (_, 5, ..) => compare.average(&mut nth(seed ^ 1 << 62, other / 6)),
        (_, _, 4, _) => compare.prescribe(&mut nth(seed ^ 1 << 63, rest / 5)),
        (_, _, _, 3) => compare.limit_input(&mut nth(!seed, left / 4)),
        (_, _, _, own) => compare.input(&mut nth(seed, left / 4 * 3 + own)),
    }
}

fn main() {
    let mut words: Vec<String> = std::env::args().skip(1).collect();
    let large = words.first().is_some_and(|word| word == "--large");
    words.drain(..usize::from(large));
    let mut arguments = words.iter().take(2).map(|word| word.parse::<u64>());
    let (Some(Ok(seed)), Some(Ok(count))) = (arguments.next(), arguments.next()) else {
        println!("compare [--large] SEED COUNT");
        std::process::exit(2);
    };
    let mut compare = Compare {
        outcomes: BTreeMap::new(),
        places: Default::default(),
        place: String::new(),
        trace: words.get(2).is_some_and(|word| word == "trace"),
    };
    let start = Instant::now();
    for i in 0..count {
        compare.place = format!("seed {seed}, input {i}");
        match large {
            true => compare.large(&mut nth(seed ^ 1 << 60, i)),
            false => mixed(&mut compare, seed, i),
        }
    }
    let rate = count as f64 / start.elapsed().as_secs_f64();
    for ((call, outcome), cases) in &compare.outcomes {
        println!("{call} {outcome}: {cases}");
    }
    if !large {
        let [asked, shifted, whole] = compare.places.map(|places| places.len());
        println!(
            "places of the table: {asked} asked, {shifted} with a shift, {whole} with all rows"
        );
    }
    println!("{rate:.0} cases per second");
    println!("{count} inputs, 0 differences");
}
