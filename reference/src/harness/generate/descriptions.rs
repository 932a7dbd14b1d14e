//! Makes board descriptions: good ones of every size, and ones with one or several faults.

use crate::board::{FIRST_HOSTS, FIRST_PROCESSORS, MOST_HOSTS, ROWS};
use crate::description::{BoardFault, Item, BOARD_FAULTS, TAG_HOST};
use crate::harness::generate::random::Random;

/// Where the number and the byte behind it, mark or class, stand in a field.
pub const NUMBER: usize = 3;
pub const MARK: usize = 4;

/// The number from which on the full board has the processors that the first board lacks.
pub const FULL_BOARD_FROM: u8 = 200;

/// The bytes of one host or processor.
pub type Field = Vec<u8>;

/// The field of a host.
pub fn host_field(number: u8, mark: u8) -> Field {
    Item::Host { number, mark }.to_bytes()
}

/// The field of a processor.
pub fn processor_field(number: u8, class: u8, cluster: u8) -> Field {
    Item::Processor { number, class, cluster }.to_bytes()
}

/// The description of the board that stands at the start.
pub fn first_fields() -> Vec<Field> {
    let hosts = FIRST_HOSTS.iter().map(|host| host_field(host.number, u8::from(host.secure)));
    let processors = FIRST_PROCESSORS.iter();
    hosts.chain(processors.map(|p| processor_field(p.number, p.class as u8, p.cluster))).collect()
}

/// A good description: few or many hosts and processors, in any order.
pub fn good_fields(random: &mut Random) -> Vec<Field> {
    let hosts = random.pick_or(&[0, 1, 7, 63, MOST_HOSTS], |random| random.between(1, MOST_HOSTS));
    let processors =
        random.pick_or(&[0, 1, 3, 6, 31, ROWS, ROWS], |random| random.between(1, ROWS));
    let mut fields = host_fields(random, hosts);
    fields.extend(processor_fields(random, processors));
    if random.one_in(2) {
        random.shuffle(&mut fields);
    }
    fields
}

fn host_fields(random: &mut Random, count: usize) -> Vec<Field> {
    let numbers = distinct_numbers(random, count);
    numbers.into_iter().map(|number| host_field(number, random.below(2) as u8)).collect()
}

/// Processors that are alone, in one cluster, in clusters of three or in clusters of any size. One
/// cluster has one class.
fn processor_fields(random: &mut Random, count: usize) -> Vec<Field> {
    let classes = random.u32();
    let class_of = |cluster: u8| (classes >> (cluster % 32)) as u8 & 1;
    let one = random.pick_or(&[1, 255], |random| random.between(1, 255) as u8);
    let layout = random.below(4);
    let numbers = distinct_numbers(random, count).into_iter().enumerate();
    numbers
        .map(|(place, number)| {
            let cluster = match layout {
                0 => 0,
                1 => one,
                2 => 1 + place as u8 / 3,
                _ => random.pick(&[0, 1, 2, one]),
            };
            let class = if cluster == 0 { random.below(2) as u8 } else { class_of(cluster) };
            processor_field(number, class, cluster)
        })
        .collect()
}

/// Different numbers other than 0. The first and the last there is are often among them.
fn distinct_numbers(random: &mut Random, count: usize) -> Vec<u8> {
    let mut numbers: Vec<u8> = (1..=255).collect();
    random.shuffle(&mut numbers);
    if random.one_in(2) {
        numbers.retain(|number| ![1, 255].contains(number));
        numbers.splice(0..0, random.pick(&[[1, 255], [255, 1]]));
    }
    numbers.truncate(count);
    numbers
}

/// A good description, one with a fault or, once in so many times, noise.
pub fn any_description(random: &mut Random, times: usize, longest: usize) -> Vec<u8> {
    match random.below(times) {
        0 => random.noise(longest),
        1 | 2 => good_fields(random).concat(),
        _ => {
            let fault = random.pick(&BOARD_FAULTS);
            faulty_description(random, fault, longest)
        }
    }
}

/// A description with the given fault, sometimes with others as well, cut to the longest. It cannot
/// have A1 in itself, so nothing is planted for that.
pub fn faulty_description(random: &mut Random, fault: BoardFault, longest: usize) -> Vec<u8> {
    let mut fields = good_fields(random);
    for _ in 0..random.pick(&[0, 0, 0, 1, 2, 3]) {
        let other = random.pick(&BOARD_FAULTS);
        plant(random, &mut fields, other);
    }
    plant(random, &mut fields, fault);
    let mut description = fields.concat();
    if fault == BoardFault::D1 && random.one_in(2) {
        description.truncate(random.below(description.len() + 1));
    }
    description.truncate(longest);
    description
}

/// Puts one fault into some field, or adds fields that make it; sometimes with another fault in the
/// same field.
fn plant(random: &mut Random, fields: &mut Vec<Field>, fault: BoardFault) {
    if fields.is_empty() {
        fields.push(lone_field(random));
    }
    let last = fields.len() - 1;
    let place = random.pick_or(&[0, last], |random| random.between(0, last));
    match fault {
        BoardFault::A1 => {}
        BoardFault::D1 => fields[place] = misshapen(random, &fields[place]),
        BoardFault::D2 => {
            spoil(&mut fields[place], NUMBER, 0);
            sometimes_spoil_mark(random, &mut fields[place]);
        }
        BoardFault::D3 => {
            let mut repeated = fields[place].clone();
            sometimes_spoil_mark(random, &mut repeated);
            fields.insert(random.between(place + 1, fields.len()), repeated);
        }
        BoardFault::D4 => spoil_mark(random, &mut fields[place]),
        BoardFault::D5 => add_cluster_of_both_classes(random, fields),
        BoardFault::D6 => add_beyond_the_limit(random, fields),
    }
}

/// Changes one byte of a field, if it has not been cut before that.
pub fn spoil(field: &mut Field, at: usize, byte: u8) {
    if let Some(place) = field.get_mut(at) {
        *place = byte;
    }
}

/// Gives a field a mark or class that is unknown.
fn spoil_mark(random: &mut Random, field: &mut Field) {
    let mark = random.pick_or(&[2, 3, 128, 255], Random::u8);
    spoil(field, MARK, mark.max(2));
}

fn sometimes_spoil_mark(random: &mut Random, field: &mut Field) {
    if random.one_in(3) {
        spoil_mark(random, field);
    }
}

/// The field with another tag, another length, or bytes too few or too many.
fn misshapen(random: &mut Random, field: &Field) -> Field {
    let mut field = field.clone();
    match random.below(4) {
        0 => spoil(&mut field, 0, random.pick_or(&[0, 1, 2, 3, 6, 255], Random::u8)),
        1 => {
            let length = random.pick_or(&[0, 1, 2, 3, 4, 255], Random::u8);
            spoil(&mut field, 1, length);
        }
        2 => spoil(&mut field, 2, random.pick_or(&[1, 255], Random::u8)),
        _ => {
            let length = random.below(field.len() + 3);
            field.resize(length, 1);
        }
    }
    field
}

/// Adds an R5 and an ARMv8 processor of one cluster, one somewhere behind the other.
fn add_cluster_of_both_classes(random: &mut Random, fields: &mut Vec<Field>) {
    let cluster = random.pick_or(&[1, 2, 255], |random| random.between(1, 255) as u8);
    let first = random.below(2) as u8;
    let mut at = 0;
    for class in [first, 1 - first] {
        at = random.between(at, fields.len());
        fields.insert(at, processor_field(fresh_number(random, fields, false), class, cluster));
        at += 1;
    }
}

/// Adds hosts or processors until there is one more than the limit.
fn add_beyond_the_limit(random: &mut Random, fields: &mut Vec<Field>) {
    let hosts = random.one_in(2);
    let limit = if hosts { MOST_HOSTS } else { ROWS };
    while fields.iter().filter(|field| is_host(field) == hosts).count() <= limit {
        let number = fresh_number(random, fields, hosts);
        let field = if hosts { host_field(number, 0) } else { processor_field(number, 1, 0) };
        fields.insert(random.between(0, fields.len()), field);
    }
    if let Some(one_more) = fields.iter_mut().rfind(|field| is_host(field) == hosts) {
        sometimes_spoil_mark(random, one_more);
    }
}

/// A number that no field of this kind has.
fn fresh_number(random: &mut Random, fields: &[Field], hosts: bool) -> u8 {
    let used = |number: &u8| {
        fields.iter().any(|field| is_host(field) == hosts && field.get(NUMBER) == Some(number))
    };
    let fresh: Vec<u8> = (1..=255).filter(|number| !used(number)).collect();
    random.pick(&fresh)
}

fn is_host(field: &Field) -> bool {
    field.first() == Some(&TAG_HOST)
}

/// A host or a processor.
fn lone_field(random: &mut Random) -> Field {
    let number = random.between(1, 255) as u8;
    if random.one_in(2) {
        host_field(number, 0)
    } else {
        processor_field(number, 1, 0)
    }
}

/// The largest board: 64 hosts and 32 processors, the last of them those of the first board.
pub fn full_fields() -> Vec<Field> {
    let first = first_fields();
    let (hosts, processors) = first.split_at(FIRST_HOSTS.len());
    let more_hosts = MOST_HOSTS - hosts.len();
    let more_processors = ROWS - processors.len();
    let mut fields: Vec<_> = (0..more_hosts).map(|n| host_field(100 + n as u8, 0)).collect();
    fields.extend_from_slice(hosts);
    let others = (0..more_processors as u8).map(|n| processor_field(FULL_BOARD_FROM + n, n % 2, 0));
    fields.extend(others);
    fields.extend_from_slice(processors);
    fields
}

#[cfg(test)]
mod tests {
    use super::*;
    use crate::board::Board;
    use crate::description::Description;

    #[test]
    fn good_descriptions_are_taken() {
        let mut random = Random::new(11, 0);
        for _ in 0..500 {
            let description = good_fields(&mut random).concat();
            assert!(description.len() <= 512);
            assert!(Description::read(&description).is_ok());
        }
        let Description { hosts, processors } =
            Description::read(&first_fields().concat()).unwrap();
        assert_eq!(Board::new(&hosts, &processors), Board::first());
        assert_eq!(full_fields().concat().len(), 512);
        assert!(Description::read(&full_fields().concat()).is_ok());
    }

    #[test]
    fn faulty_descriptions_reach_each_fault() {
        let mut random = Random::new(12, 0);
        for fault in &BOARD_FAULTS[1..] {
            let reached = (0..200).any(|_| {
                let description = faulty_description(&mut random, *fault, 512);
                Description::read(&description) == Err(*fault)
            });
            assert!(reached, "{fault:?}");
        }
    }
}
