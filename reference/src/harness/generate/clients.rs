//! Message sequences as published boot code sends them: mailbox messages of 60 bytes, with zeros or
//! stale bytes behind the structure.

use crate::access::ENTRY_BYTES;
use crate::harness::generate::lists::{entry, list_of};
use crate::harness::generate::random::Random;
use crate::manager::GEN_IGN_BOOTVECTOR;
use crate::message::{Kind, FLAG_REQ_ACK_ON_PROCESSED, LONGEST_MESSAGE};
use crate::wait::Wait;

const R5_CORES: [u8; 2] = [1, 2];
const R5_HALT: u32 = 0x1;
const R5_VECTOR: u32 = 0x41C0_0080;
const A53_CORES: [u8; 2] = [32, 33];
const A53_VECTOR: u32 = 0x8000_0000;
const SECURE_HOST: u8 = 10;

/// A message and the host of the channel it came by.
pub type Sent = (u8, Vec<u8>);

/// A list that lets these clients work: host 10 is the recovery master of the application cores.
pub fn client_list() -> Vec<u8> {
    list_of(&client_entries())
}

/// The entries of that list.
pub fn client_entries() -> [[u8; ENTRY_BYTES]; 4] {
    [
        entry(1, [3, 5, 12, 4]),
        entry(2, [3, 6, 12, 4]),
        entry(32, [10, 12, 13, 4]),
        entry(33, [10, 13, 12, 0]),
    ]
}

/// Status words as such a system shows them: idle at first, then the core's wait-for-interrupt and
/// its reset bits come and go.
pub fn client_status(random: &mut Random) -> Vec<u32> {
    let idle = random.between(0, 30);
    (0..255)
        .map(|at| match at {
            _ if at < idle => 0,
            _ if random.one_in(40) => 0x2,
            _ => 0x13,
        })
        .collect()
}

/// One client: who it is, how it numbers and pads, and what it has sent.
struct Client {
    host: u8,
    sequence: u8,
    step: u8,
    filler: u8,
    flags: u32,
    sent: Vec<Sent>,
}

impl Client {
    fn new(host: u8, sequence: u8, step: u8, filler: u8) -> Client {
        Client { host, sequence, step, filler, flags: FLAG_REQ_ACK_ON_PROCESSED, sent: Vec::new() }
    }

    fn send(&mut self, kind: Kind, fields: &[u8]) {
        let mut message = kind.number().to_le_bytes().to_vec();
        message.extend([self.host, self.sequence]);
        message.extend(self.flags.to_le_bytes());
        message.extend(fields);
        message.resize(LONGEST_MESSAGE, self.filler);
        self.sequence = self.sequence.wrapping_add(self.step);
        self.sent.push((self.host, message));
    }

    fn request(&mut self, core: u8) {
        self.send(Kind::Request, &[core]);
    }

    fn release(&mut self, core: u8) {
        self.send(Kind::Release, &[core]);
    }

    fn handover(&mut self, core: u8, host: u8) {
        self.send(Kind::Handover, &[core, host]);
    }

    fn get_status(&mut self, core: u8) {
        self.send(Kind::GetStatus, &[core]);
    }

    fn set_config(&mut self, core: u8, vector: u32, set: u32, clear: u32) {
        self.send(Kind::SetConfig, &packed(core, &[vector, 0, set, clear]));
    }

    fn set_control(&mut self, core: u8, set: u32, clear: u32) {
        self.send(Kind::SetControl, &packed(core, &[set, clear]));
    }

    fn authenticate(&mut self, address: u32) {
        self.send(Kind::AuthBoot, &packed(0, &[address, 0])[1..]);
    }

    fn wait(&mut self, core: u8, matches: u8, set_all: u32) {
        let wait = Wait {
            waits: 255,
            matches,
            delay_per_check: 255,
            delay_before: 255,
            set_all,
            set_any: 0,
            clear_all: 0,
            clear_any: 0,
        };
        let mut fields = vec![core];
        fields.extend(wait.to_bytes());
        self.send(Kind::WaitStatus, &fields);
    }
}

fn packed(core: u8, words: &[u32]) -> Vec<u8> {
    let mut fields = vec![core];
    fields.extend(words.iter().flat_map(|word| word.to_le_bytes()));
    fields
}

/// The Linux remote processor driver: both R5 cores in lockstep, started, stopped and released.
pub fn linux_r5(host: u8) -> Vec<Sent> {
    let mut client = Client::new(host, 0, 0, 0);
    for core in R5_CORES {
        client.request(core);
        client.get_status(core);
        client.set_control(core, R5_HALT, 0);
        client.set_config(core, 0, 0, 0);
    }
    for core in R5_CORES {
        client.set_control(core, R5_HALT, 0);
        client.set_config(core, 0, 0x3800, 0x300);
    }
    client.set_config(R5_CORES[0], 0, 0x100, 0);
    client.set_config(R5_CORES[0], R5_VECTOR, 0, 0);
    for core in R5_CORES.into_iter().rev() {
        client.set_control(core, 0, R5_HALT);
        client.get_status(core);
    }
    for core in R5_CORES {
        client.set_control(core, R5_HALT, 0);
        client.release(core);
    }
    client.sent
}

/// U-Boot on an R5 core: each operation between request and release, with stale bytes behind.
pub fn uboot_r5(host: u8, core: u8) -> Vec<Sent> {
    // Sequence numbers alternate between F5 and 0A.
    let mut client = Client::new(host, 0xF5, 0x15, 0xA5);
    client.request(core);
    client.set_config(core, 0, 0, 0x300 | GEN_IGN_BOOTVECTOR);
    client.release(core);
    client.sequence = 0xF5;
    client.request(core);
    client.set_config(core, R5_VECTOR, 0x200, 0);
    client.set_control(core, 0, R5_HALT);
    client.release(core);
    client.sent
}

/// U-Boot on an application core: hands it to the secure host, then releases a core that it does
/// not hold.
pub fn uboot_a53(host: u8) -> Vec<Sent> {
    let mut client = Client::new(host, 0xF5, 0x15, 0x5A);
    let [core, other] = A53_CORES;
    client.request(core);
    client.set_config(core, A53_VECTOR, 0x100, 0);
    client.handover(core, SECURE_HOST);
    client.release(other);
    client.authenticate(A53_VECTOR);
    client.sent
}

/// Trusted Firmware-A: a core is switched on twice and never released, and switched off without
/// asking for answers. A look at the other core then shows the control word that they share.
pub fn trusted_firmware(core: u8, other: u8) -> Vec<Sent> {
    let mut client = Client::new(SECURE_HOST, 1, 1, 0);
    for _ in 0..2 {
        client.request(core);
        client.set_config(core, A53_VECTOR, 0, 0);
        client.flags = 0;
        client.set_control(core, 0, 0x1);
        client.wait(core, 100, 0x2);
        client.set_control(core, 0x2, 0);
        client.set_control(core, 0x100, 0);
        client.wait(core, 2, 0x10);
        client.set_control(core, 0, 0x100);
        client.set_control(core, 0x1, 0);
        client.wait(core, 1, 0x20);
        client.flags = FLAG_REQ_ACK_ON_PROCESSED;
        client.get_status(other);
    }
    client.sent
}

/// One message of each type: `host` boots the core and hands it to `next`, which releases it.
pub fn boot_cycle(random: &mut Random, core: u8, host: u8, next: u8) -> Vec<Sent> {
    let mut client = Client::new(host, random.u8(), 1, 0);
    client.request(core);
    client.get_status(core);
    client.set_config(core, random.u32() & !0x7F, 0x1, 0x2);
    client.set_control(core, 0x1, 0x2);
    client.authenticate(random.u32());
    client.wait(core, random.between(1, 4) as u8, 0x2);
    client.handover(core, next);
    client.host = next;
    client.release(core);
    client.sent
}

/// All of these clients at once, each in its own order.
pub fn mixed_clients(random: &mut Random) -> Vec<Sent> {
    let [first, second] = A53_CORES;
    let mut queues = vec![
        linux_r5(12),
        uboot_r5(5, 1),
        uboot_r5(6, 2),
        uboot_a53(random.pick(&[12, 13, 4])),
        trusted_firmware(first, second),
        trusted_firmware(second, first),
    ];
    queues.iter_mut().for_each(|queue| queue.reverse());
    let mut sent = Vec::new();
    while !queues.is_empty() {
        let choice = random.below(queues.len());
        for _ in 0..random.between(1, 12) {
            sent.extend(queues[choice].pop());
        }
        queues.retain(|queue| !queue.is_empty());
    }
    sent
}

#[cfg(test)]
mod tests {
    use super::*;
    use crate::harness::generate::recordings::{field, message_field, status_field};
    use crate::session::{lines_of, TAG_LIST};

    /// The lines of a client that works alone, with its cores idle.
    fn lines(sent: &[Sent]) -> Vec<String> {
        let mut recording = field(TAG_LIST, &client_list());
        recording.extend(status_field(&[0x33; 255]));
        for (channel, message) in sent {
            recording.extend(message_field(*channel, message));
        }
        lines_of(&recording).lines().skip(1).map(str::to_string).collect()
    }

    fn outcomes(sent: &[Sent]) -> Vec<String> {
        lines(sent).iter().map(|line| line[..2].to_string()).collect()
    }

    #[test]
    fn clients_alone_are_served() {
        for sent in [linux_r5(12), uboot_r5(5, 1), trusted_firmware(32, 33)] {
            let outcomes = outcomes(&sent);
            assert_eq!(outcomes.len(), sent.len());
            assert!(outcomes.iter().all(|outcome| outcome == "OK"), "{outcomes:?}");
        }
    }

    #[test]
    fn uboot_is_refused_what_it_does_not_hold() {
        assert_eq!(outcomes(&uboot_a53(12)), ["OK", "OK", "OK", "N7", "N5"]);
    }

    /// Bits 0 and 1 are left set by switching off, and bit 8 is not.
    #[test]
    fn switching_off_one_core_shows_in_the_other() {
        let lines = lines(&trusted_firmware(32, 33));
        let answers: Vec<_> = lines.iter().filter(|line| line.contains(" 00c4")).collect();
        let expected = [
            "OK 0 0 00c40a0b02000000210000000000000000000000000300000033000000",
            "OK 0 0 00c40a1602000000210000000000000000000000000300000033000000",
        ];
        assert_eq!(answers, expected);
    }

    #[test]
    fn cycles_have_one_message_of_each_type() {
        let cycle = boot_cycle(&mut Random::new(1, 0), 32, 10, 12);
        let mut types: Vec<_> = cycle.iter().map(|sent| (sent.1[1], sent.1[0])).collect();
        types.sort();
        types.dedup();
        assert_eq!(types.len(), 8);
    }
}
