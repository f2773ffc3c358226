//! The loop of a node that makes the proved step. What is behind `Network` is yours.

use counterlab::Answer;

pub trait Network {
    /// Waits for a tick, and never for a message; how many came.
    fn wait_for_tick(&mut self) -> u64;
    /// The last message that came from a node, empty if there is none, or one of over 128 bytes.
    fn receive(&mut self, from: u32) -> Vec<u8>;
    fn send_to(&mut self, to: u32, message: &[u8]);
    fn act(&mut self, number: u64);
}

/// It ends only by a plan or an id that is refused.
pub fn run(plan: &[u8], id: u32, network: &mut impl Network) -> Result<(), Answer> {
    let all = counterlab::plan(plan)?;
    let quorum = all.nodes - all.faults;
    let sizes = (0..all.nodes)
        .map(|u| Ok(counterlab::state_bytes(plan, u)? as usize))
        .collect::<Result<Vec<usize>, Answer>>()?;
    let mut state = vec![0; counterlab::state_bytes(plan, id)? as usize]; // any bytes will do
    let mut left = all.bound;
    loop {
        let ticks = network.wait_for_tick();
        let before = counterlab::output(plan, id, &state);
        let (mut packet, mut heard, mut agreeing) = (Vec::new(), 1, 1);
        for u in 0..all.nodes {
            let message = if u == id { Vec::new() } else { network.receive(u) };
            packet.extend([0, message.len() as u8]);
            packet.extend_from_slice(&message);
            if u != id && message.len() == sizes[u as usize] {
                let its = counterlab::output(plan, u, &message);
                heard += 1;
                agreeing += u32::from(its.is_ok() && its == before);
            }
        }
        let stepped = counterlab::step(plan, id, &mut state, &packet).is_ok();
        let shown = counterlab::output(plan, id, &state);
        let agreed = match (before, shown) {
            (Ok(old), Ok(new)) => {
                stepped && agreeing >= quorum && new == (old + 1) % all.modulus
            }
            _ => false,
        };
        let few = heard < quorum;
        left = if ticks != 1 || few || !stepped || left > all.bound || (left == 0 && !agreed) {
            all.bound // a disturbance, or a premise that failed
        } else {
            left.saturating_sub(1)
        };
        for u in (0..all.nodes).filter(|u| *u != id) {
            network.send_to(u, &state); // s + w after the tick
        }
        if let (0, true, Ok(number)) = (left, agreed, shown) {
            network.act(number);
        }
    }
}
