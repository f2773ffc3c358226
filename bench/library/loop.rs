//! What loop.c does, by the loop of node_loop.rs.

mod node_loop;

use node_loop::Network;
use std::sync::{mpsc, Arc, Barrier, Mutex};

const PLAN: &[u8] = b"halving 1\ngroup 4 1 10\nend\n";
const NODES: usize = 4;
const ROUNDS: usize = 160;

struct Shared {
    begin: Barrier,
    sent: Mutex<Vec<Vec<u8>>>, // in even and odd rounds, from, to
    acts: Mutex<Vec<Option<u64>>>,
}

struct Links {
    id: usize,
    round: Option<usize>,
    all: Arc<Shared>,
    ended: mpsc::Sender<()>,
}

impl Links {
    fn now(&self) -> usize {
        self.round.unwrap_or(0)
    }

    fn place(&self, round: usize, from: usize, to: usize) -> usize {
        (round % 2 * NODES + from) * NODES + to
    }
}

impl Network for Links {
    fn wait_for_tick(&mut self) -> u64 {
        self.all.begin.wait();
        self.round = Some(self.round.map_or(0, |t| t + 1));
        if self.now() == ROUNDS {
            self.ended.send(()).unwrap();
            loop {
                std::thread::park();
            }
        }
        1 + u64::from(self.id == 1 && self.now() == 60)
    }

    fn receive(&mut self, from: u32) -> Vec<u8> {
        let at = self.place(self.now() + 1, from as usize, self.id);
        self.all.sent.lock().unwrap()[at].clone()
    }

    fn send_to(&mut self, to: u32, message: &[u8]) {
        let now = self.now();
        let lies = self.id == 3 || self.id == 2 && (100..130).contains(&now);
        let lie = |i| (97 * now + 31 * to as usize + 7 * i) as u8;
        let said = (0..message.len()).map(|i| if lies { lie(i) } else { message[i] }).collect();
        let at = self.place(now, self.id, to as usize);
        self.all.sent.lock().unwrap()[at] = said;
    }

    fn act(&mut self, number: u64) {
        self.all.acts.lock().unwrap()[self.now() * NODES + self.id] = Some(number);
    }
}

fn main() {
    let all = Arc::new(Shared {
        begin: Barrier::new(NODES),
        sent: Mutex::new(vec![Vec::new(); 2 * NODES * NODES]),
        acts: Mutex::new(vec![None; ROUNDS * NODES]),
    });
    let (ended, waits) = mpsc::channel();
    for id in 0..NODES {
        let mut links = Links { id, round: None, all: all.clone(), ended: ended.clone() };
        std::thread::spawn(move || node_loop::run(PLAN, id as u32, &mut links));
    }
    for _ in 0..NODES {
        waits.recv().unwrap();
    }
    for (t, row) in all.acts.lock().unwrap().chunks(NODES).enumerate() {
        let words: Vec<String> = row[..3]
            .iter()
            .map(|act| act.map_or("-".to_string(), |number| number.to_string()))
            .collect();
        println!("{t} {}", words.join(" "));
    }
}
