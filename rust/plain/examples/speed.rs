//! How many feeds the direct feed does in a second, on generated lists.

use plain::generate::{self, Rng};
use plain::{feed, start, Profile};
use std::time::Instant;

fn main() {
    let mut rng = Rng::new(1);
    let lists: Vec<_> = (0..4000)
        .map(|_| {
            let page = generate::sound_page(&mut rng);
            let list = generate::any_calls(&mut rng, &page, 8);
            (page, list)
        })
        .collect();
    let begin = Instant::now();
    let mut feeds = 0u64;
    let mut bytes = 0u64;
    let mut reported = 0u64;
    for _ in 0..5 {
        for (page, list) in &lists {
            let mut page = *page;
            let (_, mut board) = start(Profile::Full, &page);
            let mut room = [0; 230];
            for call in list {
                let fed = feed(call.port, &board, &call.chunk, &mut room[..call.room], &mut page);
                board = fed.board;
                feeds += 1;
                bytes += fed.taken as u64;
                reported += u64::from(fed.number == 0);
            }
        }
    }
    let seconds = begin.elapsed().as_secs_f64();
    println!(
        "{feeds} feeds, {bytes} bytes, {reported} messages in {seconds:.2} s: {:.0} a second",
        feeds as f64 / seconds
    );
}
