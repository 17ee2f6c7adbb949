//! What the program `list` prints (document 01, "The program `list`"), which is "always straight"
//! (request U2).

use super::{bits, list, number, read};
use l1oc::Phase::Straight;

pub fn report(bytes: &[u8]) -> String {
    let count = 8 * bytes.len();
    let mut starts = vec![0; count / 125 + 1];
    let Ok(found) = list(bytes, count, Straight, &mut starts) else {
        return String::from("refused,1\n");
    };
    let mut text = String::from("place,type,number,kp,a,omb,result\n");
    for start in &starts[..found] {
        let place = *start as usize;
        // Bits in a string count from 1.
        let field =
            |first: usize, last: usize| number(&bits(bytes, place + first - 1, place + last));
        let (kind, satellite) = (field(13, 18), field(19, 24));
        let (correction, next, time) = (field(32, 33), field(34, 34), field(35, 50));
        let reading = read(bytes, count, Straight, place);
        let result = reading.map_or_else(|refusal| refusal.number, |_| 0);
        text += &format!("{place},{kind},{satellite},{correction},{next},{time},{result}\n");
    }
    text
}
