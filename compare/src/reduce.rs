// Makes a scene that shows a difference smaller as long as the same difference stays, and prints it.
use crate::judge::Difference;
use crate::scene::{Fields, Scene, Texts};

type Seen<'a> = &'a dyn Fn(&Scene) -> Option<Difference>;
type Shows<'a> = &'a dyn Fn(&Scene) -> bool;
type Part = fn(&mut Scene) -> &mut Vec<u8>;

/// What is made shorter and emptier: the image, the text to write, the image with one text block, and the one with a block to invert.
const PARTS: [Part; 4] = [|s| &mut s.image, |s| &mut s.texts.text, |s| &mut s.texts.image, |s| &mut s.inversion.image];

/// The smallest scene found that still shows the difference.
fn reduced(scene: Scene, seen: Seen) -> Scene {
    let Some(first) = seen(&scene) else { return scene };
    let mut best = scene;
    let shows = |s: &Scene| seen(s).is_some_and(|d| d.what == first.what);
    for ask in best.asks.clone() {
        let one = Scene { asks: vec![ask], ..best.clone() };
        if shows(&one) {
            best = one;
            break;
        }
    }
    fewer_places(&mut best, &shows);
    loop {
        let before = weights(&mut best);
        for part in PARTS {
            shorter(&mut best, part, &shows);
            emptier(&mut best, part, &shows);
        }
        if before == weights(&mut best) {
            return best;
        }
    }
}

/// Of each part its length, and how many of its bytes are not zero.
fn weights(scene: &mut Scene) -> [(usize, usize); 4] {
    PARTS.map(|part| {
        let bytes = part(scene);
        (bytes.len(), bytes.iter().filter(|&&b| b != 0).count())
    })
}

/// Texts are read nowhere in the image, or at one place.
fn fewer_places(best: &mut Scene, shows: Shows) {
    let places: Vec<Vec<u64>> = [Vec::new()].into_iter().chain(best.texts.places.iter().map(|&place| vec![place])).collect();
    for places in places {
        let next = Scene { texts: Texts { places, ..best.texts.clone() }, ..best.clone() };
        if shows(&next) {
            *best = next;
            return;
        }
    }
}

/// A mode that is refused is so on an empty image too, which cannot be made shorter.
fn shorter(best: &mut Scene, part: Part, shows: Shows) {
    let mut step = part(best).len();
    while step > 0 && !part(best).is_empty() {
        let mut next = best.clone();
        let bytes = part(&mut next);
        bytes.truncate(bytes.len().saturating_sub(step));
        if shows(&next) {
            *best = next;
        } else {
            step /= 2;
        }
    }
}

fn emptier(best: &mut Scene, part: Part, shows: Shows) {
    for width in [64, 8, 1] {
        for at in (0..part(best).len()).step_by(width) {
            let mut next = best.clone();
            let bytes = part(&mut next);
            let end = (at + width).min(bytes.len());
            if bytes[at..end].iter().all(|&b| b == 0) {
                continue;
            }
            bytes[at..end].fill(0);
            if shows(&next) {
                *best = next;
            }
        }
    }
}

/// Prints the smallest scene and what it shows.
pub fn tell_smallest(scene: Scene, seen: Seen) {
    let small = reduced(scene, seen);
    let Some(difference) = seen(&small) else { return };
    println!("  smallest: {}: {}", difference.what, difference.detail);
    if difference.what.contains("text block") {
        return tell_texts(&small);
    }
    if difference.what.contains("inverse") {
        return tell_inversion(&small);
    }
    if difference.what.contains("block") || difference.what.contains("fields") {
        tell_fields("fields", &small.fields);
        tell_fields("padded fields", &small.padded);
    }
    tell(&small);
}

fn tell_fields(what: &str, f: &Fields) {
    println!("  {what} {:?}", f.block);
    println!("  references {:x?} words {:x?} room {}", f.refs, &f.words[..f.words.len().min(20)], f.room);
}

/// The text to write, and the images that texts are read in.
fn tell_texts(scene: &Scene) {
    let t = &scene.texts;
    let id = if t.metadata { "##MD" } else { "##TX" };
    println!("  written \"{}\" as {id} room {}, read back at {}", t.text.escape_ascii(), t.room, t.before);
    println!("  read at {} image of {} bytes", t.address, t.image.len());
    tell_words(&t.image);
    println!("  read at {:?} image of {} bytes", t.places, scene.image.len());
    tell_words(&scene.image);
}

/// The two places where an inverse is asked for.
fn tell_inversion(scene: &Scene) {
    let v = &scene.inversion;
    println!("  inverted room {}, applied limit {}", v.room, v.limit);
    for (image, address) in [(&v.image, v.address), (&scene.image, scene.address)] {
        println!("  at {address} image of {} bytes", image.len());
        tell_words(image);
    }
}

/// The scene in words: what is asked, and the image's words that are not zero.
fn tell(scene: &Scene) {
    println!("  address {} limit {} image of {} bytes", scene.address, scene.limit, scene.image.len());
    for ask in &scene.asks {
        let (text, mode) = (String::from_utf8_lossy(&ask.text), ask.mode);
        println!("  asked {:?} text {text:?} room {} width {} edition {}", ask.value, ask.room, mode.width, mode.edition);
    }
    tell_words(&scene.image);
}

fn tell_words(image: &[u8]) {
    for (i, word) in image.chunks(8).enumerate().filter(|(_, w)| w.iter().any(|&b| b != 0)) {
        let hex: Vec<String> = word.iter().map(|b| format!("{b:02x}")).collect();
        println!("  {:6} {} {}", 8 * i, hex.join(" "), String::from_utf8_lossy(word).escape_debug());
    }
}
