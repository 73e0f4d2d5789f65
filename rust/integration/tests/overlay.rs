//! The example `overlay` on the polygons of tests/rust-data/overlay.txt, and on what is refused.

#[path = "../examples/overlay.rs"]
#[allow(dead_code)]
mod overlay;

const POLYGONS: &str = include_str!("../../../tests/rust-data/overlay.txt");
const ANSWER: &str = include_str!("../../../tests/rust-data/overlay.out");
const GUIDE: &str = include_str!("../../../docs/INTEGRATION.md");

/// What the example prints for a text, asked in these words; none where the text is not at hand, which it says then.
fn answer(words: &str, text: &str) -> Option<Result<String, String>> {
    let words: Vec<&str> = words.split(' ').collect();
    let answer = overlay::Request::of(&words).expect("the words are understood").answer(text);
    if !patched::AT_HAND {
        let why = answer.expect_err("there is no front end");
        assert!(why.contains("not at hand"), "{why}");
        println!("{why}");
        return None;
    }
    Some(answer)
}

/// The square without its hole is 300, the bar 80, of which 20 are the square's too, the island 1.5. A point where contours cross
/// stays, also on a straight edge: two of the last ten are such.
#[test]
fn the_stored_polygons() {
    let Some(union) = answer("FILE union even-odd", POLYGONS) else { return };
    assert_eq!(union.as_deref(), Ok(ANSWER));
    let last = |words| answer(words, POLYGONS).unwrap().unwrap().lines().last().unwrap().to_string();
    assert_eq!(last("FILE union even-odd"), "shapes 2 holes 1 points 19 area 361.5");
    assert_eq!(last("FILE union even-odd --clockwise --minimum 2"), "shapes 1 holes 1 points 16 area 360");
    assert_eq!(last("FILE intersect even-odd"), "shapes 1 holes 0 points 4 area 20");
    assert_eq!(last("FILE union negative"), "shapes 0 holes 0 points 0 area 0");
    assert_eq!(last("FILE difference non-zero"), "shapes 1 holes 0 points 10 area 360");
}

#[test]
fn the_guide_shows_them() {
    assert!(GUIDE.contains(&format!("```\n{POLYGONS}```\n")) && GUIDE.contains(&format!("```\n{ANSWER}```\n")));
}

#[test]
fn refusals_come_out_as_words() {
    let far = "subject\n0,0 524289,0 0,9";
    let Some(refused) = answer("FILE union even-odd", far) else { return };
    assert_eq!(refused, Err("refused 3 at 1: link 1 has a coordinate out of range".into()));
    assert!(answer("FILE union even-odd", "subject\n0,0 524288,0 0,9").unwrap().is_ok());
}

#[test]
fn faults_of_the_text() {
    let request = overlay::Request::of(&["FILE", "xor", "positive"]).expect("the words are understood");
    let fault = |text: &str| request.answer(text).expect_err("it is at fault");
    assert_eq!(fault("\n0,0 1,0 0,1"), "line 2: a line `subject` or `clip` comes first");
    for word in ["3", "3,4,5", "a,4", "1073741824,0", "99999999999,0"] {
        assert!(fault(&format!("clip\n0,0 {word} 0,1")).starts_with(&format!("line 2: {word} is no point; ")));
    }
}

#[test]
fn words_that_are_not_understood() {
    for words in ["FILE union", "FILE onion even-odd", "FILE union odd", "FILE union even-odd --minimum"] {
        assert!(overlay::Request::of(&words.split(' ').collect::<Vec<_>>()).is_none(), "{words}");
    }
}
