//! How elements and lists are printed, and what fills a lent buffer beforehand.

use tower::Level;

/// Lists of more elements are printed as count and digest.
const LONGEST_LIST: usize = 32;

const FILLING: u64 = 0xa5a5_a5a5;

pub fn element<F: Level>(element: F) -> String {
    let digits = F::width().div_ceil(4);
    format!("{:0digits$x}", element.number())
}

pub fn element_or_none<F: Level>(answer: Option<F>) -> String {
    answer.map_or_else(|| "none".to_string(), element)
}

pub fn list<F: Level>(elements: &[F]) -> String {
    if elements.is_empty() {
        return "-".to_string();
    }
    if elements.len() > LONGEST_LIST {
        return format!("{}:{:016x}", elements.len(), digest(elements));
    }
    let words: Vec<String> = elements.iter().map(|&x| element(x)).collect();
    words.join(" ")
}

fn digest<F: Level>(elements: &[F]) -> u64 {
    elements.iter().fold(0u64, |sum, x| {
        (sum.rotate_left(5) ^ x.number()).wrapping_mul(0x517c_c1b7_2722_0a95)
    })
}

pub fn filled<F: Level>(length: usize) -> Vec<F> {
    vec![F::from_number(FILLING); length]
}
