//! The smallest list of lines that still shows a difference.

/// Leaves out lines, then bytes, as long as the difference shows.
pub fn smallest(mut lines: Vec<Vec<u8>>, differs: impl Fn(&[Vec<u8>]) -> bool) -> Vec<Vec<u8>> {
    loop {
        let smaller = without_a_line(&lines).chain(without_a_byte(&lines)).find(|fewer| differs(fewer));
        match smaller {
            Some(fewer) => lines = fewer,
            None => return lines,
        }
    }
}

fn without_a_line(lines: &[Vec<u8>]) -> impl Iterator<Item = Vec<Vec<u8>>> {
    (0..lines.len()).map(move |n| [&lines[..n], &lines[n + 1..]].concat())
}

fn without_a_byte(lines: &[Vec<u8>]) -> impl Iterator<Item = Vec<Vec<u8>>> {
    let places = lines.iter().enumerate().flat_map(|(n, line)| (0..line.len()).map(move |k| (n, k)));
    places.map(move |(n, k)| {
        let mut fewer = lines.to_vec();
        fewer[n].remove(k);
        fewer
    })
}
