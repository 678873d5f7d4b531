//! Plain rows and the lists of words that stand for them: "Words and groups".

/// Rows in a group.
pub const GROUP: usize = 31;
/// Most rows of an index, and of a Pack or Unpack.
pub const MOST_ROWS: usize = 126_976;

pub const FILL: u32 = 1 << 31;
pub const FILL_ONES: u32 = FILL | 1 << 30;
const COUNT: u32 = (1 << 30) - 1;
const ALL_ONES: u32 = (1 << 31) - 1;

/// Groups of `rows` rows.
pub fn groups_of(rows: usize) -> usize {
    rows.div_ceil(GROUP)
}

/// What a word stands for: a group, and how many times.
pub fn spread(word: u32) -> (u32, usize) {
    if word & FILL == 0 {
        return (word, 1);
    }
    let group = if word & FILL_ONES == FILL_ONES {
        ALL_ONES
    } else {
        0
    };
    (group, (word & COUNT) as usize)
}

/// Row `row`'s bit in its group.
pub fn bit_of(group: u32, row: usize) -> bool {
    group >> (30 - row % GROUP) & 1 == 1
}

fn group_of(rows: &[bool]) -> u32 {
    let bits = rows.iter().enumerate();
    bits.map(|(place, &row)| u32::from(row) << (30 - place))
        .sum()
}

fn append(list: &mut Vec<u32>, group: u32) {
    let fill = match group {
        0 => FILL,
        ALL_ONES => FILL_ONES,
        literal => return list.push(literal),
    };
    match list.last_mut() {
        Some(last) if *last & FILL_ONES == fill => *last += 1,
        _ => list.push(fill | 1),
    }
}

/// The canonical list of rows.
pub fn encode(rows: &[bool]) -> Vec<u32> {
    let mut list = Vec::new();
    for group in rows.chunks(GROUP) {
        append(&mut list, group_of(group));
    }
    list
}

/// The groups that a list stands for, canonical or not, if they are `count`.
fn expand(list: &[u32], count: usize) -> Option<Vec<u32>> {
    let mut groups = Vec::with_capacity(count);
    for &word in list {
        let (group, times) = spread(word);
        if times > count - groups.len() {
            return None;
        }
        groups.extend(std::iter::repeat_n(group, times));
    }
    (groups.len() == count).then_some(groups)
}

/// The `count` rows that a list stands for, if it is the canonical list of some: if encoding what
/// it stands for gives the list again.
pub fn decode(list: &[u32], count: usize) -> Option<Vec<bool>> {
    let mut rows = Vec::with_capacity(count + GROUP);
    for group in expand(list, groups_of(count))? {
        rows.extend((0..GROUP).map(|place| bit_of(group, place)));
    }
    if rows.split_off(count).contains(&true) {
        return None;
    }
    (encode(&rows) == list).then_some(rows)
}

/// How many rows are set.
pub fn ones(rows: &[bool]) -> usize {
    rows.iter().filter(|&&row| row).count()
}

/// The rows set in exactly one of two lists of rows.
pub fn xor(left: &[bool], right: &[bool]) -> Vec<bool> {
    left.iter().zip(right).map(|(l, r)| l != r).collect()
}
