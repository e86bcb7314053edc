// The benchmark's listing as a plain Rust program: the same book, the same walk, no proofs.
use std::fmt;

#[derive(Clone, Copy, PartialEq, Eq, PartialOrd, Ord)]
struct Ruling {
    bytes: [u8; 16],
}

impl Ruling {
    const EMPTY: Ruling = Ruling { bytes: [0; 16] };

    fn from_points(points: &[u8]) -> Ruling {
        let mut ruling = Ruling::EMPTY;
        for &point in points {
            ruling.insert(point);
        }
        ruling
    }

    fn points_where(size: u8, test: impl Fn(u8) -> bool) -> Ruling {
        let mut ruling = Ruling::EMPTY;
        for point in 0..size.min(128) {
            if test(point) {
                ruling.insert(point);
            }
        }
        ruling
    }

    fn has(self, point: u8) -> bool {
        point < 128 && (self.bytes[(point >> 3) as usize] >> (point & 7)) & 1 == 1
    }

    fn insert(&mut self, point: u8) {
        if point < 128 {
            self.bytes[(point >> 3) as usize] |= 1 << (point & 7);
        }
    }

    fn first_from(self, start: u8) -> Option<u8> {
        (start..128).find(|&point| self.has(point))
    }

    fn points(self) -> Points {
        Points { ruling: self, next: 0 }
    }

    fn combined(self, other: Ruling, operator: impl Fn(u8, u8) -> u8) -> Ruling {
        let bytes = std::array::from_fn(|i| operator(self.bytes[i], other.bytes[i]));
        Ruling { bytes }
    }

    fn union(self, other: Ruling) -> Ruling {
        self.combined(other, |mine, theirs| mine | theirs)
    }

    fn intersection(self, other: Ruling) -> Ruling {
        self.combined(other, |mine, theirs| mine & theirs)
    }

    fn difference(self, other: Ruling) -> Ruling {
        self.combined(other, |mine, theirs| mine & !theirs)
    }

    fn is_part_of(self, other: Ruling) -> bool {
        self.difference(other) == Ruling::EMPTY
    }

    fn is_disjoint_from(self, other: Ruling) -> bool {
        self.intersection(other) == Ruling::EMPTY
    }
}

struct Points {
    ruling: Ruling,
    next: u8,
}

impl Iterator for Points {
    type Item = u8;

    fn next(&mut self) -> Option<u8> {
        let point = self.ruling.first_from(self.next)?;
        self.next = point + 1;
        Some(point)
    }
}

impl fmt::Display for Ruling {
    fn fmt(&self, f: &mut fmt::Formatter) -> fmt::Result {
        f.debug_set().entries(self.points()).finish()
    }
}

struct Entry {
    point: u8,
    supporters: Ruling,
    strikers: Ruling,
}

struct Book {
    size: u8,
    entries: Vec<Entry>,
}

impl Book {
    fn new(size: u8) -> Book {
        Book { size, entries: Vec::with_capacity(256) }
    }

    fn enter(&mut self, point: u8, supporters: &[u8], strikers: &[u8]) {
        self.entries.push(Entry {
            point,
            supporters: Ruling::from_points(supporters),
            strikers: Ruling::from_points(strikers),
        });
    }

    fn derives(&self, point: u8, x: Ruling, y: Ruling) -> bool {
        self.entries.iter().any(|e| {
            e.point == point && e.supporters.is_part_of(x) && e.strikers.is_disjoint_from(y)
        })
    }

    fn reads(&self, point: u8, other: u8) -> bool {
        self.entries
            .iter()
            .any(|e| e.point == point && (e.supporters.has(other) || e.strikers.has(other)))
    }
}

struct Step {
    first: u16,
    lower: Ruling,
}

struct Marker {
    book: Book,
    chapters: [u8; 128],
}

impl Marker {
    fn fits(&self) -> bool {
        (0..self.book.size).all(|a| {
            (0..self.book.size).all(|b| {
                !self.book.reads(a, b) || self.chapters[b as usize] <= self.chapters[a as usize]
            })
        })
    }

    fn points_in(&self, chapter: u8) -> Ruling {
        Ruling::points_where(self.book.size, |point| self.chapters[point as usize] == chapter)
    }

    fn width(&self, chapter: u8) -> usize {
        (0..self.book.size).filter(|&a| self.chapters[a as usize] == chapter).count()
    }

    fn derives_in(&self, points: Ruling, lower: Ruling, point: u8, x: Ruling, y: Ruling) -> bool {
        points.has(point)
            && self.book.derives(
                point,
                lower.union(points.intersection(x)),
                lower.union(points.intersection(y)),
            )
    }

    fn closure(&self, points: Ruling, lower: Ruling, y: Ruling) -> Ruling {
        let size = self.book.size;
        climb(size, |x| {
            Ruling::points_where(size, |point| self.derives_in(points, lower, point, x, y))
        })
    }

    fn list(&self, rows: &mut [Ruling]) -> Option<(usize, u32)> {
        if !self.fits() || (0..16).any(|chapter| self.width(chapter) > 12) {
            return None;
        }
        let levels: Vec<u8> = (0..16).filter(|&chapter| self.width(chapter) > 0).collect();
        let mut steps = Vec::with_capacity(16);
        steps.push(Step { first: 0, lower: Ruling::EMPTY });
        let (mut count, mut effort) = (0, 0);
        'walk: while let Some(Step { first, lower }) = steps.pop() {
            let number = levels[steps.len()];
            let points = self.points_in(number);
            for candidate in first..1 << self.width(number) {
                effort += 1;
                if effort > 65_536 {
                    return None;
                }
                let part = spread(points, candidate);
                if part != self.closure(points, lower, part) {
                    continue;
                }
                let ruling = lower.union(part);
                if steps.len() + 1 < levels.len() {
                    steps.push(Step { first: candidate + 1, lower });
                    steps.push(Step { first: 0, lower: ruling });
                    continue 'walk;
                }
                insert_in_order(rows, count, ruling);
                count += 1;
            }
        }
        (count <= rows.len()).then_some((count, effort))
    }
}

fn climb(turns: u8, step: impl Fn(Ruling) -> Ruling) -> Ruling {
    let mut x = Ruling::EMPTY;
    for _ in 0..turns {
        let next = step(x);
        if next.is_part_of(x) {
            return x;
        }
        x = next;
    }
    x
}

fn spread(points: Ruling, number: u16) -> Ruling {
    let mut subset = Ruling::EMPTY;
    for (point, digit) in points.points().zip(0..16u8) {
        if (number >> digit) & 1 == 1 {
            subset.insert(point);
        }
    }
    subset
}

fn insert_in_order(rows: &mut [Ruling], count: usize, row: Ruling) -> Option<usize> {
    if count >= rows.len() {
        return None;
    }
    let behind = rows[..count].iter().rev().take_while(|later| row < **later).count();
    let place = count - behind;
    rows.copy_within(place..count, place + 1);
    rows[place] = row;
    Some(count + 1)
}

fn main() {
    let mut marker = Marker { book: Book::new(85), chapters: [0; 128] };
    marker.chapters[1] = 1;
    for pair in 0..3u8 {
        let a = 2 + pair * 2;
        marker.book.enter(a, &[], &[a + 1]);
        marker.book.enter(a + 1, &[], &[a]);
        marker.chapters[a as usize] = 2 + pair;
        marker.chapters[a as usize + 1] = 2 + pair;
    }
    let mut first = 8;
    for step in 0..11u8 {
        let width = 12 - step;
        let mut before = 7;
        for point in first..first + width {
            marker.book.enter(point, &[before], &[2]);
            marker.book.enter(point, &[], &[4, before]);
            marker.book.enter(point, &[3, 6], &[]);
            marker.chapters[point as usize] = 5 + step;
            before = point;
        }
        first += width;
    }
    while marker.book.entries.len() < 256 {
        marker.book.enter(8, &[3, 6], &[]);
    }
    let mut rows = [Ruling::EMPTY; 64];
    match marker.list(&mut rows) {
        None => println!("denied"),
        Some((count, effort)) => {
            println!("{count} rulings, effort {effort}");
            for row in &rows[..count] {
                println!("{row}");
            }
        }
    }
}
