//! Good routines that do interesting things: loops that drain late, stale
//! pointers, stores at slot edges and around 2^32, ALLOC and FREE in varied
//! orders, LOADs of headers and of slot 0, PUTs past their object.
//!
//! A routine is a row of fragments. Most of what a fragment does is allowed, so
//! that a run gets far; how often it is not is the routine's boldness.

use crate::file::{Object, Routine, Version};
use crate::gen::random::Random;
use crate::gen::soup;
use crate::instruction::Instruction::{self, *};
use crate::layout::extent;

/// Temporaries 0 to 5 are for any use, and 5 is zero in a list's loops; 6 and 7
/// count and hold one in loops; 8 to 13 hold heap pointers; 14 and 15 hold the
/// head and the next block of a list.
const ZERO: u8 = 5;
const COUNTER: u8 = 6;
const ONE: u8 = 7;
const FIRST_POINTER: u8 = 8;
const POINTERS: u8 = 6;
const HEAD: u8 = 14;
const NEXT: u8 = 15;

/// What a fragment believes about a pointer. A loop or a jump may make it
/// wrong, which is as interesting.
#[derive(Clone, Copy, PartialEq, Eq)]
enum Pointer {
    Empty,
    Live { site: usize, size: u32 },
    Stale { site: usize, size: u32 },
}

/// A routine in the making.
struct Sketch {
    random: Random,
    objects: Vec<Object>,
    sets: Vec<Vec<usize>>,
    code: Vec<Instruction>,
    pointers: [Pointer; POINTERS as usize],
    /// How many of a hundred things are such that they may be forbidden.
    boldness: u32,
}

type Fragment = fn(&mut Sketch);

/// The fragments with their weights.
const FRAGMENTS: [(u32, Fragment); 18] = [
    (14, Sketch::store_into_object),
    (10, Sketch::put),
    (6, Sketch::put_past_into_the_next),
    (8, Sketch::drain),
    (10, Sketch::make_block),
    (8, Sketch::give_block_back),
    (5, Sketch::store_through_stale),
    (3, Sketch::give_back_anything),
    (6, Sketch::read_header),
    (3, Sketch::write_header),
    (3, Sketch::wild_store),
    (3, Sketch::wild_load),
    (6, Sketch::calculate),
    (5, Sketch::skip_forward),
    (5, Sketch::input_or_output),
    (3, Sketch::chain_of_blocks),
    (3, Sketch::fragment_the_heap),
    (3, Sketch::fill_the_heap),
];

/// A good routine. Nearly all are taken; a few have globals that end too high.
pub fn routine(random: &mut Random) -> Routine {
    match random.below(10) {
        0 => random_soup(random),
        _ => fragments(random),
    }
}

/// Instructions at random, each valid in itself.
fn random_soup(random: &mut Random) -> Routine {
    let objects = soup::objects(random, 8);
    let sets = soup::sets(random, objects.len(), 6);
    let count = random.between(1, 40) as usize;
    let setting = soup::Setting {
        objects: &objects,
        sets: sets.len(),
        instructions: count,
        version: Version::Routine,
    };
    let code = (0..count).map(|_| soup::instruction(random, &setting));
    Routine { code: code.collect(), objects, sets }
}

fn fragments(random: &mut Random) -> Routine {
    let most = random.pick(&[3, 6, 6, 12, 40]);
    let mut objects = soup::objects(random, most);
    objects.push(Object::Site);
    objects.push(Object::Global { size: soup::size(random) });
    let mut sets = soup::sets(random, objects.len(), 8);
    sets.push(soup::set(random, objects.len(), 3));
    let boldness = random.pick(&[0, 2, 5, 15]);
    let mut sketch = Sketch {
        random: Random::new(random.draw()),
        objects,
        sets,
        code: Vec::new(),
        pointers: [Pointer::Empty; POINTERS as usize],
        boldness,
    };
    sketch.fill();
    Routine { objects: sketch.objects, sets: sketch.sets, code: sketch.code }
}

impl Sketch {
    fn fill(&mut self) {
        let long = self.random.chance(4);
        let wanted = self.random.between(2, if long { 800 } else { 90 }) as usize;
        let weights: Vec<u32> = FRAGMENTS.iter().map(|fragment| fragment.0).collect();
        while self.code.len() < wanted {
            let chosen = self.random.weighted(&weights);
            FRAGMENTS[chosen].1(self);
        }
        match self.random.below(10) {
            0..=6 => self.code.push(End),
            7..=8 => self.code.push(Out { a: 0 }),
            _ => {
                let p = self.random.index(self.code.len()) as u16;
                self.code.push(Jump { p });
            }
        }
    }

    fn here(&self) -> u16 {
        self.code.len() as u16
    }

    fn scratch(&mut self) -> u8 {
        self.random.below(6) as u8
    }

    fn bold(&mut self) -> bool {
        self.random.chance(self.boldness)
    }

    fn global(&mut self) -> (u16, u32) {
        let number = soup::any_of(&mut self.random, &self.objects, true).unwrap_or(0);
        match self.objects[number] {
            Object::Global { size } => (number as u16, size),
            Object::Site => unreachable!("every sketch has a global"),
        }
    }

    fn site(&mut self) -> usize {
        soup::any_of(&mut self.random, &self.objects, false).unwrap_or(0)
    }

    fn any_set(&mut self) -> u16 {
        self.random.index(self.sets.len()) as u16
    }

    /// A set that holds the object; a new one if there is none.
    fn set_with(&mut self, object: usize) -> u16 {
        let holds = |set: &Vec<usize>| set.contains(&object);
        match self.sets.iter().position(holds) {
            Some(number) => number as u16,
            None if self.sets.len() < 400 => {
                self.sets.push(vec![object]);
                self.sets.len() as u16 - 1
            }
            None => self.any_set(),
        }
    }

    fn write(&mut self, width: u32, a: u8, b: u8, s: u16) {
        self.code.push(match width {
            1 => Write8 { a, b, s },
            _ => Write32 { a, b, s },
        });
    }

    /// A place in or at the edge of an extent. What is not allowed lies just
    /// before it, across its end, in the guard, or in what stands behind.
    fn place_in(&mut self, extent: u32, width: u32) -> u32 {
        let last = extent - width;
        if self.bold() {
            let before = self.random.between(1, 9);
            return match self.random.below(6) {
                0 => 0_u32.wrapping_sub(before),
                1 => last + 1,
                2 => extent - 1,
                3 => extent,
                4 => extent + self.random.below(8),
                _ => extent + 8 + self.random.below(24),
            };
        }
        match self.random.below(4) {
            0 => 0,
            1 => last,
            2 => last.saturating_sub(self.random.below(8)),
            _ => self.random.below(last + 1),
        }
    }

    /// The temporary that holds the address of something in an object: a global
    /// by PLACE, a heap object by a pointer held for its site.
    fn aim_at(&mut self, object: usize, width: u32) -> Option<u8> {
        let t = self.scratch();
        let size = match self.objects[object] {
            Object::Global { size } => {
                self.code.push(Place { d: t, g: object as u16 });
                size
            }
            Object::Site => {
                let (held, size) = self.pointer_of(object)?;
                self.code.push(Set { d: t, n: 0 });
                self.code.push(Add { d: t, a: t, b: held });
                size
            }
        };
        let place = self.place_in(extent(size), width);
        let other = (t + 1) % 6;
        self.code.push(Set { d: other, n: place });
        self.code.push(Add { d: t, a: t, b: other });
        Some(t)
    }

    /// A pointer for the site that is believed live.
    fn pointer_of(&mut self, wanted: usize) -> Option<(u8, u32)> {
        let mut numbered = self.pointers.iter().enumerate();
        numbered.find_map(|(number, pointer)| match *pointer {
            Pointer::Live { site, size } if site == wanted => {
                Some((FIRST_POINTER + number as u8, size))
            }
            _ => None,
        })
    }

    fn store_into_object(&mut self) {
        let s = self.any_set();
        let members = self.sets[usize::from(s)].clone();
        let object = self.random.pick(&members);
        let width = self.random.pick(&[1, 4, 4]);
        if let Some(a) = self.aim_at(object, width) {
            let b = (a + 2) % 6;
            let n = self.random.edgy();
            self.code.push(Set { d: b, n });
            self.write(width, a, b, s);
            if self.random.chance(40) {
                self.code.push(Load32 { d: b, a });
            }
        }
    }

    fn put(&mut self) {
        let (g, size) = self.global();
        let width = self.random.pick(&[1, 4]);
        let k = match self.bold() {
            true => soup::offset(&mut self.random, size),
            false => self.random.below(extent(size) - width + 1),
        };
        self.push_put(width, g, k);
    }

    fn push_put(&mut self, width: u32, g: u16, k: u32) {
        let (k, a) = (k.min(65_535) as u16, self.scratch());
        self.code.push(match width {
            1 => Put8 { g, k, a },
            _ => Put32 { g, k, a },
        });
    }

    /// An unsafe PUT that may still complete: behind its global and the guard
    /// stands the next unsafe one, which a WRITE may have put into its class.
    fn put_past_into_the_next(&mut self) {
        let (g, size) = self.global();
        let (other, other_size) = self.global();
        if g >= other || !self.random.chance(self.boldness + 20) {
            return self.put();
        }
        let both = vec![usize::from(g), usize::from(other)];
        if self.sets.len() < 400 {
            self.sets.push(both);
        }
        // Never reached, and yet it joins the two.
        let s = self.sets.len() as u16 - 1;
        let p = self.here() + 2;
        self.code.push(Jump { p });
        self.code.push(Write8 { a: 0, b: 0, s });
        let width = self.random.pick(&[1, 4]);
        let inside = self.random.below(extent(other_size) - width + 1);
        let k = extent(size) + 8 + inside;
        self.push_put(width, g, k);
    }

    /// Fills an object by a loop; bold ones go on for too long.
    fn drain(&mut self) {
        let (g, size) = self.global();
        let s = self.set_with(usize::from(g));
        let width = self.random.pick(&[1, 1, 4]);
        let turns = extent(size) / width;
        let late = match self.bold() {
            true => self.random.between(1, 12),
            false => 0,
        };
        let (to, value) = (0, self.random.between(1, 5) as u8);
        let n = turns + late;
        self.code.push(Place { d: to, g });
        self.code.push(Set { d: COUNTER, n });
        self.code.push(Set { d: ONE, n: width });
        let p = self.here();
        self.write(width, to, value, s);
        self.code.push(Add { d: to, a: to, b: ONE });
        self.code.push(Set { d: value, n: 1 });
        self.code.push(Sub { d: COUNTER, a: COUNTER, b: value });
        self.code.push(JumpIf { a: COUNTER, p });
    }

    fn make_block(&mut self) {
        let site = self.site();
        let number = self.random.below(u32::from(POINTERS)) as u8;
        if self.pointers[usize::from(number)] != Pointer::Empty && self.random.chance(70) {
            return;
        }
        let size = match self.random.below(12) {
            0 => self.random.pick(&[0, 4_097, 0xFFFF_FFFF]),
            1..=2 => self.random.pick(&[4_088, 4_089, 4_096]),
            3..=4 => self.random.between(33, 2_000),
            _ => self.random.between(1, 32),
        };
        let (a, d) = (self.scratch(), FIRST_POINTER + number);
        let g = site as u16;
        self.code.push(Set { d: a, n: size });
        self.code.push(Alloc { d, g, a });
        let made = (1..=4_096).contains(&size);
        self.pointers[usize::from(number)] = match made {
            true => Pointer::Live { site, size },
            false => Pointer::Empty,
        };
    }

    fn give_block_back(&mut self) {
        let number = self.random.below(u32::from(POINTERS)) as u8;
        let (a, bold) = (FIRST_POINTER + number, self.bold());
        match self.pointers[usize::from(number)] {
            Pointer::Live { site, size } => {
                self.code.push(Free { a });
                self.pointers[usize::from(number)] = Pointer::Stale { site, size };
                if self.random.chance(60) {
                    self.code.push(Set { d: a, n: 0 });
                    self.pointers[usize::from(number)] = Pointer::Empty;
                }
            }
            Pointer::Stale { .. } if !bold => {}
            _ => self.code.push(Free { a }),
        }
    }

    /// A store through a pointer that was given back. It completes where the
    /// place has been handed out again for the same class.
    fn store_through_stale(&mut self) {
        let number = self.random.below(u32::from(POINTERS)) as u8;
        let (site, size) = match self.pointers[usize::from(number)] {
            Pointer::Stale { site, size } => (site, size),
            _ => return self.make_block(),
        };
        let (again, t) = (self.random.chance(80), self.scratch());
        if again {
            self.code.push(Set { d: t, n: size });
            let (d, g) = ((t + 1) % 6, site as u16);
            self.code.push(Alloc { d, g, a: t });
        }
        if again || self.bold() {
            let s = self.set_with(site);
            self.write(1, FIRST_POINTER + number, t, s);
        }
    }

    fn give_back_anything(&mut self) {
        let t = self.scratch();
        if !self.random.chance(self.boldness + 4) {
            self.code.push(Set { d: t, n: 0 });
        } else if self.random.chance(50) {
            let n = self.random.edgy();
            self.code.push(Set { d: t, n });
        }
        self.code.push(Free { a: t });
    }

    /// Looks at a header, or at slot 0, which nothing forbids.
    fn read_header(&mut self) {
        let (t, u) = (self.scratch(), self.scratch());
        let held = FIRST_POINTER + self.random.below(u32::from(POINTERS)) as u8;
        let n = self.random.pick(&[0, 3, 28_672, 28_676, 28_680, 57_336, 57_340]);
        self.code.push(Set { d: t, n });
        if self.random.chance(50)
            && self.pointers[usize::from(held - FIRST_POINTER)] != Pointer::Empty
        {
            let n = self.random.pick(&[8, 4]);
            self.code.push(Set { d: t, n });
            self.code.push(Sub { d: t, a: held, b: t });
            // Without this a refused ALLOC would make the address -8.
            let p = self.here() + 2;
            self.code.push(JumpIf { a: held, p });
            self.code.push(Set { d: t, n: 0 });
        }
        self.code.push(Load32 { d: u, a: t });
        if self.random.chance(20) {
            self.code.push(Out { a: u });
        }
    }

    /// Tries to write over a header, a guard or slot 0.
    fn write_header(&mut self) {
        if !self.bold() {
            return self.read_header();
        }
        let (t, s) = (self.scratch(), self.any_set());
        let n =
            self.random.pick(&[0, 7, 16, 28_664, 28_669, 28_672, 28_676, 28_677, 57_333, 57_336]);
        self.code.push(Set { d: t, n });
        let width = self.random.pick(&[1, 4]);
        self.write(width, t, t, s);
    }

    /// Around 2^32 and around the end of memory.
    fn wild_store(&mut self) {
        if !self.random.chance(self.boldness + 12) {
            return self.calculate();
        }
        let (t, s) = (self.scratch(), self.any_set());
        let n = match self.random.chance(50) {
            true => u32::MAX - self.random.below(6),
            false => 57_338 + self.random.below(8),
        };
        self.code.push(Set { d: t, n });
        let width = self.random.pick(&[1, 4, 4]);
        self.write(width, t, t, s);
    }

    fn wild_load(&mut self) {
        let t = self.scratch();
        let n = match self.random.chance(self.boldness + 20) {
            true => self.random.edgy(),
            false => 57_330 + self.random.below(11),
        };
        self.code.push(Set { d: t, n });
        self.code.push(match self.random.chance(30) {
            true => Load8 { d: t, a: t },
            false => Load32 { d: t, a: t },
        });
    }

    fn calculate(&mut self) {
        let n = self.random.edgy();
        let (d, a, b) = (self.scratch(), self.scratch(), self.scratch());
        self.code.push(match self.random.below(4) {
            0 => Set { d, n },
            1 => Add { d, a, b },
            2 => Sub { d, a, b },
            _ => Less { d, a, b },
        });
    }

    /// A jump over one fragment, taken or not.
    fn skip_forward(&mut self) {
        let at = self.code.len();
        let a = self.scratch();
        self.code.push(JumpIf { a, p: 0 });
        match self.random.below(3) {
            0 => self.put(),
            1 => self.store_into_object(),
            _ => self.calculate(),
        }
        let p = self.here();
        // Something always follows: the last instruction of all comes later.
        self.code[at] = match self.random.chance(70) {
            true => JumpIf { a, p },
            false => Jump { p },
        };
    }

    fn input_or_output(&mut self) {
        let t = self.scratch();
        self.code.push(match self.random.chance(50) {
            true => In { d: t },
            false => Out { a: t },
        });
    }

    /// A list of blocks, each holding the one before, walked and given back.
    fn chain_of_blocks(&mut self) {
        let site = self.site();
        let (g, s) = (site as u16, self.set_with(site));
        let (n, size) = (self.random.between(2, 30), self.random.between(4, 1_500));
        self.code.push(Set { d: HEAD, n: 0 });
        self.code.push(Set { d: COUNTER, n });
        self.code.push(Set { d: ONE, n: 1 });
        self.code.push(Set { d: ZERO, n: 0 });
        self.code.push(Set { d: 0, n: size });
        let p = self.here();
        self.code.push(Alloc { d: NEXT, g, a: 0 });
        self.code.push(Less { d: 1, a: NEXT, b: ONE });
        self.code.push(JumpIf { a: 1, p: p + 7 });
        self.write(4, NEXT, HEAD, s);
        self.code.push(Add { d: HEAD, a: NEXT, b: ZERO });
        self.code.push(Sub { d: COUNTER, a: COUNTER, b: ONE });
        self.code.push(JumpIf { a: COUNTER, p });
        if self.random.chance(80) {
            self.give_back_the_list();
        }
    }

    fn give_back_the_list(&mut self) {
        let p = self.here();
        self.code.push(Less { d: 1, a: HEAD, b: ONE });
        self.code.push(JumpIf { a: 1, p: p + 6 });
        self.code.push(Load32 { d: NEXT, a: HEAD });
        self.code.push(Free { a: HEAD });
        self.code.push(Add { d: HEAD, a: NEXT, b: ZERO });
        self.code.push(JumpIf { a: HEAD, p });
    }

    /// Several blocks, given back in some order, and asked for again in sizes
    /// that leave 0, 8 or 16 over.
    fn fragment_the_heap(&mut self) {
        let mut order: Vec<u8> = (0..POINTERS).collect();
        for at in (1..order.len()).rev() {
            let other = self.random.index(at + 1);
            order.swap(at, other);
        }
        for number in 0..POINTERS {
            self.make_one(number);
        }
        let keep = self.random.index(order.len());
        for &number in &order[keep..] {
            let a = FIRST_POINTER + number;
            self.code.push(Free { a });
            self.pointers[usize::from(number)] = Pointer::Empty;
        }
        for &number in &order[keep..] {
            self.make_one(number);
        }
    }

    fn make_one(&mut self, number: u8) {
        let (site, a) = (self.site(), self.scratch());
        let size = 8 * self.random.between(1, 6) - self.random.below(2);
        let (d, g) = (FIRST_POINTER + number, site as u16);
        self.code.push(Set { d: a, n: size });
        self.code.push(Alloc { d, g, a });
        self.pointers[usize::from(number)] = Pointer::Live { site, size };
    }

    /// ALLOC until there is no room left, with a size that leaves a rest.
    fn fill_the_heap(&mut self) {
        let site = self.site();
        let g = site as u16;
        let n = match self.random.below(3) {
            0 => 4_096,
            1 => self.random.between(2_000, 4_096),
            _ => self.random.between(200, 900),
        };
        self.code.push(Set { d: 0, n });
        let p = self.here();
        self.code.push(Alloc { d: NEXT, g, a: 0 });
        self.code.push(JumpIf { a: NEXT, p });
        let n = self.random.between(1, 900);
        self.code.push(Set { d: 0, n });
        self.code.push(Alloc { d: NEXT, g, a: 0 });
    }
}
