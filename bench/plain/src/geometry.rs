//! Contact points of two bodies, and pairs of bodies whose bounds overlap, over and over.
//!
//! In a task on points the body a stands at the origin, turned by (0.8, 0.6), and the body b of step `i` at
//! `x = i * 40503 % 65536 - 32768` and `y = i * 7919 % 65536 - 32768` in units of 2^10, turned by the pair of `i % 4`: upright,
//! a quarter, (0.8, 0.6) or (0.6, -0.8). Circles have the radius 1, boxes the half extents 1 and 1/2. What is
//! printed is the sum over all points of the feature, both parts of the position, both of the normal, and the separation, in 64
//! bits that wrap. HELD is of no account:
//!
//! | TASK         | a      | b      |
//! |--------------|--------|--------|
//! | `circles`    | circle | circle |
//! | `box-circle` | box    | circle |
//! | `boxes`      | box    | box    |
//!
//! In the task `pairs` there are HELD bodies, at most 1,024, by turns a circle and a box, and every eighth of them static from
//! the first on; body `i` stands at `i % 32` and `i / 32` in units of 1.75, turned by the pair of `i % 4`. The pairs are found
//! COUNT times, by a grid of cells with sides of 4, and printed is how many were found in all.

use std::collections::HashMap;
use std::hash::{BuildHasherDefault, Hasher};

use crate::{ONE, add, div, length, mul, sat};

fn sub(a: i64, b: i64) -> i64 {
    sat(a - b)
}

#[derive(Clone, Copy)]
struct Vector {
    x: i64,
    y: i64,
}

#[derive(Clone, Copy)]
struct Pair {
    c: i64,
    s: i64,
}

impl Vector {
    #[inline(always)]
    fn plus(self, v: Vector) -> Vector {
        Vector { x: add(self.x, v.x), y: add(self.y, v.y) }
    }

    #[inline(always)]
    fn minus(self, v: Vector) -> Vector {
        Vector { x: sub(self.x, v.x), y: sub(self.y, v.y) }
    }

    #[inline(always)]
    fn negated(self) -> Vector {
        Vector { x: -self.x, y: -self.y }
    }

    #[inline(always)]
    fn times(self, k: i64) -> Vector {
        Vector { x: mul(k, self.x), y: mul(k, self.y) }
    }

    #[inline(always)]
    fn divided(self, l: i64) -> Vector {
        Vector { x: div(self.x, l), y: div(self.y, l) }
    }

    #[inline(always)]
    fn length(self) -> i64 {
        length(self.x, self.y)
    }
}

impl Pair {
    #[inline(always)]
    fn rotate(self, v: Vector) -> Vector {
        Vector {
            x: sub(mul(self.c, v.x), mul(self.s, v.y)),
            y: add(mul(self.s, v.x), mul(self.c, v.y)),
        }
    }

    #[inline(always)]
    fn unrotate(self, v: Vector) -> Vector {
        Vector {
            x: add(mul(self.c, v.x), mul(self.s, v.y)),
            y: sub(mul(self.c, v.y), mul(self.s, v.x)),
        }
    }
}

#[derive(Clone, Copy)]
enum Shape {
    Circle(i64),
    Box(Vector),
}

#[derive(Clone, Copy)]
struct Body {
    shape: Shape,
    position: Vector,
    rotation: Pair,
}

#[derive(Clone, Copy)]
struct Point {
    feature: u8,
    position: Vector,
    normal: Vector,
    separation: i64,
}

#[derive(Clone, Copy)]
enum Manifold {
    Apart,
    One(Point),
    Two(Point, Point),
}

fn at_most_one(point: Option<Point>) -> Manifold {
    point.map_or(Manifold::Apart, Manifold::One)
}

fn circles(pa: Vector, ra: i64, pb: Vector, rb: i64) -> Option<Point> {
    let d = pb.minus(pa);
    let (l, sum) = (d.length(), add(ra, rb));
    if l > sum {
        return None;
    }
    let normal = if l == 0 { Vector { x: 0, y: ONE } } else { d.divided(l) };
    Some(Point {
        feature: 0,
        position: pa.plus(normal.times(ra)),
        normal,
        separation: sub(l, sum),
    })
}

/// Faces are counted counterclockwise from the one on the right: 0 to 3.
fn outward(face: u8) -> Vector {
    match face {
        0 => Vector { x: ONE, y: 0 },
        1 => Vector { x: 0, y: ONE },
        2 => Vector { x: -ONE, y: 0 },
        _ => Vector { x: 0, y: -ONE },
    }
}

fn region(z: i64, h: i64) -> u8 {
    if z < -h {
        0
    } else if z > h {
        2
    } else {
        1
    }
}

fn box_circle(half: Vector, position: Vector, rotation: Pair, centre: Vector, r: i64) -> Option<Point> {
    let d = rotation.unrotate(centre.minus(position));
    let k = Vector {
        x: d.x.min(half.x).max(-half.x),
        y: d.y.min(half.y).max(-half.y),
    };
    let (feature, local, normal, separation) = if (d.x, d.y) != (k.x, k.y) {
        let e = d.minus(k);
        let l = e.length();
        if l > r {
            return None;
        }
        let feature = 128 + 3 * region(d.x, half.x) + region(d.y, half.y);
        (feature, k, e.divided(l), sub(l, r))
    } else {
        let distances = [sub(half.x, d.x), sub(half.y, d.y), add(half.x, d.x), add(half.y, d.y)];
        let mut face = 0;
        for f in 1..4 {
            if distances[f] < distances[face] {
                face = f;
            }
        }
        let local = match face {
            0 => Vector { x: half.x, ..d },
            1 => Vector { y: half.y, ..d },
            2 => Vector { x: -half.x, ..d },
            _ => Vector { y: -half.y, ..d },
        };
        let face_number = face as u8;
        (140 + face_number, local, outward(face_number), sub(-distances[face], r))
    };
    Some(Point {
        feature,
        position: position.plus(rotation.rotate(local)),
        normal: rotation.rotate(normal),
        separation,
    })
}

/// The box b as the box a sees it.
struct Frames {
    in_a: Vector,
    in_b: Vector,
    relative: Pair,
}

fn frames(a: &Body, b: &Body) -> Frames {
    let offset = b.position.minus(a.position);
    let (qa, qb) = (a.rotation, b.rotation);
    Frames {
        in_a: qa.unrotate(offset),
        in_b: qb.unrotate(offset),
        relative: Pair {
            c: add(mul(qa.c, qb.c), mul(qa.s, qb.s)),
            s: sub(mul(qa.c, qb.s), mul(qa.s, qb.c)),
        },
    }
}

#[inline(always)]
fn face_separations(half: Vector, offset: Vector, q: Pair, other: Vector) -> Vector {
    let (c, s) = (q.c.abs(), q.s.abs());
    Vector {
        x: sub(sub(offset.x.abs(), half.x), add(mul(c, other.x), mul(s, other.y))),
        y: sub(sub(offset.y.abs(), half.y), add(mul(s, other.x), mul(c, other.y))),
    }
}

const RELATIVE: i64 = 15_938_355;
const ABSOLUTE: i64 = 167_772;

/// The best axis: 0 and 1 are those of a, 2 and 3 those of b.
fn best_axis(sa: Vector, sb: Vector, ha: Vector, hb: Vector) -> u8 {
    let (mut best, mut axis) = (sa.x, 0);
    for (candidate, separation, h) in [(1, sa.y, ha.y), (2, sb.x, hb.x), (3, sb.y, hb.y)] {
        if separation > add(mul(RELATIVE, best), mul(ABSOLUTE, h)) {
            (best, axis) = (separation, candidate);
        }
    }
    axis
}

#[derive(Clone, Copy)]
struct Vertex {
    front: i64,
    side: i64,
    mark: u8,
}

#[inline(always)]
fn cut(ends: [Vertex; 2], outside: [bool; 2], limit: i64, mark: u8) -> Option<[Vertex; 2]> {
    if !outside[0] && !outside[1] {
        return Some(ends);
    }
    if outside[0] && outside[1] {
        return None;
    }
    let [first, second] = ends;
    let part = div(sub(limit, first.side), sub(second.side, first.side));
    let crossing = Vertex {
        front: add(first.front, mul(sub(second.front, first.front), part)),
        side: limit,
        mark,
    };
    Some(if outside[0] { [crossing, second] } else { [first, crossing] })
}

fn inward(face: u8, q: Pair) -> Vector {
    match face {
        0 => Vector { x: -q.c, y: q.s },
        1 => Vector { x: -q.s, y: -q.c },
        2 => Vector { x: q.c, y: -q.s },
        _ => Vector { x: q.s, y: q.c },
    }
}

fn edge_along(n: Vector) -> u8 {
    match (n.x.abs() > n.y.abs(), n.x > 0, n.y > 0) {
        (true, true, _) => 0,
        (true, false, _) => 2,
        (false, _, true) => 1,
        (false, _, false) => 3,
    }
}

fn corners(edge: u8, h: Vector) -> [Vector; 2] {
    let corner = |x, y| Vector { x, y };
    match edge {
        0 => [corner(h.x, -h.y), corner(h.x, h.y)],
        1 => [corner(h.x, h.y), corner(-h.x, h.y)],
        2 => [corner(-h.x, h.y), corner(-h.x, -h.y)],
        _ => [corner(-h.x, -h.y), corner(h.x, -h.y)],
    }
}

fn boxes(a: &Body, ha: Vector, b: &Body, hb: Vector) -> Manifold {
    let f = frames(a, b);
    let sa = face_separations(ha, f.in_a, f.relative, hb);
    let sb = face_separations(hb, f.in_b, f.relative, ha);
    if sa.x > 0 || sa.y > 0 || sb.x > 0 || sb.y > 0 {
        return Manifold::Apart;
    }
    let axis = best_axis(sa, sb, ha, hb);
    let is_b = axis >= 2;
    let (position, rotation, half, other) = if is_b { (b.position, b.rotation, hb, ha) } else { (a.position, a.rotation, ha, hb) };
    let d = if is_b { f.in_b.negated() } else { f.in_a };
    let q = if is_b { Pair { c: f.relative.c, s: -f.relative.s } } else { f.relative };
    let is_x = axis.is_multiple_of(2);
    let ahead = if is_x { d.x > 0 } else { d.y > 0 };
    let face = u8::from(!is_x) + if ahead { 0 } else { 2 };
    let g = |z: i64| if ahead { z } else { -z };
    let edge = edge_along(inward(face, q));
    let vertex = |mark: u8, corner: Vector| {
        let v = d.plus(q.rotate(corner));
        let (front, side) = if is_x { (v.x, v.y) } else { (v.y, v.x) };
        Vertex { front: g(front), side, mark }
    };
    let [first, second] = corners(edge, other);
    let ends = [vertex(0, first), vertex(1, second)];
    let (hf, hs) = if is_x { (half.x, half.y) } else { (half.y, half.x) };
    let low = [ends[0].side < -hs, ends[1].side < -hs];
    let Some(ends) = cut(ends, low, -hs, 2) else {
        return Manifold::Apart;
    };
    let high = [ends[0].side > hs, ends[1].side > hs];
    let Some(ends) = cut(ends, high, hs, 3) else {
        return Manifold::Apart;
    };
    let normal = match face {
        0 => Vector { x: rotation.c, y: rotation.s },
        1 => Vector { x: -rotation.s, y: rotation.c },
        2 => Vector { x: -rotation.c, y: -rotation.s },
        _ => Vector { x: rotation.s, y: -rotation.c },
    };
    let normal = if is_b { normal.negated() } else { normal };
    let point = |v: Vertex| {
        let separation = sub(v.front, hf);
        if separation > 0 {
            return None;
        }
        let local = if is_x { Vector { x: g(hf), y: v.side } } else { Vector { x: v.side, y: g(hf) } };
        Some(Point {
            feature: 16 * (face + 4 * u8::from(is_b)) + 4 * edge + v.mark,
            position: position.plus(rotation.rotate(local)),
            normal,
            separation,
        })
    };
    match (point(ends[0]), point(ends[1])) {
        (None, q) => at_most_one(q),
        (p, None) => at_most_one(p),
        (Some(p), Some(q)) if q.feature < p.feature => Manifold::Two(q, p),
        (Some(p), Some(q)) => Manifold::Two(p, q),
    }
}

fn collide(a: &Body, b: &Body) -> Manifold {
    match (a.shape, b.shape) {
        (Shape::Circle(ra), Shape::Circle(rb)) => at_most_one(circles(a.position, ra, b.position, rb)),
        (Shape::Box(half), Shape::Circle(r)) => at_most_one(box_circle(half, a.position, a.rotation, b.position, r)),
        (Shape::Circle(r), Shape::Box(half)) => {
            let point = box_circle(half, b.position, b.rotation, a.position, r);
            at_most_one(point.map(|p| Point { normal: p.normal.negated(), ..p }))
        }
        (Shape::Box(ha), Shape::Box(hb)) => boxes(a, ha, b, hb),
    }
}

fn turned(i: u64) -> Pair {
    let (c, s) = match i % 4 {
        0 => (ONE, 0),
        1 => (0, ONE),
        2 => (13_421_773, 10_066_330),
        _ => (10_066_330, -13_421_773),
    };
    Pair { c, s }
}

fn small_circle() -> Shape {
    Shape::Circle(ONE)
}

fn small_box() -> Shape {
    Shape::Box(Vector { x: ONE, y: ONE / 2 })
}

fn of_point(p: Point) -> i64 {
    let parts = [i64::from(p.feature), p.position.x, p.position.y, p.normal.x, p.normal.y];
    parts.into_iter().fold(p.separation, i64::wrapping_add)
}

fn of_manifold(manifold: Manifold) -> i64 {
    match manifold {
        Manifold::Apart => 0,
        Manifold::One(p) => of_point(p),
        Manifold::Two(p, q) => of_point(p).wrapping_add(of_point(q)),
    }
}

/// The sum over COUNT pairs of these shapes.
fn points(a: Shape, b: Shape, count: u64) -> i64 {
    let a = Body { shape: a, position: Vector { x: 0, y: 0 }, rotation: turned(2) };
    let mut sum = 0i64;
    for i in 0..count {
        let at = |k: u64| ((((i & 0xffff) * k) & 0xffff) as i64 - 32_768) << 10;
        let position = Vector { x: at(40_503), y: at(7_919) };
        let b = Body { shape: b, position, rotation: turned(i) };
        sum = sum.wrapping_add(of_manifold(collide(&a, &b)));
    }
    sum
}

struct Bounds {
    low: Vector,
    high: Vector,
    is_static: bool,
}

fn bounds(body: &Body, is_static: bool) -> Bounds {
    let extent = match body.shape {
        Shape::Circle(r) => Vector { x: add(r, 1), y: add(r, 1) },
        Shape::Box(h) => {
            let (c, s) = (body.rotation.c.abs(), body.rotation.s.abs());
            Vector {
                x: add(add(mul(c, h.x), mul(s, h.y)), 1),
                y: add(add(mul(s, h.x), mul(c, h.y)), 1),
            }
        }
    };
    Bounds { low: body.position.minus(extent), high: body.position.plus(extent), is_static }
}

fn meets(a: &Bounds, b: &Bounds) -> bool {
    !(a.is_static && b.is_static)
        && a.low.x <= b.high.x
        && b.low.x <= a.high.x
        && a.low.y <= b.high.y
        && b.low.y <= a.high.y
}

const SIDE: i64 = 1 << 26;
const MOST: i64 = 16;

/// A sum and a product for each number, as the twin's hash of cells.
#[derive(Clone, Copy, Default)]
struct CellHasher(u64);

impl Hasher for CellHasher {
    fn finish(&self) -> u64 {
        self.0 ^ (self.0 >> 32)
    }

    fn write(&mut self, _: &[u8]) {}

    fn write_i64(&mut self, number: i64) {
        self.0 = self.0.wrapping_add(number as u64).wrapping_mul(0x9e37_79b9_7f4a_7c15);
    }
}

type Cells = HashMap<(i64, i64), Vec<u16>, BuildHasherDefault<CellHasher>>;

/// The columns and rows in which bounds lie: left, right, bottom, top.
fn cells_of(bounds: &Bounds) -> [i64; 4] {
    [bounds.low.x, bounds.high.x, bounds.low.y, bounds.high.y].map(|z| z.div_euclid(SIDE))
}

fn is_wide([left, right, bottom, top]: [i64; 4]) -> bool {
    (right - left + 1) * (top - bottom + 1) > MOST
}

/// The bodies of each cell, and those of more than 16 cells.
fn grid(bounds: &[Bounds]) -> (Cells, Vec<u16>) {
    let (mut cells, mut wide) = (Cells::with_capacity_and_hasher(bounds.len(), Default::default()), Vec::new());
    for (i, body) in bounds.iter().enumerate() {
        let range @ [left, right, bottom, top] = cells_of(body);
        if is_wide(range) {
            wide.push(i as u16);
            continue;
        }
        for x in left..=right {
            for y in bottom..=top {
                cells.entry((x, y)).or_default().push(i as u16);
            }
        }
    }
    (cells, wide)
}

/// All pairs, by a grid, over bounds that are computed once for each body.
fn pairs(bodies: &[(Body, bool)]) -> Vec<(usize, usize)> {
    let bounds: Vec<Bounds> = bodies.iter().map(|(body, is_static)| bounds(body, *is_static)).collect();
    let (cells, wide) = grid(&bounds);
    let (mut found, mut partners) = (Vec::new(), Vec::<u16>::new());
    for (i, body) in bounds.iter().enumerate() {
        partners.clear();
        let mut add = |others: &[u16]| {
            partners.extend(others.iter().filter(|j| i < **j as usize && meets(body, &bounds[**j as usize])));
        };
        let range @ [left, right, bottom, top] = cells_of(body);
        if is_wide(range) {
            found.extend((i + 1..bounds.len()).filter(|j| meets(body, &bounds[*j])).map(|j| (i, j)));
            continue;
        }
        for x in left..=right {
            for y in bottom..=top {
                add(&cells[&(x, y)]);
            }
        }
        add(&wide);
        partners.sort_unstable();
        partners.dedup();
        found.extend(partners.iter().map(|j| (i, *j as usize)));
    }
    found
}

fn field(held: u64) -> Vec<(Body, bool)> {
    let body = |i: u64| {
        let shape = if i.is_multiple_of(2) { small_circle() } else { small_box() };
        let at = |k: u64| k as i64 * (ONE * 7 / 4);
        let position = Vector { x: at(i % 32), y: at(i / 32) };
        (Body { shape, position, rotation: turned(i) }, i.is_multiple_of(8))
    };
    (0..held).map(body).collect()
}

/// The answer of a task.
pub fn sum(task: &str, count: u64, held: u64) -> Option<i64> {
    match task {
        "circles" => Some(points(small_circle(), small_circle(), count)),
        "box-circle" => Some(points(small_box(), small_circle(), count)),
        "boxes" => Some(points(small_box(), small_box(), count)),
        "pairs" if held <= 1024 => {
            let bodies = field(held);
            Some((0..count).map(|_| pairs(&bodies).len() as i64).sum())
        }
        _ => None,
    }
}
