//! A hand-tuned Rust loop over step records, executed in place, with document 01's refusals and traps: written after
//! document 01, its figures after 02's item 3, its lines after 4, and not after the port. The proved run is held and measured against it.

use crate::steps::*;

impl Size {
    pub fn mask(self) -> u32 {
        match self {
            Size::Byte => 0xff,
            Size::Word => 0xffff,
            Size::Long => 0xffff_ffff,
        }
    }
    fn bits(self) -> u32 {
        match self {
            Size::Byte => 8,
            Size::Word => 16,
            Size::Long => 32,
        }
    }
    fn top(self) -> u32 {
        match self {
            Size::Byte => 0x80,
            Size::Word => 0x8000,
            Size::Long => 0x8000_0000,
        }
    }
}
impl State {
    fn add(&mut self, size: Size, s: u32, d: u32, x: u32) -> u32 {
        let m = size.mask() as u64;
        let r = (s as u64 & m) + (d as u64 & m) + x as u64;
        let (res, top) = ((r & m) as u32, size.top());
        self.flags.c = r > m;
        self.flags.x = self.flags.c;
        self.flags.v = (s ^ res) & (d ^ res) & top != 0;
        self.flags.n = res & top != 0;
        res
    }
    fn sub(&mut self, size: Size, s: u32, d: u32, x: u32) -> u32 {
        let m = size.mask() as u64;
        let r = (d as u64 & m).wrapping_sub(s as u64 & m).wrapping_sub(x as u64);
        let (res, top) = ((r & m) as u32, size.top());
        self.flags.c = r > m;
        self.flags.x = self.flags.c;
        self.flags.v = (s ^ d) & (res ^ d) & top != 0;
        self.flags.n = res & top != 0;
        res
    }
    fn logic(&mut self, size: Size, r: u32) {
        self.flags.n = r & size.top() != 0;
        self.flags.z = r & size.mask() == 0;
        self.flags.v = false;
        self.flags.c = false;
    }
    fn put(&mut self, size: Size, r: usize, v: u32) {
        let m = size.mask();
        self.d[r] = self.d[r] & !m | v & m;
    }

    // a step that the table allows; its figure, or why the run ends
    #[inline]
    pub fn step(&mut self, step: &Step) -> Result<u32, Stop> {
        let size = step.size;
        let long = |a, b| if size == Size::Long { b } else { a };
        match step.form {
            Form::Two(op, s, t) => {
                let (s, t) = (s as usize, t as usize);
                if s >= 8 || t >= 8 {
                    return Err(Stop::Refused(Fault::NoRegister));
                }
                let (src, dst) = (self.d[s], self.d[t]);
                match op {
                    Two::Add => {
                        let r = self.add(size, src, dst, 0);
                        self.flags.z = r == 0;
                        self.put(size, t, r)
                    }
                    Two::Sub => {
                        let r = self.sub(size, src, dst, 0);
                        self.flags.z = r == 0;
                        self.put(size, t, r)
                    }
                    Two::Cmp => {
                        let x = self.flags.x;
                        let r = self.sub(size, src, dst, 0);
                        self.flags.z = r == 0;
                        self.flags.x = x
                    }
                    Two::Addx => {
                        let r = self.add(size, src, dst, self.flags.x as u32);
                        self.flags.z &= r == 0;
                        self.put(size, t, r)
                    }
                    Two::Subx => {
                        let r = self.sub(size, src, dst, self.flags.x as u32);
                        self.flags.z &= r == 0;
                        self.put(size, t, r)
                    }
                }
                Ok(long(4, if op == Two::Cmp { 6 } else { 8 }))
            }
            Form::Address(op, p, t) => {
                let t = t as usize;
                let src = match p {
                    Register::Data(r) if r < 8 => self.d[r as usize],
                    Register::Address(r) if r < 8 => self.a[r as usize],
                    _ => return Err(Stop::Refused(Fault::NoRegister)),
                };
                if t >= 8 {
                    return Err(Stop::Refused(Fault::NoRegister));
                }
                let src = match size {
                    Size::Byte => return Err(Stop::Refused(Fault::NoSize)),
                    Size::Word => src as u16 as i16 as u32,
                    Size::Long => src,
                };
                match op {
                    Adr::Adda => {
                        self.a[t] = self.a[t].wrapping_add(src);
                        Ok(8)
                    }
                    Adr::Suba => {
                        self.a[t] = self.a[t].wrapping_sub(src);
                        Ok(8)
                    }
                    Adr::Cmpa => {
                        let x = self.flags.x;
                        let r = self.sub(Size::Long, src, self.a[t], 0);
                        self.flags.z = r == 0;
                        self.flags.x = x;
                        Ok(6)
                    }
                }
            }
            Form::Quick(op, k, p) => match p {
                Register::Data(t) => {
                    let t = t as usize;
                    if t >= 8 {
                        return Err(Stop::Refused(Fault::NoRegister));
                    }
                    if !(1..=8).contains(&k) {
                        return Err(Stop::Refused(Fault::Small));
                    }
                    let dst = self.d[t];
                    let r = match op {
                        Quick::Addq => self.add(size, k as u32, dst, 0),
                        Quick::Subq => self.sub(size, k as u32, dst, 0),
                    };
                    self.flags.z = r == 0;
                    self.put(size, t, r);
                    Ok(long(4, 8))
                }
                Register::Address(t) => {
                    let t = t as usize;
                    if t >= 8 {
                        return Err(Stop::Refused(Fault::NoRegister));
                    }
                    if size == Size::Byte {
                        return Err(Stop::Refused(Fault::NoSize));
                    }
                    if !(1..=8).contains(&k) {
                        return Err(Stop::Refused(Fault::Small));
                    }
                    self.a[t] = match op {
                        Quick::Addq => self.a[t].wrapping_add(k as u32),
                        Quick::Subq => self.a[t].wrapping_sub(k as u32),
                    };
                    Ok(8)
                }
            },
            Form::One(op, t) => {
                let t = t as usize;
                if t >= 8 {
                    return Err(Stop::Refused(Fault::NoRegister));
                }
                let dst = self.d[t];
                match op {
                    One::Clr => {
                        self.logic(size, 0);
                        self.put(size, t, 0)
                    }
                    One::Neg => {
                        let r = self.sub(size, dst, 0, 0);
                        self.flags.z = r == 0;
                        self.put(size, t, r)
                    }
                    One::Negx => {
                        let r = self.sub(size, dst, 0, self.flags.x as u32);
                        self.flags.z &= r == 0;
                        self.put(size, t, r)
                    }
                    One::Not => {
                        self.logic(size, !dst);
                        self.put(size, t, !dst)
                    }
                    One::Ext => {
                        let r = match size {
                            Size::Byte => return Err(Stop::Refused(Fault::NoSize)),
                            Size::Word => dst as u8 as i8 as u16 as u32,
                            Size::Long => dst as u16 as i16 as u32,
                        };
                        self.logic(size, r);
                        self.put(size, t, r);
                        return Ok(4);
                    }
                }
                Ok(long(4, 6))
            }
            Form::Shift(op, c, t) => {
                let t = t as usize;
                let k = match c {
                    Count::Small(k) => k as u32,
                    Count::Data(r) if r < 8 => self.d[r as usize] & 63,
                    _ => return Err(Stop::Refused(Fault::NoRegister)),
                };
                if t >= 8 {
                    return Err(Stop::Refused(Fault::NoRegister));
                }
                if let Count::Small(k) = c
                    && !(1..=8).contains(&k)
                {
                    return Err(Stop::Refused(Fault::Small));
                }
                let (n, m, top) = (size.bits(), size.mask(), size.top());
                let v = self.d[t] & m;
                let x = self.flags.x;
                let mut over = false;
                // result, last bit out, X
                let (r, c, x) = match op {
                    Shift::Asl | Shift::Lsl => {
                        let w = (v as u64) << k.min(40);
                        if let Shift::Asl = op {
                            over = if k < n {
                                let high = v >> (n - 1 - k);
                                high != 0 && high as u64 != (1u64 << (k + 1)) - 1
                            } else {
                                v != 0
                            };
                        }
                        let c = k != 0 && k <= n && w >> n & 1 != 0;
                        (w as u32 & m, c, if k == 0 { x } else { c })
                    }
                    Shift::Lsr => {
                        let w = (v as u64) << 1 >> k.min(40);
                        let c = k != 0 && w & 1 != 0;
                        ((w >> 1) as u32, c, if k == 0 { x } else { c })
                    }
                    Shift::Asr => {
                        let w = (((v ^ top).wrapping_sub(top)) as i32 as i64) << 1 >> k.min(40);
                        let c = k != 0 && w & 1 != 0;
                        ((w >> 1) as u32 & m, c, if k == 0 { x } else { c })
                    }
                    Shift::Rol => {
                        let j = k & (n - 1);
                        let r = ((v as u64) << j | v as u64 >> (n - j)) as u32 & m;
                        (r, k != 0 && r & 1 != 0, x)
                    }
                    Shift::Ror => {
                        let j = k & (n - 1);
                        let r = (v as u64 >> j | (v as u64) << (n - j)) as u32 & m;
                        (r, k != 0 && r & top != 0, x)
                    }
                    Shift::Roxl | Shift::Roxr => {
                        let places = n + 1;
                        let j = match size {
                            Size::Byte => k % 9,
                            Size::Word => k % 17,
                            Size::Long => k % 33,
                        };
                        let j = if let Shift::Roxr = op { places - j } else { j };
                        let ring = v as u64 | (x as u64) << n;
                        let ring = (ring << j | ring >> (places - j)) & ((1u64 << places) - 1);
                        let c = ring >> n & 1 != 0;
                        (ring as u32 & m, c, c)
                    }
                };
                self.flags = Flags { x, n: r & top != 0, z: r == 0, v: over, c };
                self.put(size, t, r);
                Ok(long(6, 8) + 2 * k)
            }
            Form::Bit(op, c, t) => {
                let t = t as usize;
                let k = match c {
                    Count::Small(k) => k as u32,
                    Count::Data(r) if r < 8 => self.d[r as usize],
                    _ => return Err(Stop::Refused(Fault::NoRegister)),
                };
                if t >= 8 {
                    return Err(Stop::Refused(Fault::NoRegister));
                }
                if size != Size::Long {
                    return Err(Stop::Refused(Fault::NoSize));
                }
                if let Count::Small(k) = c
                    && k > 31
                {
                    return Err(Stop::Refused(Fault::Small));
                }
                let k = k & 31;
                let b = 1 << k;
                self.flags.z = self.d[t] & b == 0;
                match op {
                    Bit::Btst => Ok(6),
                    Bit::Bset => {
                        self.d[t] |= b;
                        Ok(if k < 16 { 6 } else { 8 })
                    }
                    Bit::Bclr => {
                        self.d[t] &= !b;
                        Ok(if k < 16 { 8 } else { 10 })
                    }
                    Bit::Bchg => {
                        self.d[t] ^= b;
                        Ok(if k < 16 { 6 } else { 8 })
                    }
                }
            }
            Form::Chk(s, t) => {
                if s >= 8 || t >= 8 {
                    return Err(Stop::Refused(Fault::NoRegister));
                }
                if size != Size::Word {
                    return Err(Stop::Refused(Fault::NoSize));
                }
                let (b, v) = (self.d[s as usize] as i16, self.d[t as usize] as i16);
                self.flags = Flags { x: self.flags.x, n: v < 0, z: false, v: false, c: false };
                if v > b {
                    return Err(Stop::Trapped(Class::Over, 8));
                }
                if v < 0 {
                    return Err(if v.checked_sub(b).is_none() {
                        Stop::Trapped(Class::Short, 8)
                    } else {
                        Stop::Trapped(Class::Below, 10)
                    });
                }
                Ok(10)
            }
        }
    }
}

/// It becomes part of its caller, which may have its answer written where it wants it.
#[inline(always)]
pub fn run(listing: &[Step], state: &mut State, start: usize, budget: u32) -> Ran {
    let (mut next, mut steps, mut clocks) = (start, 0u32, 0u64);
    if start > listing.len() {
        return Ran { end: End::Refused(Fault::StartPastEnd, start, 0), next, steps, clocks };
    }
    loop {
        let Some(step) = listing.get(next) else { return Ran { end: End::Finished, next, steps, clocks } };
        if steps == budget {
            return Ran { end: End::Budget, next, steps, clocks };
        }
        match state.step(step) {
            Ok(figure) => clocks += figure as u64,
            Err(Stop::Trapped(class, figure)) => {
                return Ran {
                    end: End::Trapped(class, next, step.line),
                    next: next + 1,
                    steps: steps + 1,
                    clocks: clocks + figure as u64,
                };
            }
            Err(Stop::Refused(fault)) => {
                return Ran { end: End::Refused(fault, next, step.line), next, steps, clocks };
            }
        }
        next += 1;
        steps += 1;
    }
}
