//! What is lent to both sides of a call: the same numbers or bytes before it, and no difference after it.

pub struct Lent<T> {
    fresh: Vec<T>,
    judge: Vec<T>,
    port: Vec<T>,
    used: usize,
}

impl<T: Copy + PartialEq> Lent<T> {
    /// At most so many, of which each is known before a call.
    pub fn new(most: usize, untouched: impl Fn(usize) -> T) -> Self {
        let fresh: Vec<T> = (0..most).map(untouched).collect();
        Lent {
            judge: fresh.clone(),
            port: fresh.clone(),
            fresh,
            used: 0,
        }
    }

    /// So many of them, as they are before a call, for the judge and for the port.
    pub fn lend(&mut self, count: usize) -> (&mut [T], &mut [T]) {
        let touched = ..self.used;
        self.judge[touched].copy_from_slice(&self.fresh[touched]);
        self.port[touched].copy_from_slice(&self.fresh[touched]);
        self.used = count;
        (&mut self.judge[..count], &mut self.port[..count])
    }

    /// These instead, for the judge and for the port.
    pub fn lend_these(&mut self, these: &[T]) -> (&mut [T], &mut [T]) {
        let (judge, port) = self.lend(these.len());
        judge.copy_from_slice(these);
        port.copy_from_slice(these);
        (judge, port)
    }

    pub fn judge(&self) -> &[T] {
        &self.judge[..self.used]
    }

    pub fn same(&self) -> bool {
        self.judge[..self.used] == self.port[..self.used]
    }

    /// The first that differs after a call.
    pub fn first(&self) -> Option<usize> {
        (0..self.used).find(|&i| self.judge[i] != self.port[i])
    }
}
