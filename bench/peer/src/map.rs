//! A persistent ordered map: a B-tree whose nodes are held by `Arc` and copied on the path of a change.
//! `clone` is O(1); a change costs O(node * log n); nodes owned alone are changed in place.
use std::borrow::Borrow;
use std::sync::Arc;

const MAX: usize = 16;
const FILL: usize = 12;

enum Node<K, V> {
    Leaf(Vec<(K, V)>),
    Inner(Vec<(K, Arc<Node<K, V>>)>),
}

impl<K: Clone, V: Clone> Clone for Node<K, V> {
    fn clone(&self) -> Self {
        match self {
            Node::Leaf(v) => {
                let mut n = Vec::with_capacity(v.len() + 1);
                n.extend(v.iter().cloned());
                Node::Leaf(n)
            }
            Node::Inner(v) => {
                let mut n = Vec::with_capacity(v.len() + 1);
                n.extend(v.iter().cloned());
                Node::Inner(n)
            }
        }
    }
}

pub struct Map<K, V> {
    root: Option<Arc<Node<K, V>>>,
}

impl<K, V> Clone for Map<K, V> {
    fn clone(&self) -> Self {
        Map { root: self.root.clone() }
    }
}

impl<K, V> Default for Map<K, V> {
    fn default() -> Self {
        Map { root: None }
    }
}

impl<K: Ord + Clone, V: Clone> Map<K, V> {
    /// The keys must be rising.
    pub fn from_sorted(items: Vec<(K, V)>) -> Self {
        let len = items.len();
        if len == 0 {
            return Map::default();
        }
        let mut level: Vec<(K, Arc<Node<K, V>>)> = Vec::with_capacity(len / FILL + 1);
        let mut it = items.into_iter().peekable();
        while it.peek().is_some() {
            let leaf: Vec<(K, V)> = it.by_ref().take(FILL).collect();
            level.push((leaf[0].0.clone(), Arc::new(Node::Leaf(leaf))));
        }
        while level.len() > 1 {
            let mut up = Vec::with_capacity(level.len() / FILL + 1);
            let mut it = level.into_iter().peekable();
            while it.peek().is_some() {
                let inner: Vec<_> = it.by_ref().take(FILL).collect();
                up.push((inner[0].0.clone(), Arc::new(Node::Inner(inner))));
            }
            level = up;
        }
        Map { root: level.pop().map(|x| x.1) }
    }

    pub fn get<Q: Ord + ?Sized>(&self, q: &Q) -> Option<&V>
    where
        K: Borrow<Q>,
    {
        self.entry(q).map(|(_, v)| v)
    }

    /// The key as it is held, and its value.
    pub fn entry<Q: Ord + ?Sized>(&self, q: &Q) -> Option<&(K, V)>
    where
        K: Borrow<Q>,
    {
        let mut node = self.root.as_deref()?;
        loop {
            match node {
                Node::Inner(v) => {
                    let i = v.partition_point(|(k, _)| k.borrow() <= q).saturating_sub(1);
                    node = &v[i].1;
                }
                Node::Leaf(v) => return v.binary_search_by(|(k, _)| k.borrow().cmp(q)).ok().map(|i| &v[i]),
            }
        }
    }

    /// The value at `k`, made by `make` where there is none, to be changed in place.
    pub fn update<F: FnOnce() -> V, G: FnOnce(&mut V)>(&mut self, k: K, make: F, g: G) {
        match &mut self.root {
            None => {
                let mut v = make();
                g(&mut v);
                self.root = Some(Arc::new(Node::Leaf(vec![(k, v)])));
            }
            Some(root) => {
                if let Some((sk, right)) = update_below(root, k, make, g) {
                    let left = self.root.take().unwrap();
                    let lk = first_key(&left);
                    self.root = Some(Arc::new(Node::Inner(vec![(lk, left), (sk, right)])));
                }
            }
        }
    }

    pub fn insert(&mut self, k: K, v: V) {
        let mut slot = Some(v);
        // `make` and the change share the value: whichever runs first takes it.
        let cell = std::cell::RefCell::new(&mut slot);
        self.update(
            k,
            || cell.borrow_mut().take().unwrap(),
            |old| {
                if let Some(v) = cell.borrow_mut().take() {
                    *old = v
                }
            },
        );
    }

    pub fn remove<Q: Ord + ?Sized>(&mut self, q: &Q) -> bool
    where
        K: Borrow<Q>,
    {
        if self.get(q).is_none() {
            return false;
        }
        let root = self.root.as_mut().unwrap();
        if remove_below(root, q) {
            self.root = None;
        } else {
            loop {
                let only = match &**self.root.as_ref().unwrap() {
                    Node::Inner(v) if v.len() == 1 => v[0].1.clone(),
                    _ => break,
                };
                self.root = Some(only);
            }
        }
        true
    }

    pub fn iter(&self) -> Iter<'_, K, V> {
        let mut it = Iter { stack: Vec::new() };
        if let Some(r) = self.root.as_deref() {
            it.push_first(r);
        }
        it
    }

    /// From the first key greater than `q`.
    pub fn iter_after<Q: Ord + ?Sized>(&self, q: &Q) -> Iter<'_, K, V>
    where
        K: Borrow<Q>,
    {
        let mut it = Iter { stack: Vec::new() };
        let mut node = match self.root.as_deref() {
            None => return it,
            Some(n) => n,
        };
        loop {
            match node {
                Node::Inner(v) => {
                    let i = v.partition_point(|(k, _)| k.borrow() <= q).saturating_sub(1);
                    it.stack.push(Frame::Inner(&v[i + 1..]));
                    node = &v[i].1;
                }
                Node::Leaf(v) => {
                    let i = v.partition_point(|(k, _)| k.borrow() <= q);
                    it.stack.push(Frame::Leaf(&v[i..]));
                    return it;
                }
            }
        }
    }
}

fn first_key<K: Clone, V>(n: &Node<K, V>) -> K {
    match n {
        Node::Leaf(v) => v[0].0.clone(),
        Node::Inner(v) => v[0].0.clone(),
    }
}

#[allow(clippy::type_complexity)]
fn update_below<K: Ord + Clone, V: Clone, F: FnOnce() -> V, G: FnOnce(&mut V)>(
    node: &mut Arc<Node<K, V>>,
    k: K,
    make: F,
    g: G,
) -> Option<(K, Arc<Node<K, V>>)> {
    match Arc::make_mut(node) {
        Node::Leaf(v) => match v.binary_search_by(|(x, _)| x.cmp(&k)) {
            Ok(i) => {
                g(&mut v[i].1);
                None
            }
            Err(i) => {
                let mut val = make();
                g(&mut val);
                v.insert(i, (k, val));
                if v.len() > MAX {
                    let right = v.split_off(v.len() / 2);
                    Some((right[0].0.clone(), Arc::new(Node::Leaf(right))))
                } else {
                    None
                }
            }
        },
        Node::Inner(v) => {
            let i = v.partition_point(|(x, _)| *x <= k).saturating_sub(1);
            if k < v[i].0 {
                v[i].0 = k.clone();
            }
            if let Some(s) = update_below(&mut v[i].1, k, make, g) {
                v.insert(i + 1, s);
                if v.len() > MAX {
                    let right = v.split_off(v.len() / 2);
                    return Some((right[0].0.clone(), Arc::new(Node::Inner(right))));
                }
            }
            None
        }
    }
}

fn remove_below<K: Ord + Clone + Borrow<Q>, V: Clone, Q: Ord + ?Sized>(node: &mut Arc<Node<K, V>>, q: &Q) -> bool {
    match Arc::make_mut(node) {
        Node::Leaf(v) => {
            if let Ok(i) = v.binary_search_by(|(k, _)| k.borrow().cmp(q)) {
                v.remove(i);
            }
            v.is_empty()
        }
        Node::Inner(v) => {
            let i = v.partition_point(|(k, _)| k.borrow() <= q).saturating_sub(1);
            if remove_below(&mut v[i].1, q) {
                v.remove(i);
            }
            v.is_empty()
        }
    }
}

enum Frame<'a, K, V> {
    Inner(&'a [(K, Arc<Node<K, V>>)]),
    Leaf(&'a [(K, V)]),
}

pub struct Iter<'a, K, V> {
    stack: Vec<Frame<'a, K, V>>,
}

impl<'a, K, V> Iter<'a, K, V> {
    fn push_first(&mut self, n: &'a Node<K, V>) {
        match n {
            Node::Inner(v) => self.stack.push(Frame::Inner(v)),
            Node::Leaf(v) => self.stack.push(Frame::Leaf(v)),
        }
    }
}

impl<'a, K, V> Iterator for Iter<'a, K, V> {
    type Item = (&'a K, &'a V);
    fn next(&mut self) -> Option<Self::Item> {
        loop {
            let next: &'a Node<K, V> = match self.stack.last_mut()? {
                Frame::Leaf(s) => match s.split_first() {
                    Some((x, rest)) => {
                        *s = rest;
                        return Some((&x.0, &x.1));
                    }
                    None => {
                        self.stack.pop();
                        continue;
                    }
                },
                Frame::Inner(s) => match s.split_first() {
                    Some((x, rest)) => {
                        *s = rest;
                        &x.1
                    }
                    None => {
                        self.stack.pop();
                        continue;
                    }
                },
            };
            self.push_first(next);
        }
    }
}

#[cfg(test)]
mod tests {
    use super::*;
    use std::collections::BTreeMap;

    #[test]
    fn like_btreemap() {
        let mut seed = 1u64;
        let mut rnd = move || {
            seed ^= seed << 13;
            seed ^= seed >> 7;
            seed ^= seed << 17;
            seed
        };
        let base: Vec<(u64, u64)> = (0..1000).map(|i| (i * 3, i)).collect();
        let mut m = Map::from_sorted(base.clone());
        let mut b: BTreeMap<u64, u64> = base.into_iter().collect();
        let mut olds = Vec::new();
        for i in 0..20000 {
            let k = rnd() % 3000;
            if rnd() % 5 < 2 {
                m.insert(k, i);
                b.insert(k, i);
            } else {
                assert_eq!(m.remove(&k), b.remove(&k).is_some());
            }
            if i % 997 == 0 {
                olds.push((m.clone(), b.clone()));
            }
            if i % 50 == 0 {
                let q = rnd() % 3000;
                let x: Vec<_> = m.iter_after(&q).take(9).map(|(k, v)| (*k, *v)).collect();
                let y: Vec<_> = b.range(q + 1..).take(9).map(|(k, v)| (*k, *v)).collect();
                assert_eq!(x, y);
            }
        }
        for (m, b) in olds {
            assert!(m.iter().map(|(k, v)| (*k, *v)).eq(b.iter().map(|(k, v)| (*k, *v))));
        }
    }
}
