use crate::LatLng;
use core::ops::Deref;
pub struct Boundary { v: Vec<LatLng> }
impl Boundary {
    pub fn new() -> Self { Self { v: Vec::new() } }
    pub fn push(&mut self, x: LatLng) { self.v.push(x) }
}
impl Deref for Boundary { type Target = [LatLng]; fn deref(&self) -> &[LatLng] { &self.v } }
#[path = "door.rs"]
mod door;
