//! CRoaring's compressed sets, by the functions of its C library.
use std::ffi::c_void;

/// What a C function takes and gives as `roaring_bitmap_t *`.
type Bitmap = *mut c_void;
type Cursor = *mut c_void;

#[link(name = "roaring")]
unsafe extern "C" {
    fn roaring_bitmap_create_with_capacity(blocks: u32) -> Bitmap;
    fn roaring_bitmap_of_ptr(count: usize, values: *const u32) -> Bitmap;
    fn roaring_bitmap_copy(set: Bitmap) -> Bitmap;
    fn roaring_bitmap_free(set: Bitmap);
    fn roaring_bitmap_clear(set: Bitmap);
    fn roaring_bitmap_add_checked(set: Bitmap, value: u32) -> bool;
    fn roaring_bitmap_remove_checked(set: Bitmap, value: u32) -> bool;
    fn roaring_bitmap_contains(set: Bitmap, value: u32) -> bool;
    fn roaring_bitmap_get_cardinality(set: Bitmap) -> u64;
    fn roaring_bitmap_portable_size_in_bytes(set: Bitmap) -> usize;
    fn roaring_bitmap_and_cardinality(a: Bitmap, b: Bitmap) -> u64;
    fn roaring_bitmap_minimum(set: Bitmap) -> u32;
    fn roaring_bitmap_rank(set: Bitmap, value: u32) -> u64;
    fn roaring_bitmap_select(set: Bitmap, at: u32, value: *mut u32) -> bool;
    fn roaring_bitmap_range_cardinality(set: Bitmap, start: u64, end: u64) -> u64;
    fn roaring_bitmap_add_range_closed(set: Bitmap, first: u32, last: u32);
    fn roaring_bitmap_remove_range_closed(set: Bitmap, first: u32, last: u32);
    fn roaring_bitmap_flip_inplace(set: Bitmap, start: u64, end: u64);
    fn roaring_bitmap_to_uint32_array(set: Bitmap, list: *mut u32);
    fn roaring_bitmap_equals(a: Bitmap, b: Bitmap) -> bool;
    fn roaring_bitmap_is_subset(a: Bitmap, b: Bitmap) -> bool;
    fn roaring_bitmap_intersect(a: Bitmap, b: Bitmap) -> bool;
    fn roaring_bitmap_and(a: Bitmap, b: Bitmap) -> Bitmap;
    fn roaring_bitmap_or(a: Bitmap, b: Bitmap) -> Bitmap;
    fn roaring_bitmap_xor(a: Bitmap, b: Bitmap) -> Bitmap;
    fn roaring_bitmap_flip(set: Bitmap, start: u64, end: u64) -> Bitmap;
    fn roaring_bitmap_and_inplace(a: Bitmap, b: Bitmap);
    fn roaring_bitmap_or_inplace(a: Bitmap, b: Bitmap);
    fn roaring_bitmap_xor_inplace(a: Bitmap, b: Bitmap);
    fn roaring_create_iterator(set: Bitmap) -> Cursor;
    fn roaring_free_uint32_iterator(cursor: Cursor);
    fn roaring_move_uint32_iterator_equalorlarger(cursor: Cursor, value: u32) -> bool;
    fn roaring_read_uint32_iterator(cursor: Cursor, list: *mut u32, count: u32) -> u32;
}

pub struct Roaring(Bitmap);

// SAFETY, of every call below: `self.0` came from the library, is not null, and is freed once, by the drop; `&self` calls
// change nothing, and each list that is handed over is as long as is said.
impl Roaring {
    pub fn new() -> Roaring {
        Roaring(unsafe { roaring_bitmap_create_with_capacity(0) })
    }
    pub fn of(ids: &[u32]) -> Roaring {
        Roaring(unsafe { roaring_bitmap_of_ptr(ids.len(), ids.as_ptr()) })
    }
    pub fn add(&mut self, id: u32) -> bool {
        unsafe { roaring_bitmap_add_checked(self.0, id) }
    }
    pub fn remove(&mut self, id: u32) -> bool {
        unsafe { roaring_bitmap_remove_checked(self.0, id) }
    }
    pub fn clear(&mut self) {
        unsafe { roaring_bitmap_clear(self.0) }
    }
    pub fn contains(&self, id: u32) -> bool {
        unsafe { roaring_bitmap_contains(self.0, id) }
    }
    pub fn len(&self) -> u64 {
        unsafe { roaring_bitmap_get_cardinality(self.0) }
    }
    /// The bytes of its written form, which are those of its arrays and flat pieces and a little more.
    pub fn bytes(&self) -> usize {
        unsafe { roaring_bitmap_portable_size_in_bytes(self.0) }
    }
    pub fn and_len(&self, other: &Roaring) -> u64 {
        unsafe { roaring_bitmap_and_cardinality(self.0, other.0) }
    }
    pub fn first(&self) -> u64 {
        unsafe { roaring_bitmap_minimum(self.0) as u64 }
    }
    /// The length of the list of all members and its last item.
    pub fn list(&self) -> u64 {
        let mut list = Vec::with_capacity(self.len() as usize);
        unsafe {
            roaring_bitmap_to_uint32_array(self.0, list.as_mut_ptr());
            list.set_len(self.len() as usize);
        }
        (list.len() + list.last().copied().unwrap_or(0) as usize) as u64
    }
    /// The sum of the members, which the library's iterator gives 256 at a time.
    pub fn sum(&self) -> u64 {
        let (mut sum, mut list) = (0u64, [0u32; 256]);
        unsafe {
            let cursor = roaring_create_iterator(self.0);
            loop {
                let given = roaring_read_uint32_iterator(cursor, list.as_mut_ptr(), 256) as usize;
                list[..given].iter().for_each(|id| sum = sum.wrapping_add(*id as u64));
                if given < 256 {
                    break;
                }
            }
            roaring_free_uint32_iterator(cursor);
        }
        sum
    }
    /// The sum of the first members from each of these indices on.
    pub fn first_from(&self, starts: &[u32]) -> u64 {
        let mut sum = 0u64;
        unsafe {
            let cursor = roaring_create_iterator(self.0);
            for start in starts {
                let mut id = [0u32];
                if roaring_move_uint32_iterator_equalorlarger(cursor, *start) && roaring_read_uint32_iterator(cursor, id.as_mut_ptr(), 1) == 1 {
                    sum = sum.wrapping_add(id[0] as u64);
                }
            }
            roaring_free_uint32_iterator(cursor);
        }
        sum
    }
    /// How many members lie before an index that is not 0.
    pub fn rank(&self, end: u32) -> u64 {
        unsafe { roaring_bitmap_rank(self.0, end - 1) }
    }
    pub fn select(&self, at: u32) -> u64 {
        let mut id = 0;
        unsafe { roaring_bitmap_select(self.0, at, &mut id) };
        id as u64
    }
    pub fn len_range(&self, start: u32, end: u32) -> u64 {
        unsafe { roaring_bitmap_range_cardinality(self.0, start as u64, end as u64) }
    }
    pub fn add_range(&mut self, start: u32, end: u32) {
        unsafe { roaring_bitmap_add_range_closed(self.0, start, end - 1) }
    }
    pub fn remove_range(&mut self, start: u32, end: u32) {
        unsafe { roaring_bitmap_remove_range_closed(self.0, start, end - 1) }
    }
    pub fn flip_range(&mut self, start: u32, end: u32) {
        unsafe { roaring_bitmap_flip_inplace(self.0, start as u64, end as u64) }
    }
    pub fn equals(&self, other: &Roaring) -> bool {
        unsafe { roaring_bitmap_equals(self.0, other.0) }
    }
    pub fn is_disjoint(&self, other: &Roaring) -> bool {
        unsafe { !roaring_bitmap_intersect(self.0, other.0) }
    }
    pub fn is_subset(&self, other: &Roaring) -> bool {
        unsafe { roaring_bitmap_is_subset(self.0, other.0) }
    }
    pub fn intersection(&self, other: &Roaring) -> Roaring {
        Roaring(unsafe { roaring_bitmap_and(self.0, other.0) })
    }
    pub fn union(&self, other: &Roaring) -> Roaring {
        Roaring(unsafe { roaring_bitmap_or(self.0, other.0) })
    }
    pub fn symmetric_difference(&self, other: &Roaring) -> Roaring {
        Roaring(unsafe { roaring_bitmap_xor(self.0, other.0) })
    }
    pub fn complement(&self, end: u64) -> Roaring {
        Roaring(unsafe { roaring_bitmap_flip(self.0, 0, end) })
    }
    pub fn intersect_with(&mut self, other: &Roaring) {
        unsafe { roaring_bitmap_and_inplace(self.0, other.0) }
    }
    pub fn union_with(&mut self, other: &Roaring) {
        unsafe { roaring_bitmap_or_inplace(self.0, other.0) }
    }
    pub fn symmetric_difference_with(&mut self, other: &Roaring) {
        unsafe { roaring_bitmap_xor_inplace(self.0, other.0) }
    }
}

impl Clone for Roaring {
    fn clone(&self) -> Roaring {
        Roaring(unsafe { roaring_bitmap_copy(self.0) })
    }
}

impl Drop for Roaring {
    fn drop(&mut self) {
        unsafe { roaring_bitmap_free(self.0) }
    }
}
