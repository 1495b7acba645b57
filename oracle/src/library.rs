//! The library's exports, as include/viskunor.h declares them, and calls of them with slices.

/// A node record: its box's corners and its links.
#[repr(C)]
#[derive(Clone, Copy, Debug)]
pub struct Node {
    pub min_x: f64,
    pub min_y: f64,
    pub max_x: f64,
    pub max_y: f64,
    pub first: u32,
    pub count: u32,
}

mod exports {
    use super::Node;

    unsafe extern "C" {
        pub safe fn vk_sqrt(x: f64) -> f64;
        pub safe fn vk_hypot(a: f64, b: f64) -> f64;

        pub fn vk_outline_make(
            vertices: *const f64,
            vertices_len: usize,
            made: *mut f64,
            made_len: usize,
            count: *mut u32,
        ) -> u32;
        pub fn vk_outline_area(vertices: *const f64, vertices_len: usize, area: *mut f64) -> u32;
        pub fn vk_outline_perimeter(
            vertices: *const f64,
            vertices_len: usize,
            perimeter: *mut f64,
        ) -> u32;
        pub fn vk_outline_bounds(
            vertices: *const f64,
            vertices_len: usize,
            min_x: *mut f64,
            min_y: *mut f64,
            max_x: *mut f64,
            max_y: *mut f64,
        ) -> u32;
        pub fn vk_outline_contains(
            vertices: *const f64,
            vertices_len: usize,
            x: f64,
            y: f64,
            inside: *mut u32,
        ) -> u32;
        pub fn vk_outline_locate(
            vertices: *const f64,
            vertices_len: usize,
            x: f64,
            y: f64,
            location: *mut u32,
        ) -> u32;
        pub fn vk_outline_distance(
            vertices: *const f64,
            vertices_len: usize,
            x: f64,
            y: f64,
            distance: *mut f64,
            normal_x: *mut f64,
            normal_y: *mut f64,
        ) -> u32;
        pub fn vk_outline_fill(
            vertices: *const f64,
            vertices_len: usize,
            min_x: f64,
            min_y: f64,
            max_x: f64,
            max_y: f64,
            work: *mut f64,
            work_len: usize,
            fill: *mut f64,
        ) -> u32;

        pub fn vk_ellipse_nearest(
            centre_x: f64,
            centre_y: f64,
            semi_x: f64,
            semi_y: f64,
            x: f64,
            y: f64,
            nearest_x: *mut f64,
            nearest_y: *mut f64,
            distance: *mut f64,
        ) -> u32;

        pub fn vk_index_build(
            boxes: *const f64,
            boxes_len: usize,
            corners: *mut f64,
            corners_len: usize,
            links: *mut u32,
            links_len: usize,
            items: *mut u32,
            items_len: usize,
            node_count: *mut u32,
            item_count: *mut u32,
        ) -> u32;
        pub fn vk_index_nodes(
            boxes: *const f64,
            boxes_len: usize,
            nodes: *mut Node,
            nodes_len: usize,
            items: *mut u32,
            items_len: usize,
            node_count: *mut u32,
            item_count: *mut u32,
        ) -> u32;
        pub fn vk_index_meeting(
            boxes: *const f64,
            boxes_len: usize,
            min_x: f64,
            min_y: f64,
            max_x: f64,
            max_y: f64,
            corners: *mut f64,
            corners_len: usize,
            links: *mut u32,
            links_len: usize,
            items: *mut u32,
            items_len: usize,
            list: *mut u32,
            list_len: usize,
            count: *mut u32,
        ) -> u32;

        pub fn vk_set_any_at(
            vertices: *const f64,
            vertices_len: usize,
            counts: *const u32,
            counts_len: usize,
            x: f64,
            y: f64,
            corners: *mut f64,
            corners_len: usize,
            links: *mut u32,
            links_len: usize,
            items: *mut u32,
            items_len: usize,
            any: *mut u32,
        ) -> u32;
        pub fn vk_set_nearest(
            vertices: *const f64,
            vertices_len: usize,
            counts: *const u32,
            counts_len: usize,
            x: f64,
            y: f64,
            corners: *mut f64,
            corners_len: usize,
            links: *mut u32,
            links_len: usize,
            items: *mut u32,
            items_len: usize,
            found: *mut u32,
            outline: *mut u32,
            distance: *mut f64,
        ) -> u32;
        pub fn vk_set_nearest_many(
            vertices: *const f64,
            vertices_len: usize,
            counts: *const u32,
            counts_len: usize,
            points: *const f64,
            points_len: usize,
            corners: *mut f64,
            corners_len: usize,
            links: *mut u32,
            links_len: usize,
            items: *mut u32,
            items_len: usize,
            outlines: *mut u32,
            outlines_len: usize,
            distances: *mut f64,
            distances_len: usize,
            found: *mut u32,
        ) -> u32;

        pub fn vk_gdsii_read(
            stream: *const u8,
            stream_len: usize,
            vertices: *mut f64,
            vertices_len: usize,
            counts: *mut u32,
            counts_len: usize,
            outline_count: *mut u32,
            vertex_count: *mut u32,
        ) -> u32;
    }
}

pub use exports::{vk_hypot, vk_sqrt};

/// A lent list's address: NULL for an empty list, as a C host would lend it.
fn address<T>(list: &[T]) -> *const T {
    if list.is_empty() {
        std::ptr::null()
    } else {
        list.as_ptr()
    }
}

fn address_mut<T>(list: &mut [T]) -> *mut T {
    if list.is_empty() {
        std::ptr::null_mut()
    } else {
        list.as_mut_ptr()
    }
}

/// Makes an outline; the list `made` is lent whole.
#[inline]
pub fn make(vertices: &[f64], made: &mut [f64], count: &mut u32) -> u32 {
    unsafe {
        exports::vk_outline_make(
            address(vertices),
            vertices.len(),
            address_mut(made),
            made.len(),
            count,
        )
    }
}

#[inline]
pub fn area(vertices: &[f64], area: &mut f64) -> u32 {
    unsafe { exports::vk_outline_area(address(vertices), vertices.len(), area) }
}

#[inline]
pub fn perimeter(vertices: &[f64], perimeter: &mut f64) -> u32 {
    unsafe { exports::vk_outline_perimeter(address(vertices), vertices.len(), perimeter) }
}

/// The corners are min x, min y, max x, max y.
#[inline]
pub fn bounds(vertices: &[f64], corners: &mut [f64; 4]) -> u32 {
    let [min_x, min_y, max_x, max_y] = corners;
    unsafe {
        exports::vk_outline_bounds(
            address(vertices),
            vertices.len(),
            min_x,
            min_y,
            max_x,
            max_y,
        )
    }
}

#[inline]
pub fn contains(vertices: &[f64], [x, y]: [f64; 2], inside: &mut u32) -> u32 {
    unsafe { exports::vk_outline_contains(address(vertices), vertices.len(), x, y, inside) }
}

#[inline]
pub fn locate(vertices: &[f64], [x, y]: [f64; 2], location: &mut u32) -> u32 {
    unsafe { exports::vk_outline_locate(address(vertices), vertices.len(), x, y, location) }
}

/// The fields are the distance and the normal's x and y.
#[inline]
pub fn distance(vertices: &[f64], [x, y]: [f64; 2], fields: &mut [f64; 3]) -> u32 {
    let [distance, normal_x, normal_y] = fields;
    unsafe {
        exports::vk_outline_distance(
            address(vertices),
            vertices.len(),
            x,
            y,
            distance,
            normal_x,
            normal_y,
        )
    }
}

/// The cell is min x, min y, max x, max y; the list `work` is lent whole.
#[inline]
pub fn fill(
    vertices: &[f64],
    [min_x, min_y, max_x, max_y]: [f64; 4],
    work: &mut [f64],
    fill: &mut f64,
) -> u32 {
    unsafe {
        exports::vk_outline_fill(
            address(vertices),
            vertices.len(),
            min_x,
            min_y,
            max_x,
            max_y,
            address_mut(work),
            work.len(),
            fill,
        )
    }
}

/// The input is the centre, the semi-axes and the point; the answer is the nearest point and its
/// distance.
#[inline]
pub fn ellipse_nearest([cx, cy, a, b, x, y]: [f64; 6], answer: &mut [f64; 3]) -> u32 {
    let [nearest_x, nearest_y, distance] = answer;
    unsafe { exports::vk_ellipse_nearest(cx, cy, a, b, x, y, nearest_x, nearest_y, distance) }
}

/// An index buffer: corners and links of nodes, and items.
pub struct Lent<'a> {
    pub corners: &'a mut [f64],
    pub links: &'a mut [u32],
    pub items: &'a mut [u32],
}

/// The last two fields are the numbers of nodes and items.
#[inline]
pub fn index_build(boxes: &[f64], lent: Lent, fields: &mut [u32; 3]) -> u32 {
    let [_, nodes, items] = fields;
    unsafe {
        exports::vk_index_build(
            address(boxes),
            boxes.len(),
            address_mut(lent.corners),
            lent.corners.len(),
            address_mut(lent.links),
            lent.links.len(),
            address_mut(lent.items),
            lent.items.len(),
            nodes,
            items,
        )
    }
}

/// The same as records; the last two fields are the numbers of nodes and items.
#[inline]
pub fn index_nodes(
    boxes: &[f64],
    nodes: &mut [Node],
    items: &mut [u32],
    fields: &mut [u32; 3],
) -> u32 {
    let [_, node_count, item_count] = fields;
    unsafe {
        exports::vk_index_nodes(
            address(boxes),
            boxes.len(),
            address_mut(nodes),
            nodes.len(),
            address_mut(items),
            items.len(),
            node_count,
            item_count,
        )
    }
}

/// The list gets the items found, and `count` their number.
#[inline]
pub fn index_meeting(
    boxes: &[f64],
    [min_x, min_y, max_x, max_y]: [f64; 4],
    lent: Lent,
    list: &mut [u32],
    count: &mut u32,
) -> u32 {
    unsafe {
        exports::vk_index_meeting(
            address(boxes),
            boxes.len(),
            min_x,
            min_y,
            max_x,
            max_y,
            address_mut(lent.corners),
            lent.corners.len(),
            address_mut(lent.links),
            lent.links.len(),
            address_mut(lent.items),
            lent.items.len(),
            address_mut(list),
            list.len(),
            count,
        )
    }
}

/// The set is its vertices and counts.
#[inline]
pub fn set_any_at(
    (vertices, counts): (&[f64], &[u32]),
    [x, y]: [f64; 2],
    lent: Lent,
    any: &mut u32,
) -> u32 {
    unsafe {
        exports::vk_set_any_at(
            address(vertices),
            vertices.len(),
            address(counts),
            counts.len(),
            x,
            y,
            address_mut(lent.corners),
            lent.corners.len(),
            address_mut(lent.links),
            lent.links.len(),
            address_mut(lent.items),
            lent.items.len(),
            any,
        )
    }
}

/// The fields are found, outline and distance.
#[inline]
pub fn set_nearest(
    (vertices, counts): (&[f64], &[u32]),
    [x, y]: [f64; 2],
    lent: Lent,
    (found, outline, distance): &mut (u32, u32, f64),
) -> u32 {
    unsafe {
        exports::vk_set_nearest(
            address(vertices),
            vertices.len(),
            address(counts),
            counts.len(),
            x,
            y,
            address_mut(lent.corners),
            lent.corners.len(),
            address_mut(lent.links),
            lent.links.len(),
            address_mut(lent.items),
            lent.items.len(),
            found,
            outline,
            distance,
        )
    }
}

/// The points are x and y of each; the lists get each point's outline and distance.
#[inline]
pub fn set_nearest_many(
    (vertices, counts): (&[f64], &[u32]),
    points: &[f64],
    lent: Lent,
    (outlines, distances): (&mut [u32], &mut [f64]),
    found: &mut u32,
) -> u32 {
    unsafe {
        exports::vk_set_nearest_many(
            address(vertices),
            vertices.len(),
            address(counts),
            counts.len(),
            address(points),
            points.len(),
            address_mut(lent.corners),
            lent.corners.len(),
            address_mut(lent.links),
            lent.links.len(),
            address_mut(lent.items),
            lent.items.len(),
            address_mut(outlines),
            outlines.len(),
            address_mut(distances),
            distances.len(),
            found,
        )
    }
}

/// The lists get the set that the stream holds; the fields are the numbers of outlines and vertices.
#[inline]
pub fn gdsii_read(
    stream: &[u8],
    (vertices, counts): (&mut [f64], &mut [u32]),
    [outlines, total]: &mut [u32; 2],
) -> u32 {
    unsafe {
        exports::vk_gdsii_read(
            address(stream),
            stream.len(),
            address_mut(vertices),
            vertices.len(),
            address_mut(counts),
            counts.len(),
            outlines,
            total,
        )
    }
}
