//! The original's two files behind C functions, for ./bench. They are compiled where they stand; ORIGINAL_MODULES names a file that
//! declares them as modules, and `opened`, the text of geometry.rs with a tail that opens its private `rescale_plane`.
include!(env!("ORIGINAL_MODULES"));

use image::{Dimensions, Image, PixelLayout};

/// An image of a copy of the pixels; it is not part of what is timed.
///
/// # Safety
/// `pixels` points to 4 × width × height bytes.
#[unsafe(no_mangle)]
pub unsafe extern "C" fn original_new(layout: u32, width: u32, height: u32, pixels: *const u8) -> *mut Image {
    let layout = [PixelLayout::Rgba8, PixelLayout::Argb8, PixelLayout::Bgra8][layout as usize];
    let dims = Dimensions::new(width, height).unwrap();
    let pixels = unsafe { std::slice::from_raw_parts(pixels, 4 * width as usize * height as usize) }.to_vec();
    Box::into_raw(Box::new(Image::new(dims, layout, pixels).unwrap()))
}

/// Crops where `cut`, then resizes: the result's image.
///
/// # Safety
/// `image` is of `original_new` or of this function.
#[unsafe(no_mangle)]
pub unsafe extern "C" fn original_scale(image: *const Image, cut: bool, x: u32, y: u32, cw: u32, ch: u32, tw: u32, th: u32) -> *mut Image {
    let (image, target) = (unsafe { &*image }, Dimensions::new(tw, th).unwrap());
    let made = if cut { image.crop(geometry::Rect::new(x, y, cw, ch)).unwrap().resize(target) } else { image.resize(target) };
    Box::into_raw(Box::new(made))
}

/// The image's bytes go to `out`, where that is not null, and the image is freed.
///
/// # Safety
/// `image` is of one of the two functions above; `out` has room for its bytes.
#[unsafe(no_mangle)]
pub unsafe extern "C" fn original_free(image: *mut Image, out: *mut u8) {
    let image = unsafe { Box::from_raw(image) };
    if !out.is_null() {
        let bytes = image.as_bytes();
        unsafe { std::ptr::copy_nonoverlapping(bytes.as_ptr(), out, bytes.len()) };
    }
}

/// A plane scaled by the private function that scales a picture's lanes: its bytes.
///
/// # Safety
/// `bytes` points to lanes × width × height bytes.
#[unsafe(no_mangle)]
pub unsafe extern "C" fn original_plane(lanes: u32, width: u32, height: u32, bytes: *const u8, tw: u32, th: u32) -> *mut Vec<u8> {
    let bytes = unsafe { std::slice::from_raw_parts(bytes, lanes as usize * width as usize * height as usize) };
    Box::into_raw(Box::new(opened::open_rescale_plane(bytes, width as i32, height as i32, lanes as usize, tw as i32, th as i32)))
}

/// The plane's bytes go to `out`, and the plane is freed.
///
/// # Safety
/// `plane` is of the function above; `out` has room for its bytes.
#[unsafe(no_mangle)]
pub unsafe extern "C" fn original_plane_free(plane: *mut Vec<u8>, out: *mut u8) {
    let plane = unsafe { Box::from_raw(plane) };
    unsafe { std::ptr::copy_nonoverlapping(plane.as_ptr(), out, plane.len()) };
}
