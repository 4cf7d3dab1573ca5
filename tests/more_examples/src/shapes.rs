//! Chooses groups that are members of unions, each in a struct that was of another kind, and prints what a reader finds. The reference
//! library prints the same (nightly/groups).

use jamdrosek::builder::BuildError;
use jamdrosek::fields::PointerReader;
use shapes::{
    ShapeBuilder, ShapeKindCircleStyleMember as Style, ShapeKindMember as Kind, ShapeReader,
};
use std::alloc::Global;

pub fn run(rt: &HostRuntime) -> anyhow::Result<()> {
    let alloc = rt.alloc();
    let mut shape = circle(alloc)?;
    shape.set_kind_square();
    print_shape(rt, shape)?;
    let mut shape = circle(alloc)?;
    shape.set_kind_square_side(5);
    print_shape(rt, shape)?;
    let mut shape = square(alloc)?;
    shape.set_kind_square_side(6);
    print_shape(rt, shape)?;
    let mut shape = square(alloc)?;
    shape.set_kind_circle_style_dashed_length(4);
    print_shape(rt, shape)?;
    let mut shape = circle(alloc)?;
    shape.set_kind_circle_style_plain();
    shape.set_kind_circle_style_dashed();
    print_shape(rt, shape)?;
    let mut shape = circle(alloc)?;
    shape.set_kind_circle();
    print_shape(rt, shape)?;
    let mut shape = square(alloc)?;
    shape.set_kind_code(7);
    print_shape(rt, shape)
}

/// A circle of which all is set.
fn circle(alloc: Global) -> Result<ShapeBuilder, BuildError> {
    let mut shape = ShapeBuilder::new(alloc)?;
    shape.set_area(2.5);
    shape.set_kind_circle_radius(7);
    shape.set_kind_circle_name("disc")?;
    shape.set_kind_circle_style_dashed_length(3);
    shape.set_kind_circle_style_dashed_note("coarse")?;
    Ok(shape)
}

/// A square of which all is set.
fn square(alloc: Global) -> Result<ShapeBuilder, BuildError> {
    let mut shape = ShapeBuilder::new(alloc)?;
    shape.set_kind_square_side(5);
    shape.set_kind_square_label("box")?;
    shape.set_kind_square_filled(false);
    Ok(shape)
}

/// Prints a shape's area, and its kind with all that this has.
fn print_shape(rt: &HostRuntime, shape: ShapeBuilder) -> anyhow::Result<()> {
    let whole = shape.body.into_whole();
    let shape = ShapeReader::of(PointerReader::of_whole(&whole))?;
    print!(rt; "{}: ", shape.area())?;
    match shape.kind().member()? {
        Kind::Nothing => println!(rt; "nothing")?,
        Kind::Code(code) => println!(rt; "code {code}")?,
        Kind::Square(of) => {
            let label = of.label()?.text(rt.alloc())?;
            println!(rt; "square {} {:?} {}", of.side(), label.as_str(), of.filled())?;
        }
        Kind::Circle(of) => {
            let name = of.name()?.text(rt.alloc())?;
            print!(rt; "circle {} {:?} ", of.radius(), name.as_str())?;
            match of.style().member()? {
                Style::Plain => println!(rt; "plain")?,
                Style::Dashed(of) => {
                    let note = of.note()?.text(rt.alloc())?;
                    println!(rt; "dashed {} {:?}", of.length(), note.as_str())?;
                }
                Style::Unknown(_) => println!(rt; "unknown")?,
            }
        }
        Kind::Unknown(_) => println!(rt; "unknown")?,
    }
    Ok(())
}
