//! The types of shapes.capnp, made by capnpc_rattle.
#![tactic(auto)]

mod shape;

pub use shape::{
    ShapeBuilder, ShapeKindCircleReader, ShapeKindCircleStyleDashedReader,
    ShapeKindCircleStyleMember, ShapeKindCircleStyleReader, ShapeKindCircleStyleWhich,
    ShapeKindMember, ShapeKindReader, ShapeKindSquareReader, ShapeKindWhich, ShapeListBuilder,
    ShapePipeline, ShapeReader,
};
