// What the example `shapes` prints, by the reference library.
#include "shapes.capnp.h"
#include <capnp/message.h>
#include <iostream>

static void circle(Shape::Builder shape) {
    shape.setArea(2.5);
    auto circle = shape.getKind().initCircle();
    circle.setRadius(7);
    circle.setName("disc");
    auto dashed = circle.getStyle().initDashed();
    dashed.setLength(3);
    dashed.setNote("coarse");
}

static void square(Shape::Builder shape) {
    auto square = shape.getKind().initSquare();
    square.setSide(5);
    square.setLabel("box");
    square.setFilled(false);
}

static void print(Shape::Reader shape) {
    std::cout << shape.getArea() << ": ";
    auto kind = shape.getKind();
    switch (kind.which()) {
    case Shape::Kind::NOTHING: std::cout << "nothing\n"; break;
    case Shape::Kind::CODE: std::cout << "code " << kind.getCode() << "\n"; break;
    case Shape::Kind::SQUARE: {
        auto of = kind.getSquare();
        std::cout << "square " << of.getSide() << " \"" << of.getLabel().cStr() << "\" " << (of.getFilled() ? "true" : "false") << "\n";
        break;
    }
    case Shape::Kind::CIRCLE: {
        auto of = kind.getCircle();
        std::cout << "circle " << of.getRadius() << " \"" << of.getName().cStr() << "\" ";
        if (of.getStyle().isDashed()) {
            auto dashed = of.getStyle().getDashed();
            std::cout << "dashed " << dashed.getLength() << " \"" << dashed.getNote().cStr() << "\"\n";
        } else {
            std::cout << "plain\n";
        }
    }
    }
}

template <typename F> static void changed(void begin(Shape::Builder), F change) {
    capnp::MallocMessageBuilder message;
    auto shape = message.initRoot<Shape>();
    begin(shape);
    change(shape.getKind());
    print(shape.asReader());
}

int main() {
    using Kind = Shape::Kind::Builder;
    changed(circle, [](Kind kind) { kind.initSquare(); });
    changed(circle, [](Kind kind) { kind.initSquare().setSide(5); });
    changed(square, [](Kind kind) { kind.getSquare().setSide(6); });
    changed(square, [](Kind kind) { kind.initCircle().getStyle().initDashed().setLength(4); });
    changed(circle, [](Kind kind) {
        kind.getCircle().getStyle().setPlain();
        kind.getCircle().getStyle().initDashed();
    });
    changed(circle, [](Kind kind) { kind.initCircle(); });
    changed(square, [](Kind kind) { kind.setCode(7); });
}
