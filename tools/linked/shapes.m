// Classes, categories, protocols and properties, of a dylib.
#include "nsobject.h"

@protocol Drawing
- (void)drawAt:(Point)where;
+ (BOOL)canDraw;
@property(readonly) double area;
@optional
- (void)highlight;
+ (id)defaultStyle;
@end

@protocol Naming <Drawing>
@property(copy, nonatomic) NSString *name;
@end

@interface Shape : NSObject <Drawing> {
    Point origin;
    char kind;
}
@property(readonly) double area;
@property(copy, nonatomic) NSString *name;
@property(class, readonly) int count;
- (id)initWithKind:(char)k;
@end

@implementation Shape
@synthesize area = _area;
@synthesize name = _name;
+ (int)count {
    return 0;
}
+ (BOOL)canDraw {
    return 1;
}
- (id)initWithKind:(char)k {
    kind = k;
    return self;
}
- (void)drawAt:(Point)where {
    origin = where;
}
@end

@interface Circle : Shape <Naming> {
    double radius;
    unsigned filled : 1;
}
@property(getter=isRound, setter=makeRound:) BOOL round;
@end

@implementation Circle
@synthesize round = _round;
- (double)area {
    return radius * radius * 3;
}
- (void)drawAt:(Point)where {
    [super drawAt:where];
}
@end

@interface Shape (Moving) <NSCopying>
- (void)moveBy:(Point)step;
+ (id)unit;
@property(readonly) Point centre;
@end

@implementation Shape (Moving)
- (void)moveBy:(Point)step {
    origin.x += step.x;
    origin.y += step.y;
}
+ (id)unit {
    return [[Circle alloc] init];
}
- (Point)centre {
    return origin;
}
- (id)copyWithZone:(void *)zone {
    return self;
}
@end

// A category of a class that is elsewhere.
@interface NSString (Shapes)
- (Shape *)shape;
@end

@implementation NSString (Shapes)
- (Shape *)shape {
    return [[Shape alloc] initWithKind:'s'];
}
@end

// A class that is loaded early: it stands in the list of non-lazy classes too.
@interface Registry : NSObject
@end

@implementation Registry
+ (void)load {
}
@end
