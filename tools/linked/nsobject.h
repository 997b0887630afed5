// What the sources use of Foundation, declared: its classes are elsewhere, so that the linker binds them.
typedef signed char BOOL;
typedef struct {
    double x, y;
} Point;

@protocol NSCopying
- (id)copyWithZone:(void *)zone;
@end

__attribute__((objc_root_class)) @interface NSObject {
    Class isa;
}
+ (id)alloc;
- (id)init;
@end

@interface NSString : NSObject
@end
