// A program with a class of its own.
#include "nsobject.h"

@interface Controller : NSObject {
    NSString *title;
    long count[4];
}
- (void)run;
@end

@implementation Controller
- (void)run {
    count[0]++;
}
@end

int main(void) {
    [[[Controller alloc] init] run];
    return 0;
}
