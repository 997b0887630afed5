// A dylib without Objective-C.
int answer(void) {
    return 42;
}
