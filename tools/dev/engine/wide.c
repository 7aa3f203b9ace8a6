/* Shifts and products of 128 bits, which the compiler calls for WebAssembly. */
typedef unsigned long half;
typedef unsigned __int128 wide;
typedef union {
    wide whole;
    struct {
        half low, high;
    } part;
} Parts;

static wide joined(half low, half high) {
    return (Parts){.part = {low, high}}.whole;
}

wide __lshrti3(wide value, int by) {
    half low = ((Parts)value).part.low, high = ((Parts)value).part.high;
    if (by & 64) return joined(high >> (by & 63), 0);
    if (by == 0) return value;
    return joined(low >> by | high << (64 - by), high >> by);
}

wide __ashlti3(wide value, int by) {
    half low = ((Parts)value).part.low, high = ((Parts)value).part.high;
    if (by & 64) return joined(0, low << (by & 63));
    if (by == 0) return value;
    return joined(low << by, high << by | low >> (64 - by));
}

__int128 __ashrti3(__int128 value, int by) {
    half low = ((Parts)(wide)value).part.low;
    long high = (long)((Parts)(wide)value).part.high;
    if (by & 64) return (__int128)joined((half)(high >> (by & 63)), (half)(high >> 63));
    if (by == 0) return value;
    return (__int128)joined(low >> by | (half)high << (64 - by), (half)(high >> by));
}

/* The product of two halves. */
static wide product(half a, half b) {
    half a_low = a & 0xffffffff, a_high = a >> 32, b_low = b & 0xffffffff, b_high = b >> 32;
    half low = a_low * b_low, middle = a_high * b_low + (low >> 32), more = a_low * b_high + (middle & 0xffffffff);
    return joined(more << 32 | (low & 0xffffffff), a_high * b_high + (middle >> 32) + (more >> 32));
}

wide __multi3(wide a, wide b) {
    Parts low = {product(((Parts)a).part.low, ((Parts)b).part.low)};
    half crossed = ((Parts)a).part.high * ((Parts)b).part.low + ((Parts)a).part.low * ((Parts)b).part.high;
    return joined(low.part.low, low.part.high + crossed);
}
