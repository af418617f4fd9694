// The product of numbers of 128 bits, which a compiler calls of itself. Nothing proves it.

typedef unsigned long half;
typedef unsigned __int128 wide;

#define QUARTER 0xfffffffful

wide __multi3(wide left, wide right) {
    half a = (half)left, b = (half)right;
    half a0 = a & QUARTER, a1 = a >> 32, b0 = b & QUARTER, b1 = b >> 32;
    half low = a0 * b0;
    half first = a1 * b0 + (low >> 32);
    half second = a0 * b1 + (first & QUARTER);
    half high = a1 * b1 + (first >> 32) + (second >> 32);
    high += a * (half)(right >> 64) + (half)(left >> 64) * b;
    return (wide)high << 64 | (second << 32 | (low & QUARTER));
}
